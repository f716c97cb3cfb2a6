use adopted_words::{Rule, RuleList, are_never, are_restart_only, read_rules, words_for};
use std::alloc::Global;
use std::test::Fail;
use test_tables::{expect_rows, text_of};

/// A rule as a word, and its name and its words each with a bar behind it.
fn rule_shown(alloc: Global, rule: &Rule) -> Result<String, Fail> {
    match rule {
        Rule::Never(name) => {
            let name = str::from_utf8(name.as_slice())?;
            Ok(format!(in alloc; "never|{name}|")?)
        }
        Rule::RestartOnly(name) => {
            let name = str::from_utf8(name.as_slice())?;
            Ok(format!(in alloc; "restart|{name}|")?)
        }
        Rule::Command { name, words } => {
            let name = str::from_utf8(name.as_slice())?;
            let mut text = format!(in alloc; "command|{name}|")?;
            for word in words.as_slice() {
                text.push_str(str::from_utf8(word.as_slice())?)?;
                text.push('|')?;
            }
            Ok(text)
        }
    }
}

/// The bytes of a file in which a slash stands for the end of a line.
fn file_of(alloc: Global, written: &str) -> Result<String, Fail> {
    let mut text = String::new(alloc);
    for (at, line) in written.split('/').enumerate() {
        if at > 0 {
            text.push('\n')?;
        }
        text.push_str(line)?;
    }
    Ok(text)
}

/// The rules of a file.
fn file_shown(alloc: Global, written: &str) -> Result<String, Fail> {
    let text = file_of(alloc, written)?;
    let rules = match read_rules(alloc, text.as_bytes()) {
        Ok(rules) => rules,
        Err(fault) => return text_of(alloc, &fault),
    };
    let mut shown = String::new(alloc);
    for rule in rules.as_slice() {
        shown.push_str(rule_shown(alloc, rule)?.as_str())?;
    }
    Ok(shown)
}

const RULES: &str = "\
never gimp => never|gimp|
 =>\u{20}
/ =>\u{20}
# a comment/ =>\u{20}
#never gimp =>\u{20}
never gimp/ => never|gimp|
never gimp//# and/restart-only gvim/ => never|gimp|restart|gvim|
command c chromium => command|c|chromium|
command chromium chromium --new-window => command|chromium|chromium|--new-window|
command a b c d/never a/never a => command|a|b|c|d|never|a|never|a|
never never => never|never|
command command command => command|command|command|
never Zürich => never|Zürich|";

#[test]
fn lines_say_rules(rt: HostRuntime) -> Result<(), Fail> {
    expect_rows(&rt, RULES, file_shown)
}

const BAD: &str = "\
x => BadLine(1)
never => BadLine(1)
never  => BadLine(1)
never a b => BadLine(1)
never  a => BadLine(1)
 never a => BadLine(1)
Never a => BadLine(1)
never\ta => BadLine(1)
restart-only => BadLine(1)
restart-only a b => BadLine(1)
restart a => BadLine(1)
command a => BadLine(1)
command a  => BadLine(1)
command a b  => BadLine(1)
command a  b => BadLine(1)
command  a b => BadLine(1)
command a b\u{1}c => BadLine(1)
never a//x/y => BadLine(3)
never a/# b/ # c => BadLine(3)
never a/  => BadLine(2)";

#[test]
fn the_first_line_that_says_nothing_is_named(rt: HostRuntime) -> Result<(), Fail> {
    expect_rows(&rt, BAD, file_shown)
}

#[test]
fn a_name_is_a_text(rt: HostRuntime) -> Result<(), Fail> {
    match read_rules(rt.alloc(), b"#\nnever \xff\n") {
        Ok(_) => Err("a name that is no text is taken".into()),
        Err(fault) => {
            let shown = text_of(rt.alloc(), &fault)?;
            assert_eq!(rt; shown.as_str(), "BadLine(2)");
            Ok(())
        }
    }
}

/// What the rules say of the name `a`.
fn said_of(alloc: Global, rules: &RuleList) -> Result<String, Fail> {
    let rules = rules.as_slice();
    let (never, restart) = (are_never(rules, b"a"), are_restart_only(rules, b"a"));
    let mut text = format!(in alloc; "{never} {restart}")?;
    match words_for(rules, b"a") {
        Some(words) => {
            for word in words {
                text.push(' ')?;
                text.push_str(str::from_utf8(word.as_slice())?)?;
            }
        }
        None => text.push_str(" none")?,
    }
    Ok(text)
}

fn file_said(alloc: Global, written: &str) -> Result<String, Fail> {
    let text = file_of(alloc, written)?;
    match read_rules(alloc, text.as_bytes()) {
        Ok(rules) => said_of(alloc, &rules),
        Err(fault) => text_of(alloc, &fault),
    }
}

const SAID: &str = "\
never a => true false none
 => false false none
never b/restart-only aa/command ab x => false false none
never b/never a => true false none
restart-only a => false true none
command a x => false false x
command b x/command a y z/command a w => false false y z
never a/restart-only a/command a x => true true x";

#[test]
fn a_name_is_found(rt: HostRuntime) -> Result<(), Fail> {
    expect_rows(&rt, SAID, file_said)
}
