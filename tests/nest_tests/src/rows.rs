//! Rows of calls: the words, the script, the turns and the failing call, and what comes of them.

use crate::calls::called;
use std::alloc::Global;
use std::test::Fail;
use test_tables::expect_rows;

/// A script by its name.
fn script_of(name: &str) -> &'static [u8] {
    match name {
        "a join" => b"join 1\n",
        "a join of 0" => b"join 0\n",
        "a join of x" => b"# nothing\njoin x\n",
        "an end of 0" => b"gone 0\npiece 0 0001000000000000\n",
        _ => b"",
    }
}

/// The words of a session, where a row has the first of them and what else is to stand behind them.
const SERVE: &str =
    "serve --socket /s --control /c --store /f --authority /a --outer /x --outer-authority /y";

/// The words of a row, whose first may stand for those of a whole session.
fn words_of(alloc: Global, words: &str) -> Result<String, Fail> {
    match words.strip_prefix("all") {
        Some(rest) => Ok(format!(in alloc; "{SERVE}{rest}")?),
        None => Ok(words.to_string(alloc)?),
    }
}

/// The four fields of a row.
fn fields_of(row: &str) -> Result<(&str, &str, u64, u64), Fail> {
    let Some((words, rest)) = row.split_once("; ") else {
        return Err("a row without a script".into());
    };
    let Some((script, rest)) = rest.split_once("; ") else {
        return Err("a row without turns".into());
    };
    let Some((turns, failing)) = rest.split_once("; ") else {
        return Err("a row without a failing call".into());
    };
    Ok((
        words,
        script,
        turns.parse::<u64>()?,
        failing.parse::<u64>()?,
    ))
}

/// The status of a row's call, and what was printed.
fn told(alloc: Global, row: &str) -> Result<String, Fail> {
    let (words, script, turns, failing) = fields_of(row)?;
    let words = words_of(alloc, words)?;
    let (status, text) = called(alloc, words.as_str(), script_of(script), turns, failing)?;
    Ok(format!(in alloc; "{status} {:?}", text.as_str())?)
}

/// As many turns as lines don't reach the end. A connection 0 is the outer manager's, and what comes on
/// it behind its end is nothing.
const REHEARSALS: &str = "\
rehearse; nothing; 9; 0 => 0 \"sent 0 0001000000000000\\nend\\n|\"
rehearse; nothing; 0; 0 => 9 \"sent 0 0001000000000000\\n|smnest: turns spent\\n|\"
rehearse; a join; 1; 0 => 9 \"sent 0 0001000000000000\\njoin 1\\nsent 1 0001000000000000\\n|smnest: turns spent\\n|\"
rehearse; a join of 0; 9; 0 => 0 \"sent 0 0001000000000000\\njoin 0\\nend\\n|\"
rehearse; an end of 0; 9; 0 => 0 \"sent 0 0001000000000000\\ngone 0\\npiece 0 0001000000000000\\nend\\n|\"
rehearse; a join of x; 9; 0 => 7 \"smnest: bad script line 2\\n|\"
rehearse; a join; 9; 1 => 6 \"\"
rehearse; a join; 9; 3 => 6 \"\"";

#[test]
fn a_rehearsal_is_told(rt: HostRuntime) -> Result<(), Fail> {
    expect_rows(&rt, REHEARSALS, told)
}

/// Words that ask for nothing, and IDs.
const WORDS: &str = "\
; nothing; 9; 0 => 1 \"smnest: bad words\\n|\"
; nothing; 9; 1 => 1 \"\"
rehearse 5; nothing; 9; 0 => 1 \"smnest: bad words\\n|\"
rehearse --outer-id x; nothing; 9; 0 => 0 \"sent 0 0001000000000000\\nend\\n|\"
rehearse --outer-id 512; nothing; 9; 0 => 0 \"sent 0 0001000000000000\\nend\\n|\"
rehearse --outer-id 513; nothing; 9; 0 => 1 \"smnest: bad words\\n|\"
rehearse --outer-id \u{e9}; nothing; 9; 0 => 1 \"smnest: bad words\\n|\"
rehearse --outer-id x --outer-id x; nothing; 9; 0 => 1 \"smnest: bad words\\n|\"
rehearse --outer-id; nothing; 9; 0 => 1 \"smnest: bad words\\n|\"
all --outer /x; nothing; 9; 0 => 1 \"smnest: bad words\\n|\"
all --patience 0; nothing; 9; 0 => 1 \"smnest: bad words\\n|\"
all --session a\u{e9}; nothing; 9; 0 => 1 \"smnest: bad words\\n|\"
all --session a --session a; nothing; 9; 0 => 1 \"smnest: bad words\\n|\"
all --outer-id LONG; nothing; 9; 0 => 1 \"smnest: bad words\\n|\"
exercise 1 1; nothing; 9; 0 => 1 \"smnest: bad words\\n|\"";

#[test]
fn words_ask_for_something_or_nothing(rt: HostRuntime) -> Result<(), Fail> {
    expect_rows(&rt, WORDS, told)
}

/// In memory the file that is fetched is empty, so there is no outer cookie.
const SESSIONS: &str = "\
all; nothing; 9; 0 => 14 \"smnest: no outer cookie\\n|\"
all --patience 1000; nothing; 9; 0 => 14 \"smnest: no outer cookie\\n|\"
all --session work; nothing; 9; 0 => 14 \"smnest: no outer cookie\\n|\"
all --outer-id x; nothing; 9; 0 => 14 \"smnest: no outer cookie\\n|\"
all --outer-id x --patience 1000; nothing; 9; 0 => 14 \"smnest: no outer cookie\\n|\"
all; nothing; 9; 1 => 5 \"smnest: link fault\\n|\"
all; nothing; 9; 2 => 14 \"\"";

#[test]
fn a_session_wants_an_outer_cookie(rt: HostRuntime) -> Result<(), Fail> {
    expect_rows(&rt, SESSIONS, told)
}
