//! Each call once: what a book and a store of another size are told as, and the words.

use checkpoint_records::{Book, Named, SharedEntries, read_book};
use owned_lists::Octets;
use std::alloc::{Alloc, Global};
use std::process::Abort;
use std::test::Fail;
use store_report::{
    Finding, Refusal, look_into, read_check, read_sessions, report_json, report_lines,
    sessions_report, take_session,
};
use test_tables::expect_rows;

/// A book of epoch 2: an entry with a program, a hint, two commands and a property that is no text;
/// an entry without any; and a pending command.
const BOOK: &str = "\
    0100000002000000020000000100000015000000736d642d30303030303030312d3030303030303031000000\
    0000000005000000000000000700000050726f6772616d000000000006000000415252415938000000000000\
    01000000000000000a0000002f62696e2f787465726d000010000000526573746172745374796c6548696e74\
    0000000005000000434152443800000000000000010000000000000001000000010000000e00000052657374\
    617274436f6d6d616e640000000000000c0000004c4953546f66415252415938040000000000000005000000\
    787465726d000000000000000900000074776f20776f7264730000000300000061225c000000000000000000\
    0e00000044697363617264436f6d6d616e640000000000000c0000004c4953546f6641525241593802000000\
    0000000002000000726d000005000000c3bcc2a91b00000000000000050000004f7468657200000000000000\
    06000000415252415938000000000000010000000000000002000000ff00000015000000736d642d30303030\
    303030312d3030303030303032000000000000000000000000000000020000000000000002000000726d0000\
    02000000c3bc0000010000002f000000020000000000000001000000410000000100000031000000";

const LINES: &str = "\
    store opens: epoch 2, entries 2, starts 1, pending 1\n\
    entry smd-00000001-00000001\n\
    \x20\x20program /bin/xterm\n\
    \x20\x20hint Anyway\n\
    \x20\x20restart xterm \"two words\" \"a\\x22\\x5c\" \"\"\n\
    \x20\x20discard rm \"ü©\\x1b\"\n\
    entry smd-00000001-00000002\n\
    \x20\x20hint IfRunning\n\
    pending rm ü\n";

const EMPTY: &str =
    "{\n  \"living\": true,\n  \"epoch\": 0,\n  \"starts\": 0,\n  \"entries\": [],\n  \
    \"others\": [],\n  \"pending\": []\n}";

/// A book of two sessions: one whose name has a quotation mark, with an entry, and `default` with two
/// that start programs.
const SESSIONS: &str = "\
    020000000100000002000000000000000300000061226200010000000000000015000000736d642d30303030\
    303030312d30303030303030330000000000000000000000000000000700000064656661756c740000000000\
    020000000000000015000000736d642d30303030303030312d30303030303030310000000000000001000000\
    000000000e00000052657374617274436f6d6d616e640000000000000c0000004c4953546f66415252415938\
    020000000000000005000000787465726d00000000000000020000002d65000015000000736d642d30303030\
    303030312d30303030303030320000000000000001000000000000000e00000052657374617274436f6d6d61\
    6e640000000000000c0000004c4953546f6641525241593801000000000000000900000074776f20776f7264\
    73000000";

const SESSION_LINES: &str = "\
    store in use: a copy of a living store\n\
    session \"a\\x22b\" entries 1 starts\n\
    session default entries 2 starts xterm \"two words\"\n";

fn expect_text(rt: &impl Abort, text: &Octets, wanted: &str) -> Result<(), Fail> {
    assert_eq!(rt; str::from_utf8(text.as_slice()), Ok(wanted));
    Ok(())
}

/// The book that these digits spell.
fn book_of(alloc: Global, digits: &str) -> Result<Book, Fail> {
    match hex::decode(alloc, digits.as_bytes()) {
        Ok(bytes) => match read_book(alloc, bytes.as_slice()) {
            Ok(book) => Ok(book),
            Err(_) => Ok(Book::empty(alloc)?),
        },
        Err(_) => Ok(Book::empty(alloc)?),
    }
}

#[test]
fn a_book_is_shown_line_by_line(rt: HostRuntime) -> Result<(), Fail> {
    let alloc = rt.alloc();
    let finding = Finding::Opens(book_of(alloc, BOOK)?);
    let text = report_lines(alloc, &finding, false, None)?;
    expect_text(&rt, &text, LINES)
}

#[test]
fn an_empty_book_is_shown_as_json(rt: HostRuntime) -> Result<(), Fail> {
    let alloc = rt.alloc();
    let finding = Finding::Opens(Book::empty(alloc)?);
    let text = report_json(alloc, &finding, true)?;
    expect_text(&rt, &text, EMPTY)
}

#[test]
fn another_size_is_told(rt: HostRuntime) -> Result<(), Fail> {
    let alloc = rt.alloc();
    let finding = look_into(alloc, Octets::from_slice(alloc, b"abc")?)?;
    assert_eq!(rt; finding.status(), 3);
    let text = report_lines(alloc, &finding, false, None)?;
    expect_text(&rt, &text, "smd: store has size 3\n")
}

#[test]
fn the_words_ask_for_lines_or_json(rt: HostRuntime) -> Result<(), Fail> {
    let alloc = rt.alloc();
    let mut words = Vec::new(alloc);
    words.push("store-check".to_string(alloc)?)?;
    words.push("--store".to_string(alloc)?)?;
    words.push("f".to_string(alloc)?)?;
    assert_eq!(rt; read_check(&words).map(|check| check.is_json), Some(false));
    words.push("--json".to_string(alloc)?)?;
    assert_eq!(rt; read_check(&words).map(|check| check.is_json), Some(true));
    words.push("more".to_string(alloc)?)?;
    assert_eq!(rt; read_check(&words).is_none(), true);
    Ok(())
}

/// What is answered to a session of this name over a book of so many other sessions and of this epoch.
fn answered(alloc: Global, others: u8, epoch: u32, name: &[u8]) -> Result<Option<Refusal>, Fail> {
    let mut book = Book::empty(alloc)?;
    book.epoch = epoch;
    for number in 0..others {
        let named = Named {
            name: Octets::from_slice(alloc, &[b'a', b'0' + number])?,
            entries: one_entry(alloc)?,
        };
        book.others.push(named)?;
    }
    let name = Octets::from_slice(alloc, name)?;
    Ok(Finding::Opens(book).refusal(alloc, Some(&name))?)
}

/// The entries of the session `default` of a book.
fn one_entry(alloc: Global) -> Result<SharedEntries, Fail> {
    Ok(book_of(alloc, BOOK)?.entries)
}

#[test]
fn a_session_is_refused(rt: HostRuntime) -> Result<(), Fail> {
    let alloc = rt.alloc();
    assert_eq!(rt; answered(alloc, 7, 1, b"new")?, None);
    assert_eq!(rt;
        answered(alloc, 8, 1, b"new")?,
        Some(Refusal::TooManySessions)
    );
    assert_eq!(rt; answered(alloc, 8, 1, b"a7")?, None);
    assert_eq!(rt; answered(alloc, 7, u32::MAX, b"new")?, Some(Refusal::Worn));
    assert_eq!(rt;
        answered(alloc, 8, u32::MAX, b"new")?,
        Some(Refusal::TooManySessions)
    );
    let damaged = Finding::Damaged(64).refusal(alloc, None)?;
    assert_eq!(rt; damaged, None);
    let finding = Finding::Opens(Book::empty(alloc)?);
    let text = report_lines(alloc, &finding, true, Some(Refusal::Worn))?;
    expect_text(&rt, &text, WORN)
}

const WORN: &str = "\
    store in use: a copy of a living store\n\
    smd: store worn\n\
    store opens: epoch 0, entries 0, starts 0, pending 0\n";

#[test]
fn the_session_is_taken_out_of_the_words(rt: HostRuntime) -> Result<(), Fail> {
    expect_rows(&rt, TAKEN, taken)
}

/// The name that is taken out of some words, and the words that stay.
fn taken(alloc: Global, input: &str) -> Result<String, Fail> {
    let mut words = Vec::new(alloc);
    for word in input.split(' ') {
        words.push(word.to_string(alloc)?)?;
    }
    let name = take_session(&mut words);
    Ok(format!(in alloc; "{name:?} {words:?}")?)
}

const TAKEN: &str = "\
store-check --store f --session n => Some(\"n\") [\"store-check\", \"--store\", \"f\"]
store-check --session n --store f --json => Some(\"n\") [\"store-check\", \"--store\", \"f\", \"--json\"]
store-check --store f --json --session n => Some(\"n\") [\"store-check\", \"--store\", \"f\", \"--json\"]
store-check --store --session n => None [\"store-check\", \"--store\", \"--session\", \"n\"]
store-check --store f --session ü => None [\"store-check\", \"--store\", \"f\", \"--session\", \"ü\"]
store-check --store f --session => None [\"store-check\", \"--store\", \"f\", \"--session\"]
sessions --store f --session n => None [\"sessions\", \"--store\", \"f\", \"--session\", \"n\"]";

#[test]
fn sessions_are_listed(rt: HostRuntime) -> Result<(), Fail> {
    let alloc = rt.alloc();
    let finding = Finding::Opens(book_of(alloc, SESSIONS)?);
    let text = sessions_report(alloc, &finding, true)?;
    expect_text(&rt, &text, SESSION_LINES)
}

#[test]
fn the_words_ask_for_sessions(rt: HostRuntime) -> Result<(), Fail> {
    let alloc = rt.alloc();
    let mut words = Vec::new(alloc);
    words.push("sessions".to_string(alloc)?)?;
    words.push("--store".to_string(alloc)?)?;
    assert_eq!(rt; read_sessions(&words), None);
    words.push("f".to_string(alloc)?)?;
    assert_eq!(rt; read_sessions(&words), Some("f"));
    Ok(())
}
