//! Books written down by hand.

use crate::written::{LIST, book_of, entry, property};
use checkpoint_records::{Book, Entry, EntryList};
use ice_values::PropertyList;
use owned_lists::{Command, CommandList, NoMemory};
use restart_plan::{plan, respawn};
use std::alloc::{Alloc, Global};
use std::process::Abort;
use std::test::Fail;
use test_tables::expect_rows;

/// What a client says of itself: its RestartCommand and its RestartStyleHint.
fn sayings(alloc: Global, program: &[u8], hint: u8) -> Result<PropertyList, NoMemory> {
    let mut list = PropertyList::new(alloc);
    list.push(property(alloc, b"RestartCommand", LIST, program)?)?;
    list.push(property(alloc, b"RestartStyleHint", b"CARD8", &[hint])?)?;
    Ok(list)
}

/// The entry of a client with this RestartCommand and this RestartStyleHint.
fn entry_of(alloc: Global, word: &str) -> Result<Entry, Fail> {
    let (program, hint) = word.split_once('=').ok_or("no hint")?;
    let list = sayings(alloc, program.as_bytes(), hint.parse::<u8>()?)?;
    Ok(entry(alloc, b"smd-00000001-00000001", &list)?)
}

/// The book of the entries that these words stand for.
fn book_from(alloc: Global, words: &str) -> Result<Book, Fail> {
    let mut entries = EntryList::new(alloc);
    for word in words.split(' ') {
        entries.push(entry_of(alloc, word)?)?;
    }
    Ok(book_of(alloc, entries)?)
}

/// The words of commands, each with a bar behind it.
fn words_of(alloc: Global, commands: &[Command]) -> Result<String, Fail> {
    let mut text = String::new(alloc);
    for command in commands {
        add_words(&mut text, command)?;
    }
    Ok(text)
}

fn add_words(text: &mut String, command: &Command) -> Result<(), Fail> {
    for word in command.words.as_slice() {
        text.push_str(str::from_utf8(word.as_slice())?)?;
        text.push('|')?;
    }
    Ok(())
}

fn planned(alloc: Global, words: &str) -> Result<String, Fail> {
    let book = book_from(alloc, words)?;
    words_of(alloc, plan(alloc, &book)?.as_slice())
}

/// One client for each hint, one without a RestartCommand, and one more.
#[test]
fn all_but_those_with_the_hint_never_are_started(rt: HostRuntime) -> Result<(), Fail> {
    expect_rows(&rt, "a=0 b=1 c=2 d=3 =0 f=0 => a|b|c|f|", planned)
}

/// What is started as the client of an entry departs that was started so often: its words, or nothing.
fn respawned(alloc: Global, input: &str) -> Result<String, Fail> {
    let (word, count) = input.split_once(' ').ok_or("no count")?;
    let entry = entry_of(alloc, word)?;
    let mut commands = CommandList::new(alloc);
    if let Some(command) = respawn(alloc, &entry, count.parse::<u32>()?)? {
        commands.push(command)?;
    }
    words_of(alloc, commands.as_slice())
}

const RESPAWNED: &str = "\
c=2 0 => c|
c=2 4 => c|
c=2 5 => 
c=1 0 => 
=2 0 => ";

#[test]
fn a_client_is_started_again_five_times(rt: HostRuntime) -> Result<(), Fail> {
    expect_rows(&rt, RESPAWNED, respawned)
}
