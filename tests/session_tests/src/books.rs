//! Books and clients written down by hand.
ghost use Rattle.std.specs.Prelude.{◌≡◌, false};
ghost use Rattle.session_clients.specs.Clients.{is_reply as is_reply_message};

use crate::written::{LIST, book_of, entry, property, table};
use checkpoint_records::{Book, Entry, EntryList};
use ice_values::{Array8, PropertyList, SaveKind, SaveStyle};
use owned_lists::{Command, NoMemory, Octets};
use round_agreement::{Round, Wanted};
use session_books::{command_anyway, entries_without, last_commands, next_entries};
use session_clients::Clients;
use sm_world::{Conn, ConnList};
use std::alloc::{Alloc, Global};
use std::process::Abort;
use std::test::Fail;
use test_tables::{expect_rows, text_of};
use xsmp_messages::XsmpMessage;
use xsmp_properties::{SetRefusal, command_of};

/// What a client says of itself: its RestartCommand, which is its ShutdownCommand too, and its
/// RestartStyleHint.
fn sayings(alloc: Global, program: &[u8], hint: u8) -> Result<PropertyList, NoMemory> {
    let mut list = PropertyList::new(alloc);
    for name in [b"RestartCommand".as_slice(), b"ShutdownCommand"] {
        list.push(property(alloc, name, LIST, program)?)?;
    }
    list.push(property(alloc, b"RestartStyleHint", b"CARD8", &[hint])?)?;
    Ok(list)
}

/// The entry of a client of the last session, by its ID and its hint.
fn old_entry(alloc: Global, word: &str) -> Result<Entry, Fail> {
    let (id, hint) = word.split_once('=').ok_or("no hint")?;
    let list = sayings(alloc, b"old", hint.parse::<u8>()?)?;
    Ok(entry(alloc, id.as_bytes(), &list)?)
}

/// The clients a, b, c and d of the last session, of which c and d may start again anyway.
fn example(alloc: Global) -> Result<Book, Fail> {
    let mut entries = EntryList::new(alloc);
    for word in "a=0 b=0 c=1 d=1".split(' ') {
        entries.push(old_entry(alloc, word)?)?;
    }
    Ok(book_of(alloc, entries)?)
}

fn save_yourself() -> XsmpMessage
    ensures { is_reply_message result ≡ false }
{
    XsmpMessage::SaveYourself {
        kind: SaveKind::Local,
        shutdown: false,
        style: SaveStyle::Nothing,
        fast: false,
    }
}

/// A client registers and saves.
fn come(
    alloc: Global,
    clients: &mut Clients,
    conn: Conn,
    id: &[u8],
    success: bool,
) -> Result<(), SetRefusal> {
    clients.join(conn)?;
    clients.ready(conn);
    let id = Octets::from_slice(alloc, id)?;
    let table = table(alloc, &sayings(alloc, b"new", 0)?)?;
    clients.register(conn, id, table)?;
    clients.give(conn, &save_yourself());
    clients.hear(conn, &XsmpMessage::SaveYourselfDone { success }, None)?;
    Ok(())
}

/// The client d is there on the first connection, and a new one on the second.
fn two(alloc: Global, success: bool) -> Result<Clients, SetRefusal> {
    let mut clients = Clients::new(alloc);
    come(alloc, &mut clients, 1, b"d", success)?;
    come(alloc, &mut clients, 2, b"e", success)?;
    Ok(clients)
}

/// A round of both connections.
fn round(alloc: Global, shutdown: bool) -> Result<Round, NoMemory> {
    let mut conns = ConnList::new(alloc);
    conns.push(1)?;
    conns.push(2)?;
    let wanted = Wanted {
        only: None,
        from: None,
        kind: SaveKind::Local,
        shutdown,
        style: SaveStyle::Nothing,
        fast: false,
    };
    Round::begin(alloc, conns, wanted)
}

/// Adds the words of a command, with a bar behind.
fn add_command(text: &mut Octets, command: &Command) -> Result<(), NoMemory> {
    for word in command.words.as_slice() {
        text.append(word.as_slice())?;
    }
    text.append(b"|")
}

/// The ID and the RestartCommand of each entry.
fn text_of_entries(alloc: Global, entries: &[Entry]) -> Result<Octets, NoMemory> {
    let mut text = Octets::new(alloc);
    for entry in entries {
        text.append(entry.id.as_slice())?;
        text.append(b" ")?;
        if let Some(command) = command_of(alloc, &entry.table, b"RestartCommand")? {
            add_command(&mut text, &command)?;
        }
    }
    Ok(text)
}

/// The client b is expected.
fn expected(alloc: Global) -> Result<[Array8; 1], NoMemory> {
    Ok([Octets::from_slice(alloc, b"b")?])
}

/// The next entries of these clients, after a round of both.
fn next_shown(alloc: Global, clients: &Clients, round: &Round) -> Result<String, Fail> {
    let book = example(alloc)?;
    let expected = expected(alloc)?;
    let entries = next_entries(alloc, clients, round, &book, &expected)?;
    entries_shown(alloc, entries.as_slice())
}

fn entries_shown(alloc: Global, entries: &[Entry]) -> Result<String, Fail> {
    Ok(str::from_utf8(text_of_entries(alloc, entries)?.as_slice())?.to_string(alloc)?)
}

/// The same, by whether the saves were a success, and whether this is a shutdown.
fn led_to(alloc: Global, input: &str) -> Result<String, Fail> {
    let (success, shutdown) = input.split_once(' ').ok_or("two words")?;
    let clients = two(alloc, success == "saved")?;
    let round = round(alloc, shutdown == "shutdown")?;
    next_shown(alloc, &clients, &round)
}

/// A checkpoint keeps who is expected, a shutdown doesn't, and a failed save keeps the old entry.
const NEXT: &str = "\
saved checkpoint => b old|c old|d new|e new|
saved shutdown => c old|d new|e new|
failed shutdown => c old|d old|";

#[test]
fn entries_are_kept_or_new(rt: HostRuntime) -> Result<(), Fail> {
    expect_rows(&rt, NEXT, led_to)
}

fn without_shown(alloc: Global, id: &str) -> Result<String, Fail> {
    let entries = entries_without(alloc, &example(alloc)?, id.as_bytes())?;
    entries_shown(alloc, entries.as_slice())
}

#[test]
fn an_entry_is_left_out(rt: HostRuntime) -> Result<(), Fail> {
    expect_rows(&rt, "b => a old|c old|d old|", without_shown)
}

/// Whether a client of the last session has a command for its end.
fn anyway_shown(alloc: Global, word: &str) -> Result<String, Fail> {
    let entry = old_entry(alloc, word)?;
    let command = command_anyway(alloc, &entry, b"ShutdownCommand")?;
    text_of(alloc, &command.is_some())
}

#[test]
fn commands_are_of_the_hint_anyway(rt: HostRuntime) -> Result<(), Fail> {
    expect_rows(&rt, "a=1 => true\na=0 => false", anyway_shown)
}

fn commands_shown(alloc: Global, commands: &[Command]) -> Result<String, Fail> {
    let mut text = Octets::new(alloc);
    for command in commands {
        add_command(&mut text, command)?;
    }
    Ok(str::from_utf8(text.as_slice())?.to_string(alloc)?)
}

fn last_shown(alloc: Global, _input: &str) -> Result<String, Fail> {
    let clients = two(alloc, true)?;
    let entries = example(alloc)?.entries.into_list()?;
    commands_shown(alloc, last_commands(alloc, &clients, &entries)?.as_slice())
}

#[test]
fn who_is_there_needs_no_last_command(rt: HostRuntime) -> Result<(), Fail> {
    expect_rows(&rt, " => old|", last_shown)
}
