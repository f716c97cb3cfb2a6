//! Books as a line of text: the epoch, then each session with its entries, then `!` before each
//! pending command. An entry is the epoch and the number of its ID, and behind `=` the word of its
//! DiscardCommand; behind `*` stands how many there are, with the numbers that follow, and behind `+` the
//! word of the RestartCommand. So `3 default:1-1=d,1-2 work:2-1*4+run !e` has the epoch 3, two entries
//! of `default`, four of `work`, which are started again, and one pending command.

use checkpoint_records::{
    Book, Entry, EntryList, NamedList, SharedEntries, chosen_from, default_name, stored,
};
use ice_values::{Array8List, Property, PropertyList};
use owned_lists::{Command, CommandList, NoMemory, Octets, OctetsList, PairList};
use std::alloc::Global;
use std::test::Fail;
use xsmp_properties::{PropertyTable, command_of};

/// A command of this word alone.
pub fn command(alloc: Global, word: &str) -> Result<Command, NoMemory> {
    let mut words = OctetsList::new(alloc);
    words.push(Octets::from_slice(alloc, word.as_bytes())?)?;
    Ok(Command {
        words,
        directory: Octets::new(alloc),
        environment: PairList::new(alloc),
    })
}

/// Adds a command of this word alone, where there is one.
fn add_command(
    alloc: Global,
    name: &[u8],
    word: Option<&str>,
    list: &mut PropertyList,
) -> Result<(), NoMemory> {
    let Some(word) = word else {
        return Ok(());
    };
    let mut values = Array8List::new(alloc);
    values.push(Octets::from_slice(alloc, word.as_bytes())?)?;
    list.push(Property {
        name: Octets::from_slice(alloc, name)?,
        kind: Octets::from_slice(alloc, b"LISTofARRAY8")?,
        values,
    })
}

/// What stands in the table of an entry.
#[derive(Clone, Copy)]
struct Commands<'a> {
    discard: Option<&'a str>,
    restart: Option<&'a str>,
}

fn table(alloc: Global, commands: Commands<'_>) -> Result<PropertyTable, Fail> {
    let mut table = PropertyTable::new(alloc)?;
    let mut list = PropertyList::new(alloc);
    add_command(alloc, b"DiscardCommand", commands.discard, &mut list)?;
    add_command(alloc, b"RestartCommand", commands.restart, &mut list)?;
    match table.set(&list) {
        Ok(_) => Ok(table),
        Err(_) => Err("no table has this".into()),
    }
}

fn entry(alloc: Global, epoch: u32, number: u32, commands: Commands<'_>) -> Result<Entry, Fail> {
    let id = format!(in alloc; "smd-{epoch:08x}-{number:08x}")?;
    Ok(Entry {
        id: Octets::from_slice(alloc, id.as_bytes())?,
        table: table(alloc, commands)?,
    })
}

/// Adds the entries of one item.
fn add_item(alloc: Global, item: &str, entries: &mut EntryList) -> Result<(), Fail> {
    let (item, restart) = match item.split_once("+") {
        Some((item, word)) => (item, Some(word)),
        None => (item, None),
    };
    let (id, discard) = match item.split_once("=") {
        Some((id, word)) => (id, Some(word)),
        None => (item, None),
    };
    let commands = Commands { discard, restart };
    let (id, count) = match id.split_once("*") {
        Some((id, count)) => (id, count.parse::<u32>()?),
        None => (id, 1),
    };
    let Some((epoch, number)) = id.split_once("-") else {
        return Err("an ID without a number".into());
    };
    let (epoch, number) = (epoch.parse::<u32>()?, number.parse::<u32>()?);
    for step in 0..count {
        entries.push(entry(alloc, epoch, number.saturating_add(step), commands)?)?;
    }
    Ok(())
}

fn entries_from(alloc: Global, text: &str) -> Result<SharedEntries, Fail> {
    let mut entries = EntryList::new(alloc);
    for item in text.split(",") {
        add_item(alloc, item, &mut entries)?;
    }
    Ok(SharedEntries::new(alloc, entries)?)
}

/// The book of a line.
pub fn book_from(alloc: Global, line: &str) -> Result<Book, Fail> {
    let (epoch, rest) = line.split_once(" ").unwrap_or((line, ""));
    let mut all = NamedList::new(alloc);
    let mut pending = CommandList::new(alloc);
    for word in rest.split(" ") {
        if let Some((name, items)) = word.split_once(":") {
            let name = Octets::from_slice(alloc, name.as_bytes())?;
            all = stored(name, entries_from(alloc, items)?, all)?;
        } else if let Some(word) = word.strip_prefix("!") {
            pending.push(command(alloc, word)?)?;
        }
    }
    let name = default_name(alloc)?;
    let epoch = epoch.parse::<u32>()?;
    Ok(chosen_from(alloc, name, all, pending, epoch)?)
}

fn put_entry(alloc: Global, text: &mut String, entry: &Entry) -> Result<(), Fail> {
    text.push_str(str::from_utf8(entry.id.as_slice())?)?;
    if let Some(discard) = command_of(alloc, &entry.table, b"DiscardCommand")? {
        text.push('=')?;
        put_words(text, &discard)?;
    }
    Ok(())
}

fn put_words(text: &mut String, command: &Command) -> Result<(), Fail> {
    for word in command.words.as_slice() {
        text.push_str(str::from_utf8(word.as_slice())?)?;
    }
    Ok(())
}

fn put_session(
    alloc: Global,
    text: &mut String,
    name: &[u8],
    entries: &[Entry],
) -> Result<(), Fail> {
    text.push(' ')?;
    text.push_str(str::from_utf8(name)?)?;
    for entry in entries {
        text.push(' ')?;
        put_entry(alloc, text, entry)?;
    }
    Ok(())
}

/// The book as a line: the epoch, the chosen session and the others, each with the IDs of its
/// entries and their commands, and the pending commands.
pub fn shown(alloc: Global, book: &Book) -> Result<String, Fail> {
    let epoch = book.epoch;
    let mut text = format!(in alloc; "{epoch}")?;
    put_session(
        alloc,
        &mut text,
        book.name.as_slice(),
        book.entries.as_slice(),
    )?;
    for other in book.others.as_slice() {
        put_session(
            alloc,
            &mut text,
            other.name.as_slice(),
            other.entries.as_slice(),
        )?;
    }
    for command in book.pending.as_slice() {
        text.push_str(" !")?;
        put_words(&mut text, command)?;
    }
    Ok(text)
}
