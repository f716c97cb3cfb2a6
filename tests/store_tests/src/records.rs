//! Books written down by hand. Words have a bar behind each.

use crate::table::{expect_rows, text_of};
use checkpoint_records::{
    Book, Entry, EntryList, Named, NamedList, SharedEntries, copy_book, default_name, names,
    same_command,
};
use ice_values::{Array8List, Property, PropertyList};
use owned_lists::{Command, CommandList, NoMemory, Octets, OctetsList, PairList};
use std::alloc::{Alloc, Global};
use std::process::Abort;
use std::test::Fail;
use xsmp_properties::PropertyTable;

fn words(alloc: Global, text: &str) -> Result<OctetsList, NoMemory> {
    let mut words = OctetsList::new(alloc);
    if let Some(all) = text.strip_suffix('|') {
        for word in all.split('|') {
            words.push(Octets::from_slice(alloc, word.as_bytes())?)?;
        }
    }
    Ok(words)
}

/// A command by its words and its directory, with a blank between.
fn command(alloc: Global, input: &str) -> Result<Command, Fail> {
    let (text, directory) = input.split_once(' ').ok_or("no directory")?;
    Ok(Command {
        words: words(alloc, text)?,
        directory: Octets::from_slice(alloc, directory.as_bytes())?,
        environment: PairList::new(alloc),
    })
}

fn property(alloc: Global, name: &str, text: &str) -> Result<Property, NoMemory> {
    let values: Array8List = words(alloc, text)?;
    Ok(Property {
        name: Octets::from_slice(alloc, name.as_bytes())?,
        kind: Octets::from_slice(alloc, b"LISTofARRAY8")?,
        values,
    })
}

/// The entry of a client that says one thing of itself.
fn entry(alloc: Global, id: &str, name: &str, text: &str) -> Result<Entry, Fail> {
    let mut list = PropertyList::new(alloc);
    list.push(property(alloc, name, text)?)?;
    let mut table = PropertyTable::new(alloc)?;
    table.set(&list)?;
    Ok(Entry {
        id: Octets::from_slice(alloc, id.as_bytes())?,
        table,
    })
}

/// A session of one client, which has a DiscardCommand.
fn another(alloc: Global) -> Result<Named, Fail> {
    let mut entries = EntryList::new(alloc);
    entries.push(entry(alloc, "three", "DiscardCommand", "rm|d|")?)?;
    Ok(Named {
        name: Octets::from_slice(alloc, b"work")?,
        entries: SharedEntries::new(alloc, entries)?,
    })
}

/// A copy of a book of two clients, of which the second has a DiscardCommand, and of another session.
fn example(alloc: Global) -> Result<Book, Fail> {
    let first = entry(alloc, "one", "RestartCommand", "rm|a|")?;
    let second = entry(alloc, "two", "DiscardCommand", "rm|b|")?;
    let mut entries = EntryList::new(alloc);
    entries.push(first)?;
    entries.push(second)?;
    let mut pending = CommandList::new(alloc);
    pending.push(command(alloc, "rm|c| ")?)?;
    let mut others = NamedList::new(alloc);
    others.push(another(alloc)?)?;
    let book = Book {
        entries: SharedEntries::new(alloc, entries)?,
        pending,
        epoch: 7,
        name: default_name(alloc)?,
        others,
    };
    Ok(copy_book(&book)?)
}

/// How many entries and pending commands there are, the epoch, and how many other sessions there are.
fn counts_shown(alloc: Global, book: &Book) -> Result<String, Fail> {
    let entries = book.entries.as_slice().len();
    let pending = book.pending.as_slice().len();
    let others = book.others.as_slice().len();
    Ok(format!(in alloc; "{entries} {pending} {} {others}", book.epoch)?)
}

fn empty_shown(alloc: Global, _input: &str) -> Result<String, Fail> {
    counts_shown(alloc, &Book::empty(alloc)?)
}

fn copy_shown(alloc: Global, _input: &str) -> Result<String, Fail> {
    counts_shown(alloc, &example(alloc)?)
}

#[test]
fn a_copy_has_all_of_a_book(rt: HostRuntime) -> Result<(), Fail> {
    expect_rows(&rt, " => 0 0 0 0", empty_shown)?;
    expect_rows(&rt, " => 2 1 7 1", copy_shown)
}

/// Whether the example names a command.
fn named_shown(alloc: Global, input: &str) -> Result<String, Fail> {
    let book = example(alloc)?;
    text_of(alloc, &names(alloc, &book, &command(alloc, input)?)?)
}

const NAMED: &str = "\
rm|b|  => true
rm|b| /home => true
rm|d|  => true
rm|a|  => false
rm|c|  => false
rm|  => false
rm|b||  => false";

#[test]
fn a_book_names_the_discard_commands_of_its_entries(rt: HostRuntime) -> Result<(), Fail> {
    expect_rows(&rt, NAMED, named_shown)
}

/// Whether a command is the same as `rm a` in `/home`.
fn same_shown(alloc: Global, input: &str) -> Result<String, Fail> {
    let first = command(alloc, "rm|a| /home")?;
    text_of(alloc, &same_command(&first, &command(alloc, input)?))
}

const SAME: &str = "\
rm|a|  => true
rm|b| /home => false";

#[test]
fn commands_are_the_same_by_their_words(rt: HostRuntime) -> Result<(), Fail> {
    expect_rows(&rt, SAME, same_shown)
}
