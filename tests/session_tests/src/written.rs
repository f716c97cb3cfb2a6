//! Properties, tables and entries as clients write them, and books of them.

use checkpoint_records::{Book, Entry, EntryList, Named, NamedList, SharedEntries, default_name};
use ice_values::{Array8List, Property, PropertyList};
use owned_lists::{CommandList, NoMemory, Octets};
use std::alloc::Global;
use xsmp_properties::{PropertyTable, SetRefusal};

/// The kind of a command.
pub const LIST: &[u8] = b"LISTofARRAY8";

/// Words of which a command or a property consists.
pub fn words(alloc: Global, words: &[&[u8]]) -> Result<Array8List, NoMemory> {
    let mut list = Array8List::new(alloc);
    for word in words {
        list.push(Octets::from_slice(alloc, word)?)?;
    }
    Ok(list)
}

/// A property of one value.
pub fn property(
    alloc: Global,
    name: &[u8],
    kind: &[u8],
    value: &[u8],
) -> Result<Property, NoMemory> {
    Ok(Property {
        name: Octets::from_slice(alloc, name)?,
        kind: Octets::from_slice(alloc, kind)?,
        values: words(alloc, &[value])?,
    })
}

/// A property of the kind of commands, whose words are `rm` and this one.
pub fn removal(alloc: Global, name: &[u8], file: &[u8]) -> Result<PropertyList, NoMemory> {
    let mut list = PropertyList::new(alloc);
    list.push(Property {
        name: Octets::from_slice(alloc, name)?,
        kind: Octets::from_slice(alloc, LIST)?,
        values: words(alloc, &[b"rm", file])?,
    })?;
    Ok(list)
}

/// The table in which these are set.
pub fn table(alloc: Global, list: &PropertyList) -> Result<PropertyTable, SetRefusal> {
    let mut table = PropertyTable::new(alloc)?;
    table.set(list)?;
    Ok(table)
}

/// The entry of a client that says this of itself.
pub fn entry(alloc: Global, id: &[u8], list: &PropertyList) -> Result<Entry, SetRefusal> {
    Ok(Entry {
        id: Octets::from_slice(alloc, id)?,
        table: table(alloc, list)?,
    })
}

fn book_with(alloc: Global, entries: EntryList, others: NamedList) -> Result<Book, NoMemory> {
    Ok(Book {
        entries: SharedEntries::new(alloc, entries)?,
        pending: CommandList::new(alloc),
        epoch: 0,
        name: default_name(alloc)?,
        others,
    })
}

/// A book of these entries.
pub fn book_of(alloc: Global, entries: EntryList) -> Result<Book, NoMemory> {
    book_with(alloc, entries, NamedList::new(alloc))
}

/// A book of these entries, beside another session of those.
pub fn book_beside(alloc: Global, entries: EntryList, other: EntryList) -> Result<Book, NoMemory> {
    let mut others = NamedList::new(alloc);
    others.push(Named {
        name: Octets::from_slice(alloc, b"other")?,
        entries: SharedEntries::new(alloc, other)?,
    })?;
    book_with(alloc, entries, others)
}
