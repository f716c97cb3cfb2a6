use checkpoint_records::Entry;
use ice_values::{Array8List, Property, PropertyList};
use owned_lists::{NoMemory, Octets};
use start_waves::{priority_of, ranks_of};
use std::alloc::{Alloc, Global};
use std::process::Abort;
use std::test::Fail;
use test_tables::expect_rows;
use xsmp_properties::PropertyTable;

/// A property of this name and kind, with a value for each of these texts.
fn property(alloc: Global, name: &str, kind: &str, values: &str) -> Result<Property, NoMemory> {
    let mut list = Array8List::new(alloc);
    for value in values.split(',') {
        list.push(Octets::from_slice(alloc, value.as_bytes())?)?;
    }
    Ok(Property {
        name: Octets::from_slice(alloc, name.as_bytes())?,
        kind: Octets::from_slice(alloc, kind.as_bytes())?,
        values: list,
    })
}

/// The table of properties, each of which is its name, its kind and its values.
fn table(alloc: Global, text: &str) -> Result<PropertyTable, Fail> {
    let mut list = PropertyList::new(alloc);
    for row in text.split(' ') {
        let (name, rest) = row.split_once(':').ok_or("no kind")?;
        let (kind, values) = rest.split_once(':').ok_or("no values")?;
        list.push(property(alloc, name, kind, values)?)?;
    }
    let mut table = PropertyTable::new(alloc)?;
    if table.set(&list).is_err() {
        return Err("the table is full".into());
    }
    Ok(table)
}

fn priority(alloc: Global, text: &str) -> Result<String, Fail> {
    Ok(priority_of(&table(alloc, text)?).to_string(alloc)?)
}

const ROWS: &str = "\
_GSM_Priority:CARD8:A => 65
_GSM_Priority:CARD8:~ => 126
_GSM_Priority:CARD8: => 50
_GSM_Priority:CARD8:AB => 50
_GSM_Priority:CARD8:A,B => 50
_GSM_Priority:ARRAY8:A => 50
_GSM_Priorit:CARD8:A => 50
Program:ARRAY8:x _GSM_Priority:CARD8:B => 66";

#[test]
fn a_priority_is_one_byte(rt: HostRuntime) -> Result<(), Fail> {
    expect_rows(&rt, ROWS, priority)
}

/// The programs of entries with these tables.
fn ranked(alloc: Global, text: &str) -> Result<String, Fail> {
    let mut entries = Vec::new(alloc);
    for row in text.split(';') {
        entries.push(Entry {
            id: Octets::from_slice(alloc, b"id")?,
            table: table(alloc, row)?,
        })?;
    }
    let mut shown = String::new(alloc);
    for it in ranks_of(alloc, entries.as_slice())?.as_slice() {
        for word in it.command.words.as_slice() {
            shown.push_str(str::from_utf8(word.as_slice())?)?;
        }
        let priority = format!(in alloc; "={} ", it.priority)?;
        shown.push_str(priority.as_str())?;
    }
    Ok(shown)
}

const RANKED: &str = "\
RestartCommand:LISTofARRAY8:a;Program:ARRAY8:b;RestartCommand:LISTofARRAY8:c _GSM_Priority:CARD8:A => a=50 c=65 ";

#[test]
fn each_program_has_the_priority_of_its_client(rt: HostRuntime) -> Result<(), Fail> {
    expect_rows(&rt, RANKED, ranked)
}
