//! Tables and what is read from them, by cases written down by hand. The values of a property are
//! written as hex digits, each with a bar behind it.

use crate::table::{bytes_of, digits_of, expect_rows, text_of};
use ice_values::{
    Array8List, Endian, Property, PropertyList, Spelled, walk_properties, write_property_list,
};
use owned_lists::{Duplicate, NoMemory, Octets, PairList};
use std::alloc::{Alloc, Global};
use std::process::Abort;
use std::test::Fail;
use xsmp_properties::{PropertyTable, command_of, directory_of, environment_of, hint_of};

/// The bytes that are written as digits, each with a bar behind it.
fn values(alloc: Global, text: &str) -> Result<Array8List, Fail> {
    let mut values = Array8List::new(alloc);
    if let Some(all) = text.strip_suffix('|') {
        for digits in all.split('|') {
            values.push(Octets::from_vec(bytes_of(alloc, digits)?))?;
        }
    }
    Ok(values)
}

/// The same text of values.
fn digits_of_all(alloc: Global, values: &[Octets]) -> Result<String, Fail> {
    let mut text = String::new(alloc);
    for value in values {
        text.push_str(digits_of(alloc, value.as_slice())?.as_str())?;
        text.push('|')?;
    }
    Ok(text)
}

fn property(alloc: Global, name: &str, kind: &str, text: &str) -> Result<Property, Fail> {
    Ok(Property {
        name: Octets::from_slice(alloc, name.as_bytes())?,
        kind: Octets::from_slice(alloc, kind.as_bytes())?,
        values: values(alloc, text)?,
    })
}

fn single(alloc: Global, property: Property) -> Result<PropertyList, NoMemory> {
    let mut list = PropertyList::new(alloc);
    list.push(property)?;
    Ok(list)
}

/// Sets one property, of which the input says the kind and the values.
fn set(alloc: Global, table: &mut PropertyTable, name: &str, input: &str) -> Result<(), Fail> {
    let (kind, text) = input.split_once(' ').ok_or("no kind")?;
    let list = single(alloc, property(alloc, name, kind, text)?)?;
    Ok(table.set(&list)?)
}

/// A table with one property.
fn table_with(alloc: Global, name: &str, input: &str) -> Result<PropertyTable, Fail> {
    let mut table = PropertyTable::new(alloc)?;
    set(alloc, &mut table, name, input)?;
    Ok(table)
}

/// A name and its values.
fn property_shown(alloc: Global, property: &Property) -> Result<String, Fail> {
    let name = str::from_utf8(property.name.as_slice())?;
    let values = digits_of_all(alloc, property.values.as_slice())?;
    Ok(format!(in alloc; "{name}={values}")?)
}

/// The names and the values, in order.
fn shown(alloc: Global, table: &PropertyTable) -> Result<String, Fail> {
    let mut text = String::new(alloc);
    for property in table.list()?.as_slice() {
        text.push_str(property_shown(alloc, property)?.as_str())?;
    }
    Ok(text)
}

/// A table in which these names are set, one after the other, each to the digits behind it.
fn set_all(alloc: Global, input: &str) -> Result<PropertyTable, Fail> {
    let mut table = PropertyTable::new(alloc)?;
    for word in input.split(' ') {
        let (name, digits) = word.split_once('=').ok_or("no name")?;
        let values = format!(in alloc; "ARRAY8 {digits}|")?;
        set(alloc, &mut table, name, values.as_str())?;
    }
    Ok(table)
}

fn set_shown(alloc: Global, input: &str) -> Result<String, Fail> {
    shown(alloc, &set_all(alloc, input)?)
}

#[test]
fn a_name_that_is_set_again_keeps_its_place(rt: HostRuntime) -> Result<(), Fail> {
    expect_rows(&rt, "P=01 Q=02 P=03 => P=03|Q=02|", set_shown)
}

/// The names that are left where these are deleted, written as digits; whether there is a P; and what
/// a copy from before has.
fn deleted_shown(alloc: Global, names: &str) -> Result<String, Fail> {
    let mut table = set_all(alloc, "P=01 Q=02 P=03")?;
    let twin = table.copy()?;
    table.delete(&values(alloc, names)?);
    let has = table.get(b"P").is_some();
    let left = shown(alloc, &table)?;
    Ok(format!(in alloc; "{left} {has} {}", shown(alloc, &twin)?)?)
}

#[test]
fn a_delete_takes_names_out(rt: HostRuntime) -> Result<(), Fail> {
    expect_rows(&rt, "58|50| => Q=02| false P=03|Q=02|", deleted_shown)
}

/// A table from which these names were deleted and in which P was set then, and a copy from before.
fn deleted_and_set(alloc: Global, names: &str) -> Result<String, Fail> {
    let mut table = set_all(alloc, "P=01 Q=02 R=03")?;
    let twin = table.copy()?;
    table.delete(&values(alloc, names)?);
    let list = single(alloc, property(alloc, "P", "ARRAY8", "05|")?)?;
    answer(alloc, &mut table, &list)?;
    Ok(format!(in alloc; "{} {}", shown(alloc, &table)?, shown(alloc, &twin)?)?)
}

#[test]
fn a_name_that_was_deleted_is_a_new_one(rt: HostRuntime) -> Result<(), Fail> {
    let rows = "50| => Q=02|R=03|P=05| P=01|Q=02|R=03|\n51| => P=05|R=03| P=01|Q=02|R=03|";
    expect_rows(&rt, rows, deleted_and_set)
}

/// Takes two names out of a table of many and sets a third.
fn change(alloc: Global, table: &mut PropertyTable) -> Result<(), Fail> {
    table.delete(&values(alloc, "37|313030|")?);
    set(alloc, table, "5", "ARRAY8 01|")
}

#[test]
fn neither_of_two_copies_changes_the_other(rt: HostRuntime) -> Result<(), Fail> {
    let alloc = rt.alloc();
    let mut table = PropertyTable::new(alloc)?;
    table.set(&many(alloc, 128)?)?;
    let before = shown(alloc, &table)?;
    let mut twin = table.copy()?;
    let third = table.copy()?;
    assert!(rt; table.is_same(&twin));
    change(alloc, &mut table)?;
    assert_eq!(rt; table.list()?.as_slice().len(), 126);
    assert_eq!(rt; shown(alloc, &twin)?.as_str(), before.as_str());
    assert!(rt; !table.is_same(&twin));
    let after = shown(alloc, &table)?;
    change(alloc, &mut twin)?;
    assert!(rt; table.is_same(&twin));
    twin.delete(&values(alloc, "35|")?);
    assert_eq!(rt; shown(alloc, &table)?.as_str(), after.as_str());
    assert_eq!(rt; shown(alloc, &third)?.as_str(), before.as_str());
    assert!(rt; twin.get(b"5").is_none());
    assert!(rt; table.get(b"5").is_some());
    Ok(())
}

/// One property `P` of kind `ARRAY8` with one value of so many bytes.
fn long(alloc: Global, count: usize) -> Result<PropertyList, Fail> {
    let mut property = property(alloc, "P", "ARRAY8", "")?;
    property
        .values
        .push(Octets::from_vec(vec![in alloc; b'x'; count]?))?;
    Ok(single(alloc, property)?)
}

/// So many properties of different names.
fn many(alloc: Global, count: u8) -> Result<PropertyList, Fail> {
    let mut list = PropertyList::new(alloc);
    for number in 0..count {
        let name = text_of(alloc, &number)?;
        list.push(property(alloc, name.as_str(), "", "")?)?;
    }
    Ok(list)
}

/// The answer where a walk over the spelling of a list is set, and what a copy of the table has then.
fn walked(
    alloc: Global,
    endian: Endian,
    table: &PropertyTable,
    list: &PropertyList,
) -> Result<String, Fail> {
    if list.size().is_none() {
        return Err("a list without a spelling".into());
    }
    let mut bytes = Octets::new(alloc);
    write_property_list(endian, list, &mut bytes)?;
    walk_shown(alloc, endian, table, bytes.as_slice())
}

/// The same of a list that is spelled so.
fn walk_shown(
    alloc: Global,
    endian: Endian,
    table: &PropertyTable,
    bytes: &[u8],
) -> Result<String, Fail> {
    let Ok((walk, _)) = walk_properties(endian, bytes) else {
        return Err("no list".into());
    };
    let mut twin = table.copy()?;
    let answer = twin.set_view(walk);
    let text = shown(alloc, &twin)?;
    Ok(format!(in alloc; "{answer:?} {text}")?)
}

/// The answer where a list is set, which is that for a walk over it in either order.
fn answer(alloc: Global, table: &mut PropertyTable, list: &PropertyList) -> Result<String, Fail> {
    let lsb = walked(alloc, Endian::Lsb, table, list)?;
    let msb = walked(alloc, Endian::Msb, table, list)?;
    let answer = text_of(alloc, &table.set(list))?;
    let text = format!(in alloc; "{answer} {}", shown(alloc, table)?)?;
    if text.as_str() != lsb.as_str() || text.as_str() != msb.as_str() {
        return Err("a walk is set otherwise".into());
    }
    Ok(answer)
}

/// The answers where values of so many bytes are set, one after the other, and then a name without
/// any; and how many bytes the names and the digits have then.
fn long_shown(alloc: Global, counts: &str) -> Result<String, Fail> {
    let mut table = PropertyTable::new(alloc)?;
    let mut text = String::new(alloc);
    for count in counts.split(' ') {
        let list = long(alloc, count.parse::<usize>()?)?;
        text.push_str(answer(alloc, &mut table, &list)?.as_str())?;
    }
    let list = single(alloc, property(alloc, "Q", "", "")?)?;
    text.push_str(answer(alloc, &mut table, &list)?.as_str())?;
    Ok(format!(in alloc; "{text} {}", shown(alloc, &table)?.len())?)
}

#[test]
fn a_table_has_16384_bytes_at_most(rt: HostRuntime) -> Result<(), Fail> {
    let row = "16348 16349 => Ok(())Err(TableFull)Err(TableFull) 32699";
    expect_rows(&rt, row, long_shown)
}

/// The answers where so many names are set, one after the other, and how many there are each time.
fn many_shown(alloc: Global, counts: &str) -> Result<String, Fail> {
    let mut table = PropertyTable::new(alloc)?;
    let mut text = String::new(alloc);
    for count in counts.split(' ') {
        let list = many(alloc, count.parse::<u8>()?)?;
        text.push_str(answer(alloc, &mut table, &list)?.as_str())?;
        text.push_str(text_of(alloc, &table.list()?.as_slice().len())?.as_str())?;
    }
    Ok(text)
}

#[test]
fn a_table_has_128_names_at_most(rt: HostRuntime) -> Result<(), Fail> {
    let row = "129 128 129 128 => Err(TableFull)0Ok(())128Err(TableFull)128Ok(())128";
    expect_rows(&rt, row, many_shown)
}

/// What a walk over a list leaves in an empty table.
fn walk_set(alloc: Global, digits: &str) -> Result<String, Fail> {
    let bytes = bytes_of(alloc, digits)?;
    let table = PropertyTable::new(alloc)?;
    walk_shown(alloc, Endian::Lsb, &table, bytes.as_slice())
}

/// P, Q and P again, of kind `CARD8`, and no properties.
const WALKS: &str = "\
0300000000000000010000005000000005000000434152443800000000000000010000000000000001000000010000000100000051000000050000004341524438000000000000000100000000000000010000000200000001000000500000000500000043415244380000000000000001000000000000000100000003000000 => Ok(()) P=03|Q=02|
0000000000000000 => Ok(()) ";

#[test]
fn a_walk_is_set_where_it_lies(rt: HostRuntime) -> Result<(), Fail> {
    expect_rows(&rt, WALKS, walk_set)
}

/// A value of so many bytes, and in the same list a short one under the same name.
fn momentary_shown(alloc: Global, count: &str) -> Result<String, Fail> {
    let mut list = long(alloc, count.parse::<usize>()?)?;
    list.push(property(alloc, "P", "ARRAY8", "01|")?)?;
    let mut table = PropertyTable::new(alloc)?;
    table.set(&list)?;
    shown(alloc, &table)
}

#[test]
fn what_stands_for_a_moment_may_pass_a_limit(rt: HostRuntime) -> Result<(), Fail> {
    expect_rows(&rt, "70000 => P=01|", momentary_shown)
}

fn hint_shown(alloc: Global, input: &str) -> Result<String, Fail> {
    let table = table_with(alloc, "RestartStyleHint", input)?;
    text_of(alloc, &hint_of(&table))
}

/// A hint is one byte from 0 to 3, of its kind.
const HINTS: &str = "\
CARD8 00| => IfRunning
CARD8 01| => Anyway
CARD8 02| => Immediately
CARD8 03| => Never
CARD8 04| => IfRunning
CARD8 0300| => IfRunning
CARD8 03|03| => IfRunning
CARD8 | => IfRunning
CARD8  => IfRunning
ARRAY8 03| => IfRunning
 03| => IfRunning";

#[test]
fn a_hint_is_a_byte_from_0_to_3(rt: HostRuntime) -> Result<(), Fail> {
    expect_rows(&rt, HINTS, hint_shown)
}

fn directory_shown(alloc: Global, input: &str) -> Result<String, Fail> {
    let table = table_with(alloc, "CurrentDirectory", input)?;
    digits_of(alloc, directory_of(alloc, &table)?.as_slice())
}

/// A directory is one value, a text.
const DIRECTORIES: &str = "\
ARRAY8 2f686f6d65| => 2f686f6d65
ARRAY8 2fc3a9| => 2fc3a9
ARRAY8 2fc3| => 
ARRAY8 2f00| => 
ARRAY8 2f61|2f62| => 
ARRAY8  => 
LISTofARRAY8 2f686f6d65| => ";

#[test]
fn a_directory_is_a_text(rt: HostRuntime) -> Result<(), Fail> {
    expect_rows(&rt, DIRECTORIES, directory_shown)
}

/// Pairs as the values that they were.
fn pairs_shown(alloc: Global, pairs: &PairList) -> Result<String, Fail> {
    let mut text = String::new(alloc);
    for (name, value) in pairs.as_slice() {
        text.push_str(digits_of(alloc, name.as_slice())?.as_str())?;
        text.push('|')?;
        text.push_str(digits_of(alloc, value.as_slice())?.as_str())?;
        text.push('|')?;
    }
    Ok(text)
}

fn environment_shown(alloc: Global, input: &str) -> Result<String, Fail> {
    let table = table_with(alloc, "Environment", input)?;
    pairs_shown(alloc, &environment_of(alloc, &table)?)
}

/// An environment is names and texts: each name is a text without an equals sign, of one byte at
/// least, and each value is a text.
const ENVIRONMENTS: &str = "\
LISTofARRAY8 41|31|42|3d| => 41|31|42|3d|
LISTofARRAY8 41|| => 41||
LISTofARRAY8  => 
LISTofARRAY8 41|31|42| => 
LISTofARRAY8 |31| => 
LISTofARRAY8 413d|31| => 
LISTofARRAY8 41ff|31| => 
LISTofARRAY8 41|ff| => 
LISTofARRAY8 41|31|42|00| => 
ARRAY8 41|31| => ";

#[test]
fn an_environment_is_names_and_texts(rt: HostRuntime) -> Result<(), Fail> {
    expect_rows(&rt, ENVIRONMENTS, environment_shown)
}

fn words_shown(alloc: Global, input: &str) -> Result<String, Fail> {
    let table = table_with(alloc, "RestartCommand", input)?;
    match command_of(alloc, &table, b"RestartCommand")? {
        Some(command) => digits_of_all(alloc, command.words.as_slice()),
        None => Ok("none".to_string(alloc)?),
    }
}

/// A command is a program and its arguments, all of them texts.
const COMMANDS: &str = "\
LISTofARRAY8 726d|61| => 726d|61|
LISTofARRAY8 726d|| => 726d||
LISTofARRAY8 |61| => none
LISTofARRAY8  => none
LISTofARRAY8 726d|00| => none
LISTofARRAY8 726d|ff| => none
ARRAY8 726d| => none";

#[test]
fn a_command_is_a_program_and_its_arguments(rt: HostRuntime) -> Result<(), Fail> {
    expect_rows(&rt, COMMANDS, words_shown)
}

/// A DiscardCommand with a directory and an environment.
fn discarding(alloc: Global) -> Result<PropertyTable, Fail> {
    let mut table = table_with(alloc, "DiscardCommand", "LISTofARRAY8 726d|")?;
    set(alloc, &mut table, "CurrentDirectory", "ARRAY8 2f61|")?;
    set(alloc, &mut table, "Environment", "LISTofARRAY8 41|31|")?;
    Ok(table)
}

/// The directory and the environment of the command of this name.
fn command_shown(alloc: Global, name: &str) -> Result<String, Fail> {
    let table = discarding(alloc)?;
    let Some(command) = command_of(alloc, &table, name.as_bytes())? else {
        return Ok("none".to_string(alloc)?);
    };
    let directory = digits_of(alloc, command.directory.as_slice())?;
    let pairs = pairs_shown(alloc, &command.environment)?;
    Ok(format!(in alloc; "{directory} {pairs}")?)
}

const FOUND: &str = "\
DiscardCommand => 2f61 41|31|
RestartCommand => none";

#[test]
fn a_command_has_the_directory_and_environment_of_its_table(rt: HostRuntime) -> Result<(), Fail> {
    expect_rows(&rt, FOUND, command_shown)
}
