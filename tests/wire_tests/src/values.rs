//! Values as the standards spell them (ICE, chapter 7: Compound Types; XSMP, chapter 10: Types),
//! written down by hand.

use crate::written::{other, spelled};
use hex_rows::{bytes_of, digits_of};
use ice_values::{
    Array8, Dialog, Enumerated, ErrorClass, SaveKind, SaveStyle, Spelled, Text16, ValueRefusal,
    read_array8, read_array8_list, read_property, read_property_list, read_text16, read_version,
    value_at, write_array8, write_array8_list, write_property, write_property_list, write_text16,
    write_version,
};
use owned_lists::{NoMemory, Octets};
use std::alloc::{Alloc, Global};
use std::fmt::Debug;
use std::process::Abort;
use std::test::Fail;
use test_tables::{expect_rows, text_of};
use worked_values::{spelled_list, spelled_properties, spelled_property, spelled_word};

/// A text has its count in front, and padding to 4.
const TEXTS: &str = "\
l 0300616263000000 => Ok((Text16 { bytes: [97, 98, 99] }, 8))
m 0003616263000000 => Ok((Text16 { bytes: [97, 98, 99] }, 8))
l 03006162630000 => Err(Short)
m 00036162630000 => Err(Short)";

const TURNED_TEXTS: &str = "\
l 0300616263000000 => 0003616263000000
m 0003616263000000 => 0300616263000000";

fn text_shown(alloc: Global, input: &str) -> Result<String, Fail> {
    let (endian, bytes) = spelled(alloc, input)?;
    text_of(alloc, &read_text16(alloc, endian, bytes.as_slice()))
}

/// The spelling in the other order.
fn text_turned(alloc: Global, input: &str) -> Result<String, Fail> {
    let (endian, bytes) = spelled(alloc, input)?;
    let (text, _) = read_text16(alloc, endian, bytes.as_slice())?;
    let mut out = Octets::new(alloc);
    write_text16(other(endian), &text, &mut out)?;
    digits_of(alloc, out.as_slice())
}

/// Why there is no text of so many bytes, if there is none.
fn long_text(alloc: Global, count: usize) -> Result<Option<ValueRefusal>, NoMemory> {
    let bytes = vec![in alloc; b'x'; count]?;
    Ok(Text16::from_slice(alloc, bytes.as_slice()).err())
}

#[test]
fn a_text_has_its_count_in_front_and_padding_to_4(rt: HostRuntime) -> Result<(), Fail> {
    expect_rows(&rt, TEXTS, text_shown)?;
    expect_rows(&rt, TURNED_TEXTS, text_turned)?;
    let refused = long_text(rt.alloc(), 65_536)?;
    assert_eq!(rt; refused, Some(ValueRefusal::TooLong));
    Ok(())
}

const VERSIONS: &str = "\
l 01000201 => (Version { major: 1, minor: 258 }, 4) 00010102
m 00010102 => (Version { major: 1, minor: 258 }, 4) 01000201";

/// What is read, and the spelling in the other order.
fn version_shown(alloc: Global, input: &str) -> Result<String, Fail> {
    let (endian, bytes) = spelled(alloc, input)?;
    let read = read_version(endian, bytes.as_slice())?;
    let mut out = Octets::new(alloc);
    write_version(other(endian), &read.0, &mut out)?;
    let digits = digits_of(alloc, out.as_slice())?;
    Ok(format!(in alloc; "{read:?} {digits}")?)
}

#[test]
fn a_version_is_two_numbers(rt: HostRuntime) -> Result<(), Fail> {
    expect_rows(&rt, VERSIONS, version_shown)
}

/// The padding may have any bytes.
const ARRAYS: &str = "\
l 0500000068656c6c6f00000000000000 => Ok((Octets { bytes: [104, 101, 108, 108, 111] }, 16))
m 0000000568656c6c6f00000000000000 => Ok((Octets { bytes: [104, 101, 108, 108, 111] }, 16))
l 0500000068656c6c6f000000000000aa => Ok((Octets { bytes: [104, 101, 108, 108, 111] }, 16))
m 0000000568656c6c6f000000000000aa => Ok((Octets { bytes: [104, 101, 108, 108, 111] }, 16))
l 0500000068656c6c6f000000000000 => Err(Short)
m 0000000568656c6c6f000000000000 => Err(Short)";

const TURNED_ARRAYS: &str = "\
l 0500000068656c6c6f00000000000000 => Some(16) 0000000568656c6c6f00000000000000
m 0000000568656c6c6f00000000000000 => Some(16) 0500000068656c6c6f00000000000000";

fn array_shown(alloc: Global, input: &str) -> Result<String, Fail> {
    let (endian, bytes) = spelled(alloc, input)?;
    text_of(alloc, &read_array8(alloc, endian, bytes.as_slice()))
}

/// The size, and the spelling in the other order.
fn array_turned(alloc: Global, input: &str) -> Result<String, Fail> {
    let (endian, bytes) = spelled(alloc, input)?;
    let (value, _) = read_array8(alloc, endian, bytes.as_slice())?;
    let mut out = Octets::new(alloc);
    write_array8(other(endian), &value, &mut out)?;
    with_size(alloc, value.size(), &out)
}

fn with_size(alloc: Global, size: Option<usize>, out: &Octets) -> Result<String, Fail> {
    let digits = digits_of(alloc, out.as_slice())?;
    Ok(format!(in alloc; "{size:?} {digits}")?)
}

#[test]
fn an_array8_has_its_count_in_front_and_padding_to_8(rt: HostRuntime) -> Result<(), Fail> {
    expect_rows(&rt, ARRAYS, array_shown)?;
    expect_rows(&rt, TURNED_ARRAYS, array_turned)
}

/// The last two say that there is one item more.
const LISTS: &str = "\
l 0200000000000000040000002f746d700100000078000000 => Ok((ListOf { items: [Octets { bytes: [47, 116, 109, 112] }, Octets { bytes: [120] }] }, 24))
m 0000000200000000000000042f746d700000000178000000 => Ok((ListOf { items: [Octets { bytes: [47, 116, 109, 112] }, Octets { bytes: [120] }] }, 24))
l 0300000000000000040000002f746d700100000078000000 => Err(Short)
m 0000000300000000000000042f746d700000000178000000 => Err(Short)";

const TURNED_LISTS: &str = "\
l 0200000000000000040000002f746d700100000078000000 => Some(24) 0000000200000000000000042f746d700000000178000000
m 0000000200000000000000042f746d700000000178000000 => Some(24) 0200000000000000040000002f746d700100000078000000";

fn list_shown(alloc: Global, input: &str) -> Result<String, Fail> {
    let (endian, bytes) = spelled(alloc, input)?;
    text_of(alloc, &read_array8_list(alloc, endian, bytes.as_slice()))
}

fn list_turned(alloc: Global, input: &str) -> Result<String, Fail> {
    let (endian, bytes) = spelled(alloc, input)?;
    let (items, _) = read_array8_list(alloc, endian, bytes.as_slice())?;
    let mut out = Octets::new(alloc);
    write_array8_list(other(endian), &items, &mut out)?;
    with_size(alloc, items.size(), &out)
}

#[test]
fn a_list_has_a_count_and_four_unused_bytes_in_front(rt: HostRuntime) -> Result<(), Fail> {
    expect_rows(&rt, LISTS, list_shown)?;
    expect_rows(&rt, TURNED_LISTS, list_turned)
}

const PROPERTIES: &str = "\
l 010000005000000006000000415252415938000000000000020000000000000001000000610000000000000000000000 => Ok((Property { name: Octets { bytes: [80] }, kind: Octets { bytes: [65, 82, 82, 65, 89, 56] }, values: ListOf { items: [Octets { bytes: [97] }, Octets { bytes: [] }] } }, 48))
m 000000015000000000000006415252415938000000000000000000020000000000000001610000000000000000000000 => Ok((Property { name: Octets { bytes: [80] }, kind: Octets { bytes: [65, 82, 82, 65, 89, 56] }, values: ListOf { items: [Octets { bytes: [97] }, Octets { bytes: [] }] } }, 48))";

const TURNED_PROPERTIES: &str = "\
l 010000005000000006000000415252415938000000000000020000000000000001000000610000000000000000000000 => Some(48) 000000015000000000000006415252415938000000000000000000020000000000000001610000000000000000000000
m 000000015000000000000006415252415938000000000000000000020000000000000001610000000000000000000000 => Some(48) 010000005000000006000000415252415938000000000000020000000000000001000000610000000000000000000000";

fn property_shown(alloc: Global, input: &str) -> Result<String, Fail> {
    let (endian, bytes) = spelled(alloc, input)?;
    text_of(alloc, &read_property(alloc, endian, bytes.as_slice()))
}

fn property_turned(alloc: Global, input: &str) -> Result<String, Fail> {
    let (endian, bytes) = spelled(alloc, input)?;
    let (property, _) = read_property(alloc, endian, bytes.as_slice())?;
    let mut out = Octets::new(alloc);
    write_property(other(endian), &property, &mut out)?;
    with_size(alloc, property.size(), &out)
}

#[test]
fn a_property_has_a_name_a_type_and_values(rt: HostRuntime) -> Result<(), Fail> {
    expect_rows(&rt, PROPERTIES, property_shown)?;
    expect_rows(&rt, TURNED_PROPERTIES, property_turned)
}

const PROPERTY_LISTS: &str = "\
l 01000000000000000100000050000000050000004341524438000000000000000000000000000000 => Ok((ListOf { items: [Property { name: Octets { bytes: [80] }, kind: Octets { bytes: [67, 65, 82, 68, 56] }, values: ListOf { items: [] } }] }, 40))
m 00000001000000000000000150000000000000054341524438000000000000000000000000000000 => Ok((ListOf { items: [Property { name: Octets { bytes: [80] }, kind: Octets { bytes: [67, 65, 82, 68, 56] }, values: ListOf { items: [] } }] }, 40))";

const TURNED_PROPERTY_LISTS: &str = "\
l 01000000000000000100000050000000050000004341524438000000000000000000000000000000 => Some(40) 00000001000000000000000150000000000000054341524438000000000000000000000000000000
m 00000001000000000000000150000000000000054341524438000000000000000000000000000000 => Some(40) 01000000000000000100000050000000050000004341524438000000000000000000000000000000";

fn properties_shown(alloc: Global, input: &str) -> Result<String, Fail> {
    let (endian, bytes) = spelled(alloc, input)?;
    text_of(alloc, &read_property_list(alloc, endian, bytes.as_slice()))
}

fn properties_turned(alloc: Global, input: &str) -> Result<String, Fail> {
    let (endian, bytes) = spelled(alloc, input)?;
    let (items, _) = read_property_list(alloc, endian, bytes.as_slice())?;
    let mut out = Octets::new(alloc);
    write_property_list(other(endian), &items, &mut out)?;
    with_size(alloc, items.size(), &out)
}

#[test]
fn a_list_of_properties_has_them_one_after_the_other(rt: HostRuntime) -> Result<(), Fail> {
    expect_rows(&rt, PROPERTY_LISTS, properties_shown)?;
    expect_rows(&rt, TURNED_PROPERTY_LISTS, properties_turned)
}

/// Values that are made and written, of whose bytes it is proved that they are these.
const WORKED: &str = "\
word => 0200000068690000
list => 000000020000000000000002686900000000000000000000
property => 01000000500000000600000041525241593800000000000001000000000000000200000068690000
properties => 00000001000000000000000150000000000000054341524438000000000000000000000000000000";

fn worked_shown(alloc: Global, name: &str) -> Result<String, Fail> {
    let bytes = match name {
        "word" => spelled_word(alloc)?,
        "list" => spelled_list(alloc)?,
        "property" => spelled_property(alloc)?,
        _ => spelled_properties(alloc)?,
    };
    digits_of(alloc, bytes.as_slice())
}

#[test]
fn worked_values_have_their_bytes(rt: HostRuntime) -> Result<(), Fail> {
    expect_rows(&rt, WORKED, worked_shown)
}

const SIZES: &str = "\
0 => Some(8)
4 => Some(8)
5 => Some(16)
65532 => Some(65536)
65533 => None";

/// How long the spelling of so many bytes is.
fn size_shown(alloc: Global, count: &str) -> Result<String, Fail> {
    let count = count.parse::<usize>()?;
    let value = Array8::from_vec(vec![in alloc; b'x'; count]?);
    text_of(alloc, &value.size())
}

#[test]
fn a_spelling_is_measured_up_to_65536_bytes(rt: HostRuntime) -> Result<(), Fail> {
    expect_rows(&rt, SIZES, size_shown)
}

/// What one of the bytes 0 to 3 stands for, at its place, and its number.
fn value_shown<T: Enumerated + Debug>(alloc: Global, place: &str) -> Result<String, Fail> {
    let at = place.parse::<u32>()?;
    let bytes = bytes_of(alloc, "00010203")?;
    if at as usize >= bytes.len() {
        return Err("no such place".into());
    }
    match value_at::<T>(bytes.as_slice(), at) {
        Ok(value) => Ok(format!(in alloc; "{value:?} {}", value.number())?),
        Err(refusal) => text_of(alloc, &refusal),
    }
}

const KINDS: &str = "\
1 => Local 1
2 => Both 2
3 => BadValue { at: 3, len: 1 }";

const STYLES: &str = "\
1 => Errors 1
2 => Any 2
3 => BadValue { at: 3, len: 1 }";

const DIALOGS: &str = "\
0 => Error 0
1 => Normal 1
2 => BadValue { at: 2, len: 1 }";

#[test]
fn enumerated_bytes_have_their_meanings_alone(rt: HostRuntime) -> Result<(), Fail> {
    expect_rows(&rt, KINDS, value_shown::<SaveKind>)?;
    expect_rows(&rt, STYLES, value_shown::<SaveStyle>)?;
    expect_rows(&rt, DIALOGS, value_shown::<Dialog>)
}

const CLASSES: &str = "\
3 => SetupFailed 3
8 => UnknownProtocol 8
9 => none
32769 => BadState 32769
32771 => BadValue 32771";

/// The class of a number, and its number again.
fn class_shown(alloc: Global, number: &str) -> Result<String, Fail> {
    match ErrorClass::of_number(number.parse::<u16>()?) {
        Some(class) => Ok(format!(in alloc; "{class:?} {}", class.number())?),
        None => Ok("none".to_string(alloc)?),
    }
}

#[test]
fn classes_of_errors_have_their_numbers(rt: HostRuntime) -> Result<(), Fail> {
    expect_rows(&rt, CLASSES, class_shown)
}
