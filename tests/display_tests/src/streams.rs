//! What a display sends, wherever its pieces end.

use display_stream::{
    Remainder, Stage, UNIT_LIMIT, a_broken_stream_has_no_more_parts, parts_do_not_depend_on_pieces,
    parts_make_up_a_stream,
};
use hex_rows::{bytes_of, digits_of};
use owned_lists::OctetsList;
use std::alloc::{Alloc, Global};
use std::process::Abort;
use std::test::Fail;
use test_tables::expect_rows;

/// The parts, and a mark where the stream is broken.
fn shown(alloc: Global, parts: &OctetsList, is_broken: bool) -> Result<String, Fail> {
    let mut text = String::new(alloc);
    for part in parts.as_slice() {
        text.push_str(digits_of(alloc, part.as_slice())?.as_str())?;
        text.push_str("|")?;
    }
    if is_broken {
        text.push_str("broken")?;
    }
    Ok(text)
}

/// What is cut of a stream in two pieces.
fn cut_in_two(alloc: Global, stream: &[u8], at: usize) -> Result<String, Fail> {
    let (front, rest) = stream.split_at(at);
    let mut parts = OctetsList::new(alloc);
    let Some(remainder) = Remainder::new(alloc).take(alloc, front, &mut parts)? else {
        return shown(alloc, &parts, true);
    };
    let is_broken = remainder.take(alloc, rest, &mut parts)?.is_none();
    shown(alloc, &parts, is_broken)
}

/// What is cut of a stream that comes byte by byte.
fn cut_in_bytes(alloc: Global, stream: &[u8]) -> Result<String, Fail> {
    let mut parts = OctetsList::new(alloc);
    let mut remainder = Remainder::new(alloc);
    for byte in stream {
        match remainder.take(alloc, &[*byte], &mut parts)? {
            Some(rest) => remainder = rest,
            None => return shown(alloc, &parts, true),
        }
    }
    shown(alloc, &parts, false)
}

/// What is cut of a stream wherever its pieces end.
fn cut_shown(alloc: Global, digits: &str) -> Result<String, Fail> {
    let stream = bytes_of(alloc, digits)?;
    let text = cut_in_bytes(alloc, stream.as_slice())?;
    for at in 0..=stream.len() {
        if cut_in_two(alloc, stream.as_slice(), at)?.as_str() != text.as_str() {
            return Err("the pieces make a difference".into());
        }
    }
    Ok(text)
}

/// A refusal; an answer, an Error, a reply of a unit, and an event whose number at 4 counts nothing; a reply
/// without units, a generic event and an event that was sent, and two bytes; a reply of two units, and one
/// that isn't whole; less than an answer; a reply and a generic event that state too much.
const STREAMS: &str = "\
00030b00000001006b657900 => 00030b00000001006b657900|
01000b0000000200010203040506070800030500750060000000030000000000000000000000000000000000000000000120070001000000220000000000000000000000000000000000000000000000aabbccdd1c0009007500600027000000ff00000000000000000000000000000000000000 => 01000b00000002000102030405060708|0003050075006000000003000000000000000000000000000000000000000000|0120070001000000220000000000000000000000000000000000000000000000aabbccdd|1c0009007500600027000000ff00000000000000000000000000000000000000|
01000b000000020001020304050607080100060000000000110000000000000000000000000000000000000000000000238009000100000033000000000000000000000000000000000000000000000001020304a1200900fffffffff100000000000000000000000000000000000000000000000100 => 01000b00000002000102030405060708|0100060000000000110000000000000000000000000000000000000000000000|238009000100000033000000000000000000000000000000000000000000000001020304|a1200900fffffffff10000000000000000000000000000000000000000000000|
01000b000000020001020304050607080120070002000000220000000000000000000000000000000000000000000000aabbccdd010203040120070002000000220000000000000000000000000000000000000000000000aabbccdd010203 => 01000b00000002000102030405060708|0120070002000000220000000000000000000000000000000000000000000000aabbccdd01020304|
01000b000000020001020304050607 => 
01000b000000020001020304050607081c0009007500600027000000ff0000000000000000000000000000000000000001200a0000000100 => 01000b00000002000102030405060708|1c0009007500600027000000ff00000000000000000000000000000000000000|broken
01000b0000000200010203040506070823200a00ffffffff000000000000000000000000000000000000000000000000 => 01000b00000002000102030405060708|broken";

#[test]
fn cut_anywhere(rt: HostRuntime) -> Result<(), Fail> {
    parts_do_not_depend_on_pieces();
    parts_make_up_a_stream();
    a_broken_stream_has_no_more_parts();
    assert_eq!(rt; Stage::Setup == Stage::Later, false);
    assert_eq!(rt; UNIT_LIMIT, 65_535);
    expect_rows(&rt, STREAMS, cut_shown)
}

/// A reply of this many units behind a refusal, in two pieces: how many bytes the last part has.
fn largest_shown(alloc: Global, units: &str) -> Result<String, Fail> {
    let units = units.parse::<u32>()?;
    let mut stream = bytes_of(alloc, "00000b00000000000100070000000000")?;
    for place in 0..4 {
        stream[12 + place] = (units >> (8 * place as u32) & 255) as u8;
    }
    for at in 8..32 + 4 * units {
        stream.push((at % 251) as u8)?;
    }
    let mut parts = OctetsList::new(alloc);
    let remainder = Remainder::new(alloc);
    let (front, rest) = stream.split_at(1_000);
    let Some(remainder) = remainder.take(alloc, front, &mut parts)? else {
        return Ok("broken".to_string(alloc)?);
    };
    let _ = remainder.take(alloc, rest, &mut parts)?;
    let len = parts.as_slice().last().map(|part| part.len());
    Ok(format!(in alloc; "{} {len:?}", parts.as_slice().len())?)
}

const LARGEST: &str = "\
65535 => 2 Some(262172)
65536 => broken";

#[test]
fn largest_parts(rt: HostRuntime) -> Result<(), Fail> {
    expect_rows(&rt, LARGEST, largest_shown)
}
