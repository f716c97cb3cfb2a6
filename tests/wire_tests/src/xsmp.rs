//! Each message as the standard spells it (XSMP, chapter 10: Messages), written down by hand under
//! major opcode 7.

use crate::framing::cut_frames;
use crate::views::{view_verdict, viewed};
use crate::written::{agreed, is_frame, spelled, units_of, with_units};
use hex_rows::{bytes_of, digits_of};
use ice_values::{Array8List, DecodeRefusal, Endian, Property, PropertyList};
use owned_lists::Octets;
use std::alloc::{Alloc, Global};
use std::process::Abort;
use std::test::Fail;
use test_tables::{expect_rows, text_of};
use xsmp_messages::{XsmpMessage, decode_xsmp, encode_xsmp};

pub fn decoded(
    alloc: Global,
    endian: Endian,
    frame: &[u8],
) -> Result<Result<XsmpMessage, DecodeRefusal>, Fail> {
    if !is_frame(endian, frame) {
        return Err("no frame".into());
    }
    Ok(decode_xsmp(alloc, endian, frame))
}

fn read_verdict(alloc: Global, endian: Endian, frame: &[u8]) -> Result<String, Fail> {
    match decoded(alloc, endian, frame)? {
        Ok(_) => Ok("ok".to_string(alloc)?),
        Err(refusal) => text_of(alloc, &refusal),
    }
}

/// The verdict of both calls, where they agree.
fn verdict(alloc: Global, endian: Endian, frame: &[u8]) -> Result<String, Fail> {
    agreed(
        read_verdict(alloc, endian, frame)?,
        view_verdict(alloc, endian, frame)?,
    )
}

fn encoded(alloc: Global, endian: Endian, message: &XsmpMessage) -> Result<String, Fail> {
    let mut out = Octets::new(alloc);
    encode_xsmp(endian, 7, message, &mut out)?;
    digits_of(alloc, out.as_slice())
}

fn both(alloc: Global, message: &XsmpMessage) -> Result<String, Fail> {
    let lsb = encoded(alloc, Endian::Lsb, message)?;
    let msb = encoded(alloc, Endian::Msb, message)?;
    Ok(format!(in alloc; "{lsb} {msb}")?)
}

/// The message that a frame spells, in both orders, read and viewed.
fn in_both(alloc: Global, endian: Endian, digits: &str) -> Result<String, Fail> {
    let frame = bytes_of(alloc, digits)?;
    let message = decoded(alloc, endian, frame.as_slice())??;
    let seen = viewed(alloc, endian, frame.as_slice())?;
    agreed(both(alloc, &message)?, both(alloc, &seen)?)
}

fn message_shown(alloc: Global, input: &str) -> Result<String, Fail> {
    let (lsb, msb) = input.split_once(' ').ok_or("one frame")?;
    agreed(
        in_both(alloc, Endian::Lsb, lsb)?,
        in_both(alloc, Endian::Msb, msb)?,
    )
}

fn cut_shown(alloc: Global, input: &str) -> Result<String, Fail> {
    message_shown(alloc, cut_frames(alloc, input)?.as_str())
}

/// What comes where the frame has a unit more, and where it has one fewer.
fn resized(alloc: Global, endian: Endian, digits: &str) -> Result<String, Fail> {
    let frame = bytes_of(alloc, digits)?;
    let units = units_of(frame.as_slice())?;
    let longer = with_units(alloc, endian, frame.as_slice(), units + 1)?;
    let longer = verdict(alloc, endian, longer.as_slice())?;
    if units == 0 {
        return Ok(format!(in alloc; "{longer} -")?);
    }
    let shorter = with_units(alloc, endian, frame.as_slice(), units - 1)?;
    let shorter = verdict(alloc, endian, shorter.as_slice())?;
    Ok(format!(in alloc; "{longer} {shorter}")?)
}

fn lengths_shown(alloc: Global, input: &str) -> Result<String, Fail> {
    let (lsb, msb) = input.split_once(' ').ok_or("one frame")?;
    agreed(
        resized(alloc, Endian::Lsb, lsb)?,
        resized(alloc, Endian::Msb, msb)?,
    )
}

fn verdict_shown(alloc: Global, input: &str) -> Result<String, Fail> {
    let (endian, frame) = spelled(alloc, input)?;
    verdict(alloc, endian, frame.as_slice())
}

/// Each message least significant byte first and most significant byte first, and the same frames with
/// other bytes in all unused and padding places.
const MESSAGES: &str = "\
07000380010000000502000007060000 07008003000000010502000000000607 => 07000380010000000502000007060000 07008003000000010502000000000607
07000380010000000502aaaa07060000 07008003000000010502aaaa00000607 => 07000380010000000502000007060000 07008003000000010502000000000607
07010000010000000300000061626300 07010000000000010000000361626300 => 07010000010000000300000061626300 07010000000000010000000361626300
0701aaaa0100000003000000616263aa 0701aaaa0000000100000003616263aa => 07010000010000000300000061626300 07010000000000010000000361626300
070200000200000005000000736d642d3100000000000000 070200000000000200000005736d642d3100000000000000 => 070200000200000005000000736d642d3100000000000000 070200000000000200000005736d642d3100000000000000
0702aaaa0200000005000000736d642d31aaaaaaaaaaaaaa 0702aaaa0000000200000005736d642d31aaaaaaaaaaaaaa => 070200000200000005000000736d642d3100000000000000 070200000000000200000005736d642d3100000000000000
07030000010000000101020000000000 07030000000000010101020000000000 => 07030000010000000101020000000000 07030000000000010101020000000000
0703aaaa0100000001010200aaaaaaaa 0703aaaa0000000101010200aaaaaaaa => 07030000010000000101020000000000 07030000000000010101020000000000
07040000010000000200010101000000 07040000000000010200010101000000 => 07040000010000000200010101000000 07040000000000010200010101000000
0704aaaa010000000200010101aaaaaa 0704aaaa000000010200010101aaaaaa => 07040000010000000200010101000000 07040000000000010200010101000000
0705010000000000 0705010000000000 => 0705010000000000 0705010000000000
070501aa00000000 070501aa00000000 => 0705010000000000 0705010000000000
0706000000000000 0706000000000000 => 0706000000000000 0706000000000000
0706aaaa00000000 0706aaaa00000000 => 0706000000000000 0706000000000000
0707010000000000 0707010000000000 => 0707010000000000 0707010000000000
070701aa00000000 070701aa00000000 => 0707010000000000 0707010000000000
0708010000000000 0708010000000000 => 0708010000000000 0708010000000000
070801aa00000000 070801aa00000000 => 0708010000000000 0708010000000000
0709000000000000 0709000000000000 => 0709000000000000 0709000000000000
0709aaaa00000000 0709aaaa00000000 => 0709000000000000 0709000000000000
070a000000000000 070a000000000000 => 070a000000000000 070a000000000000
070aaaaa00000000 070aaaaa00000000 => 070a000000000000 070a000000000000
070b00000200000001000000000000000300000062796500 070b00000000000200000001000000000000000362796500 => 070b00000200000001000000000000000300000062796500 070b00000000000200000001000000000000000362796500
070baaaa0200000001000000aaaaaaaa03000000627965aa 070baaaa0000000200000001aaaaaaaa00000003627965aa => 070b00000200000001000000000000000300000062796500 070b00000000000200000001000000000000000362796500
070c000006000000010000000000000001000000500000000600000041525241593800000000000001000000000000000100000061000000 070c000000000006000000010000000000000001500000000000000641525241593800000000000000000001000000000000000161000000 => 070c000006000000010000000000000001000000500000000600000041525241593800000000000001000000000000000100000061000000 070c000000000006000000010000000000000001500000000000000641525241593800000000000000000001000000000000000161000000
070caaaa0600000001000000aaaaaaaa0100000050aaaaaa06000000415252415938aaaaaaaaaaaa01000000aaaaaaaa0100000061aaaaaa 070caaaa0000000600000001aaaaaaaa0000000150aaaaaa00000006415252415938aaaaaaaaaaaa00000001aaaaaaaa0000000161aaaaaa => 070c000006000000010000000000000001000000500000000600000041525241593800000000000001000000000000000100000061000000 070c000000000006000000010000000000000001500000000000000641525241593800000000000000000001000000000000000161000000
070d00000200000001000000000000000100000050000000 070d00000000000200000001000000000000000150000000 => 070d00000200000001000000000000000100000050000000 070d00000000000200000001000000000000000150000000
070daaaa0200000001000000aaaaaaaa0100000050aaaaaa 070daaaa0000000200000001aaaaaaaa0000000150aaaaaa => 070d00000200000001000000000000000100000050000000 070d00000000000200000001000000000000000150000000
070e000000000000 070e000000000000 => 070e000000000000 070e000000000000
070eaaaa00000000 070eaaaa00000000 => 070e000000000000 070e000000000000
070f0000010000000000000000000000 070f0000000000010000000000000000 => 070f0000010000000000000000000000 070f0000000000010000000000000000
070faaaa0100000000000000aaaaaaaa 070faaaa0000000100000000aaaaaaaa => 070f0000010000000000000000000000 070f0000000000010000000000000000
0710000000000000 0710000000000000 => 0710000000000000 0710000000000000
0710aaaa00000000 0710aaaa00000000 => 0710000000000000 0710000000000000
0711000000000000 0711000000000000 => 0711000000000000 0711000000000000
0711aaaa00000000 0711aaaa00000000 => 0711000000000000 0711000000000000
0712000000000000 0712000000000000 => 0712000000000000 0712000000000000
0712aaaa00000000 0712aaaa00000000 => 0712000000000000 0712000000000000";

/// A unit more or fewer is refused; the values of an Error are all that follows, so it may have any
/// number of units but 0.
const LENGTHS: &str = "\
07000380010000000502000007060000 07008003000000010502000000000607 => ok BadLength
07010000010000000300000061626300 07010000000000010000000361626300 => BadLength BadLength
070200000200000005000000736d642d3100000000000000 070200000000000200000005736d642d3100000000000000 => BadLength BadLength
07030000010000000101020000000000 07030000000000010101020000000000 => BadLength BadLength
07040000010000000200010101000000 07040000000000010200010101000000 => BadLength BadLength
0705010000000000 0705010000000000 => BadLength -
0706000000000000 0706000000000000 => BadLength -
0707010000000000 0707010000000000 => BadLength -
0708010000000000 0708010000000000 => BadLength -
0709000000000000 0709000000000000 => BadLength -
070a000000000000 070a000000000000 => BadLength -
070b00000200000001000000000000000300000062796500 070b00000000000200000001000000000000000362796500 => BadLength BadLength
070c000006000000010000000000000001000000500000000600000041525241593800000000000001000000000000000100000061000000 070c000000000006000000010000000000000001500000000000000641525241593800000000000000000001000000000000000161000000 => BadLength BadLength
070d00000200000001000000000000000100000050000000 070d00000000000200000001000000000000000150000000 => BadLength BadLength
070e000000000000 070e000000000000 => BadLength -
070f0000010000000000000000000000 070f0000000000010000000000000000 => BadLength BadLength
0710000000000000 0710000000000000 => BadLength -
0711000000000000 0711000000000000 => BadLength -
0712000000000000 0712000000000000 => BadLength -";

/// Enumerated bytes that have no meaning, of several the last first; and an unknown message.
const REFUSED: &str = "\
l 07000380010000000503000007060000 => BadValue { at: 9, len: 1 }
m 07008003000000010503000000000607 => BadValue { at: 9, len: 1 }
l 07030000010000000101020200000000 => BadValue { at: 11, len: 1 }
l 07030000010000000101030200000000 => BadValue { at: 10, len: 1 }
l 07030000010000000102030200000000 => BadValue { at: 9, len: 1 }
l 07030000010000000302030200000000 => BadValue { at: 8, len: 1 }
m 07030000000000010101020200000000 => BadValue { at: 11, len: 1 }
m 07030000000000010101030200000000 => BadValue { at: 10, len: 1 }
m 07030000000000010102030200000000 => BadValue { at: 9, len: 1 }
m 07030000000000010302030200000000 => BadValue { at: 8, len: 1 }
l 07040000010000000200010102000000 => BadValue { at: 12, len: 1 }
l 07040000010000000200010202000000 => BadValue { at: 11, len: 1 }
l 07040000010000000200030202000000 => BadValue { at: 10, len: 1 }
l 07040000010000000202030202000000 => BadValue { at: 9, len: 1 }
l 07040000010000000302030202000000 => BadValue { at: 8, len: 1 }
m 07040000000000010200010102000000 => BadValue { at: 12, len: 1 }
m 07040000000000010200010202000000 => BadValue { at: 11, len: 1 }
m 07040000000000010200030202000000 => BadValue { at: 10, len: 1 }
m 07040000000000010202030202000000 => BadValue { at: 9, len: 1 }
m 07040000000000010302030202000000 => BadValue { at: 8, len: 1 }
l 0705020000000000 => BadValue { at: 2, len: 1 }
m 0705020000000000 => BadValue { at: 2, len: 1 }
l 0707020000000000 => BadValue { at: 2, len: 1 }
m 0707020000000000 => BadValue { at: 2, len: 1 }
l 0708020000000000 => BadValue { at: 2, len: 1 }
m 0708020000000000 => BadValue { at: 2, len: 1 }
l 0713000000000000 => BadMinor";

#[test]
fn every_message_is_read_and_written_as_the_standard_spells_it(
    rt: HostRuntime,
) -> Result<(), Fail> {
    expect_rows(&rt, MESSAGES, message_shown)?;
    expect_rows(&rt, MESSAGES, cut_shown)?;
    expect_rows(&rt, LENGTHS, lengths_shown)?;
    expect_rows(&rt, REFUSED, verdict_shown)
}

fn decoded_shown(alloc: Global, input: &str) -> Result<String, Fail> {
    let (endian, frame) = spelled(alloc, input)?;
    text_of(alloc, &decoded(alloc, endian, frame.as_slice())?)
}

#[test]
fn a_save_is_asked_for_in_the_order_type_shutdown_style_fast(rt: HostRuntime) -> Result<(), Fail> {
    let row = "l 01030000010000000101020000000000 => \
        Ok(SaveYourself { kind: Local, shutdown: true, style: Any, fast: false })";
    expect_rows(&rt, row, decoded_shown)
}

/// A message with one property, which has one value of so many bytes.
fn with_value(alloc: Global, size: usize) -> Result<XsmpMessage, Fail> {
    let mut values = Array8List::new(alloc);
    values.push(Octets::from_vec(vec![in alloc; b'x'; size]?))?;
    let mut properties = PropertyList::new(alloc);
    properties.push(Property {
        name: Octets::from_slice(alloc, b"P")?,
        kind: Octets::from_slice(alloc, b"K")?,
        values,
    })?;
    Ok(XsmpMessage::SetProperties { properties })
}

/// The answer where such a message is added to four bytes, and how many bytes there are then.
fn long_shown(alloc: Global, count: &str) -> Result<String, Fail> {
    let message = with_value(alloc, count.parse::<usize>()?)?;
    let mut out = Octets::from_slice(alloc, b"kept")?;
    let written = encode_xsmp(Endian::Msb, 7, &message, &mut out);
    Ok(format!(in alloc; "{written:?} {}", out.len())?)
}

const LONG: &str = "\
65500 => Ok(()) 65548
65501 => Err(TooLong) 4
70000 => Err(TooLong) 4";

#[test]
fn a_body_has_at_most_65536_bytes(rt: HostRuntime) -> Result<(), Fail> {
    expect_rows(&rt, LONG, long_shown)
}
