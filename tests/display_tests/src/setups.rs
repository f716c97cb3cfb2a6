//! The set-up, and what is answered to it (X protocol, appendix B: Connection Setup), written down by hand.

use display_messages::{Setup, read_setup_answer, spell_setup};
use hex_rows::{bytes_of, digits_of};
use ice_values::Text16;
use std::alloc::{Alloc, Global};
use std::process::Abort;
use std::test::Fail;
use test_tables::{expect_rows, text_of};

/// A set-up with a cookie, or `none`.
fn spelled(alloc: Global, input: &str) -> Result<String, Fail> {
    let cookie = match input {
        "none" => None,
        digits => Some(Text16::from_slice(alloc, bytes_of(alloc, digits)?.as_slice())?),
    };
    let bytes = spell_setup(alloc, &Setup { cookie })?;
    digits_of(alloc, bytes.as_slice())
}

const SETUPS: &str = "\
none => 6c000b000000000000000000
000102030405060708090a0b0c0d0e0f => 6c000b0000001200100000004d49542d4d414749432d434f4f4b49452d310000000102030405060708090a0b0c0d0e0f
ff => 6c000b0000001200010000004d49542d4d414749432d434f4f4b49452d310000ff000000";

#[test]
fn spelled_setups(rt: HostRuntime) -> Result<(), Fail> {
    expect_rows(&rt, SETUPS, spelled)
}

fn answer(alloc: Global, screen: &str, bytes: &[u8]) -> Result<String, Fail> {
    text_of(
        alloc,
        &read_setup_answer(alloc, screen.parse::<u32>()?, bytes)?,
    )
}

/// What an answer says of a screen.
fn answered(alloc: Global, input: &str) -> Result<String, Fail> {
    let (screen, digits) = input.split_once(' ').ok_or("no bytes")?;
    answer(alloc, screen, bytes_of(alloc, digits)?.as_slice())
}

/// A refusal for `key` with a byte of padding, one that isn't whole, one without a reason; more that is
/// wanted; what is no answer, and less than one.
const ANSWERS: &str = "\
0 00030b00000001006b657900 => Refused { reason: Octets { bytes: [107, 101, 121] } }
0 00030b00000001006b65 => NotUnderstood
0 00000b0000000000 => Refused { reason: Octets { bytes: [] } }
0 02000b0000000000 => MoreWanted
0 03000b0000000000 => NotUnderstood
0 01000b00000000 => NotUnderstood";

#[test]
fn answers_to_setups(rt: HostRuntime) -> Result<(), Fail> {
    expect_rows(&rt, ANSWERS, answered)
}

/// An answer with a vendor of two bytes, one format and two screens. The first has a depth with one
/// visual, the second has none.
const ACCEPTED: &str = "\
01000b0000002700\
0000000000002000ffff1f00000100000200ffff02010000202008ff00000000\
61620000\
0101200000000000\
e601000020000000ffffff000000000000000000000400032c01e100010001002100000000001801\
1800010000000000\
21000000040800010000ff0000ff0000ff00000000000000\
f701000020000000ffffff000000000000000000000400032c01e100010001002100000000001800";

/// What the first bytes of that answer say of a screen.
fn accepted(alloc: Global, input: &str) -> Result<String, Fail> {
    let (screen, count) = input.split_once(' ').ok_or("no count")?;
    let bytes = bytes_of(alloc, ACCEPTED)?;
    let (front, _) = bytes.split_at(count.parse::<usize>()?.min(bytes.len()));
    answer(alloc, screen, front)
}

/// The first screen begins behind 52 bytes, and the second behind 124.
const SCREENS: &str = "\
0 164 => Accepted { root: 486 }
1 164 => Accepted { root: 503 }
2 164 => NoScreen
4294967295 164 => NoScreen
0 56 => Accepted { root: 486 }
0 55 => NoScreen
1 128 => Accepted { root: 503 }
1 127 => NoScreen
1 123 => NoScreen
1 99 => NoScreen
1 91 => NoScreen
0 40 => NoScreen
0 39 => NoScreen
0 8 => NoScreen
0 7 => NotUnderstood";

#[test]
fn roots_of_screens(rt: HostRuntime) -> Result<(), Fail> {
    expect_rows(&rt, SCREENS, accepted)
}
