//! Parts of a display's stream behind the set-up (X protocol, appendix B), written down by hand.

use display_messages::read_part;
use hex_rows::bytes_of;
use std::alloc::{Alloc, Global};
use std::process::Abort;
use std::test::Fail;
use test_tables::{expect_rows, text_of};

/// The bytes of a row, with zeros up to 32.
pub fn filled(alloc: Global, digits: &str) -> Result<Vec<u8>, Fail> {
    let mut bytes = bytes_of(alloc, digits)?;
    for _ in bytes.len()..32 {
        bytes.push(0)?;
    }
    Ok(bytes)
}

fn shown(alloc: Global, digits: &str) -> Result<String, Fail> {
    text_of(alloc, &read_part(filled(alloc, digits)?.as_slice()))
}

/// BadWindow; a reply; the events that count; one that another program made up; a pong; a ClientMessage
/// of bytes; ConfigureNotify, CirculateNotify, MappingNotify, KeymapNotify and a generic event.
const PARTS: &str = "\
0003050075006000000003 => Error { sequence: 5, error: DisplayError { kind: BadWindow, resource: 6291573, opcode: 3 } }
000206002701000000000000 => Error { sequence: 6, error: DisplayError { kind: Other(2), resource: 295, opcode: 0 } }
01200700010000000600 => Reply { sequence: 7 }
10000900e601000075006000 => Event { sent: false, event: CreateNotify(WindowNotice { heard: 486, window: 6291573 }) }
11000900e601000075006000 => Event { sent: false, event: DestroyNotify(WindowNotice { heard: 486, window: 6291573 }) }
120009007500600075006000 => Event { sent: false, event: UnmapNotify(WindowNotice { heard: 6291573, window: 6291573 }) }
13000900e601000075006000 => Event { sent: false, event: MapNotify(WindowNotice { heard: 486, window: 6291573 }) }
15000900e601000075006000e6010000 => Event { sent: false, event: ReparentNotify(WindowNotice { heard: 486, window: 6291573 }) }
1c0009007500600027000000 => Event { sent: false, event: PropertyNotify { window: 6291573, property: 39 } }
920009007500600075006000 => Event { sent: true, event: UnmapNotify(WindowNotice { heard: 6291573, window: 6291573 }) }
a1200900e6010000f1000000010100007856341275006000 => Event { sent: true, event: Message(ClientMessage { window: 486, kind: 241, first: 257, second: 305419896, third: 6291573 }) }
a1080900e6010000f1000000 => Event { sent: true, event: Other }
16000900e601000075006000 => Event { sent: false, event: Other }
1a000900e601000075006000 => Event { sent: false, event: Other }
22000900 => Event { sent: false, event: Other }
0b000900 => Event { sent: false, event: Other }
23000900 => Event { sent: false, event: Other }
80000900 => Event { sent: true, event: Other }";

#[test]
fn parts_are_read(rt: HostRuntime) -> Result<(), Fail> {
    expect_rows(&rt, PARTS, shown)
}

fn shown_short(alloc: Global, digits: &str) -> Result<String, Fail> {
    text_of(alloc, &read_part(bytes_of(alloc, digits)?.as_slice()))
}

/// Less than a part is none, whatever it begins with.
const SHORT: &str = "\
00 => Short
01200700 => Short
1c000900750060002700000000000000000000000000000000000000000000 => Short";

#[test]
fn short_parts(rt: HostRuntime) -> Result<(), Fail> {
    expect_rows(&rt, SHORT, shown_short)
}
