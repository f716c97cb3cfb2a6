//! Replies, by what was asked (X protocol, appendix B; X-Resource 1.2), written down by hand.

use crate::parts::filled;
use display_messages::{ReplyKind, read_reply};
use hex_rows::bytes_of;
use std::alloc::{Alloc, Global};
use std::process::Abort;
use std::test::Fail;
use test_tables::{expect_rows, text_of};

fn kind_of(word: &str) -> Result<ReplyKind, Fail> {
    Ok(match word {
        "atom" => ReplyKind::Atom,
        "property" => ReplyKind::Property,
        "attributes" => ReplyKind::Attributes,
        "tree" => ReplyKind::Tree,
        "mark" => ReplyKind::Mark,
        "extension" => ReplyKind::Extension,
        "version" => ReplyKind::ResourceVersion,
        "process" => ReplyKind::Process,
        _ => return Err("no such kind".into()),
    })
}

fn shown(alloc: Global, input: &str) -> Result<String, Fail> {
    let (word, digits) = input.split_once(' ').ok_or("no bytes")?;
    let bytes = filled(alloc, digits)?;
    text_of(alloc, &read_reply(alloc, kind_of(word)?, bytes.as_slice())?)
}

/// A property of two numbers, one of text of which two bytes didn't come, one without items, one that
/// isn't there, and one that has fewer bytes than it counts. A mapped window, one that menus have, one
/// for input, and attributes without event masks. Two children, none, and one of two. An extension that
/// is there, and one that isn't. A process, none, one of another mask, and one that isn't whole.
const REPLIES: &str = "\
atom 010001000000000027010000 => Atom(295)
property 01200600020000001300000000000000020000000000000000000000000000000100000075006000 => Property(Property { format: 32, kind: 19, after: 0, value: Octets { bytes: [1, 0, 0, 0, 117, 0, 96, 0] } })
property 01080600010000001f000000020000000300000000000000000000000000000061626300 => Property(Property { format: 8, kind: 31, after: 2, value: Octets { bytes: [97, 98, 99] } })
property 012006000000000013000000 => Property(Property { format: 32, kind: 19, after: 0, value: Octets { bytes: [] } })
property 010006000000000000000000 => NoProperty
property 011006000100000013000000000000000300000000000000000000000000000061626364 => NotUnderstood
attributes 0100020003000000210000000100000000000000000000000000020020000000000048000000420000000000 => Attributes(Attributes { input_output: true, mapped: true, override_redirect: false, all_events: 4718592 })
attributes 0100020003000000210000000100000000000000000000000000000120000000000000000000420000000000 => Attributes(Attributes { input_output: true, mapped: false, override_redirect: true, all_events: 0 })
attributes 0100020003000000210000000200000000000000000000000000010020000000000010000000420000000000 => Attributes(Attributes { input_output: false, mapped: true, override_redirect: false, all_events: 1048576 })
attributes 01000200 => NotUnderstood
tree 0100020002000000e6010000e7010000020000000000000000000000000000007500600076006000 => Tree { parent: 487, children: ListOf { items: [6291573, 6291574] } }
tree 0100020000000000e6010000000000000000 => Tree { parent: 0, children: ListOf { items: [] } }
tree 0100020001000000e6010000e70100000200000000000000000000000000000075006000 => NotUnderstood
mark 010103000000000075006000 => Mark
extension 01000400000000000194 => Extension(Some(148))
extension 01000400000000000094 => Extension(None)
version 010005000000000001000200 => ResourceVersion { major: 1, minor: 2 }
process 010006000400000001000000000000000000000000000000000000000000000000006000020000000400000039300000 => Process(Some(12345))
process 010006000000000000000000 => Process(None)
process 010006000400000001000000000000000000000000000000000000000000000000006000010000000400000039300000 => NotUnderstood
process 0100060003000000010000000000000000000000000000000000000000000000000060000200000000000000 => NotUnderstood";

#[test]
fn replies_are_read(rt: HostRuntime) -> Result<(), Fail> {
    expect_rows(&rt, REPLIES, shown)
}

fn shown_short(alloc: Global, input: &str) -> Result<String, Fail> {
    let (word, digits) = input.split_once(' ').ok_or("no bytes")?;
    let bytes = bytes_of(alloc, digits)?;
    text_of(alloc, &read_reply(alloc, kind_of(word)?, bytes.as_slice())?)
}

/// What isn't a part is no reply.
const SHORT: &str = "\
mark 01 => NotUnderstood
atom 010001000000000027010000 => NotUnderstood";

#[test]
fn short_replies(rt: HostRuntime) -> Result<(), Fail> {
    expect_rows(&rt, SHORT, shown_short)
}
