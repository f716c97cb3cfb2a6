//! Messages and properties where they lie.

use crate::written::{is_frame, spelled};
use hex_rows::digits_of;
use ice_values::{Endian, PropertyView, PropertyWalk};
use std::alloc::{Alloc, Global};
use std::process::Abort;
use std::test::Fail;
use test_tables::{expect_rows, text_of};
use xsmp_messages::{XsmpMessage, view_xsmp};

/// Whether there is a view, or why there is none.
pub fn view_verdict(alloc: Global, endian: Endian, frame: &[u8]) -> Result<String, Fail> {
    if !is_frame(endian, frame) {
        return Err("no frame".into());
    }
    match view_xsmp(endian, frame) {
        Ok(_) => Ok("ok".to_string(alloc)?),
        Err(refusal) => text_of(alloc, &refusal),
    }
}

/// The message of a view.
pub fn viewed(alloc: Global, endian: Endian, frame: &[u8]) -> Result<XsmpMessage, Fail> {
    if !is_frame(endian, frame) {
        return Err("no frame".into());
    }
    match view_xsmp(endian, frame) {
        Ok(view) => Ok(view.to_message(alloc)?),
        Err(_) => Err("no view".into()),
    }
}

fn property_shown(alloc: Global, view: &PropertyView<'_>) -> Result<String, Fail> {
    let name = digits_of(alloc, view.name)?;
    let kind = digits_of(alloc, view.kind)?;
    let values = digits_of(alloc, view.values)?;
    Ok(format!(in alloc; "{name} {kind} {values} {:?}|", view.size())?)
}

fn walk_shown(alloc: Global, walk: PropertyWalk<'_>) -> Result<String, Fail> {
    let mut text = String::new(alloc);
    for view in walk {
        text.push_str(property_shown(alloc, &view)?.as_str())?;
    }
    Ok(text)
}

/// The properties that a view of a frame walks over, or a dash.
fn properties_shown(alloc: Global, input: &str) -> Result<String, Fail> {
    let (endian, frame) = spelled(alloc, input)?;
    if !is_frame(endian, frame.as_slice()) {
        return Err("no frame".into());
    }
    match view_xsmp(endian, frame.as_slice()) {
        Ok(view) => match view.properties() {
            Some(walk) => walk_shown(alloc, walk),
            None => Ok("-".to_string(alloc)?),
        },
        Err(refusal) => text_of(alloc, &refusal),
    }
}

/// P, Q and P again; lists of one and of none; a message without properties; and no message.
const WALKS: &str = "\
l 010c0000100000000300000000000000010000005000000005000000434152443800000000000000010000000000000001000000010000000100000051000000050000004341524438000000000000000100000000000000010000000200000001000000500000000500000043415244380000000000000001000000000000000100000003000000 => 50 4341524438 01000000000000000100000001000000 Some(40)|51 4341524438 01000000000000000100000002000000 Some(40)|50 4341524438 01000000000000000100000003000000 Some(40)|
m 070c000000000006000000010000000000000001500000000000000641525241593800000000000000000001000000000000000161000000 => 50 415252415938 00000001000000000000000161000000 Some(40)|
l 070f0000010000000000000000000000 => 
l 0709000000000000 => -
l 0113000000000000 => BadMinor";

#[test]
fn a_view_walks_over_the_properties_of_a_message(rt: HostRuntime) -> Result<(), Fail> {
    expect_rows(&rt, WALKS, properties_shown)
}
