//! Peers in memory by text, and what they did.

use crate::frames::named;
use client_peer::MemPeer;
use hex_rows::bytes_of;
use owned_lists::{NoMemory, NumberList, Octets, OctetsList, PairList};
use sm_world::Effect;
use std::alloc::Global;
use std::test::Fail;

/// What a file has: hex digits, or `zeros-` and how many.
fn content_of(alloc: Global, text: &str) -> Result<Octets, Fail> {
    match text.strip_prefix("zeros-") {
        Some(count) => {
            let zeros = vec![in alloc; 0; count.parse::<usize>()?]?;
            Ok(Octets::from_vec(zeros))
        }
        None => Ok(Octets::from_vec(bytes_of(alloc, text)?)),
    }
}

/// The path and the content that a row writes.
fn file_of(alloc: Global, row: &str) -> Result<(Octets, Octets), Fail> {
    let (path, text) = row.split_once(' ').ok_or("a file without a path")?;
    let path = Octets::from_slice(alloc, path.as_bytes())?;
    Ok((path, content_of(alloc, text)?))
}

/// A file for each row.
fn files_of(alloc: Global, rows: &str) -> Result<PairList, Fail> {
    let mut files = PairList::new(alloc);
    for row in rows.lines() {
        files.push(file_of(alloc, row)?)?;
    }
    Ok(files)
}

/// A stream in pieces of 3 bytes.
pub fn in_threes(alloc: Global, stream: &[u8]) -> Result<OctetsList, NoMemory> {
    let mut pieces = OctetsList::new(alloc);
    for piece in stream.chunks(3) {
        pieces.push(Octets::from_slice(alloc, piece)?)?;
    }
    Ok(pieces)
}

fn one_number(alloc: Global, number: u64) -> Result<NumberList, NoMemory> {
    let mut numbers = NumberList::new(alloc);
    numbers.push(number)?;
    Ok(numbers)
}

/// A peer that gives these pieces, that has a file for each row, and whose call with this number fails.
pub fn peer_of(
    alloc: Global,
    pieces: OctetsList,
    files: &str,
    failing: u64,
) -> Result<MemPeer, Fail> {
    let files = files_of(alloc, files)?;
    let numbers = one_number(alloc, failing)?;
    Ok(MemPeer::new(alloc, pieces, files, numbers)?)
}

/// What was sent by its name, or what was printed; nothing of what was heard.
fn effect_shown(alloc: Global, effect: &Effect) -> Result<String, Fail> {
    match effect {
        Effect::Sent(_, bytes) => {
            let name = named(alloc, bytes.as_slice())?;
            Ok(format!(in alloc; " {name}")?)
        }
        Effect::Printed(text) => {
            let text = str::from_utf8(text.as_slice())?;
            Ok(format!(in alloc; " {text:?}")?)
        }
        _ => Ok(String::new(alloc)),
    }
}

/// What was sent and printed, each behind a blank.
pub fn effects_shown(alloc: Global, effects: &[Effect]) -> Result<String, Fail> {
    let mut text = String::new(alloc);
    for effect in effects {
        text.push_str(effect_shown(alloc, effect)?.as_str())?;
    }
    Ok(text)
}
