//! What a peer in memory gives and records, in steps. An input has the number of the call that fails.

use crate::worlds::peer_of;
use client_peer::{MemPeer, Peer};
use hex_rows::{bytes_of, digits_of};
use owned_lists::{NoMemory, Octets, OctetsList};
use sm_world::Console;
use std::alloc::{Alloc, Global};
use std::process::Abort;
use std::test::Fail;
use test_tables::{expect_rows, text_of};

/// The files of each peer, `a` twice. `full` is as long as a file may be.
const FILES: &str = "\
a 6669727374
b zeros-0
a 7365636f6e64
full zeros-65536
long zeros-65537";

/// The pieces that a row writes as digits, parted by blanks.
fn pieces_of(alloc: Global, text: &str) -> Result<OctetsList, Fail> {
    let mut pieces = OctetsList::new(alloc);
    for digits in text.split(' ') {
        pieces.push(Octets::from_vec(bytes_of(alloc, digits)?))?;
    }
    Ok(pieces)
}

/// The next bytes of the stream, of which two are taken at most.
fn received<P: Peer>(alloc: Global, peer: &mut P) -> Result<String, Fail> {
    let mut room = [0; 2];
    match peer.receive(&mut room) {
        Ok(count) => digits_of(alloc, &room[..count]),
        Err(failure) => text_of(alloc, &failure),
    }
}

/// How many bytes a file has, and the first five.
fn fetched<P: Peer>(alloc: Global, peer: &mut P, path: &str) -> Result<String, Fail> {
    match peer.fetch(path) {
        Ok(file) => {
            let (front, _) = file.as_slice().split_at(file.len().min(5));
            let front = digits_of(alloc, front)?;
            Ok(format!(in alloc; "{} {front}", file.len())?)
        }
        Err(failure) => text_of(alloc, &failure),
    }
}

fn read<P: Console>(alloc: Global, peer: &mut P) -> Result<String, Fail> {
    let mut room = [0; 2];
    text_of(alloc, &peer.read(&mut room))
}

/// A step that takes no word.
fn taken(alloc: Global, peer: &mut MemPeer, verb: &str) -> Result<String, Fail> {
    match verb {
        "receive" => received(alloc, peer),
        "read" => read(alloc, peer),
        _ => Err("no step".into()),
    }
}

fn stepped(alloc: Global, peer: &mut MemPeer, step: &str) -> Result<String, Fail> {
    match step.split_once(' ') {
        Some(("connect", path)) => text_of(alloc, &peer.connect(path)),
        Some(("deliver", text)) => text_of(alloc, &peer.deliver(text.as_bytes())),
        Some(("fetch", path)) => fetched(alloc, peer, path),
        Some(("print", text)) => text_of(alloc, &peer.print(text.as_bytes())),
        _ => taken(alloc, peer, step),
    }
}

fn steps_shown(alloc: Global, peer: &mut MemPeer, steps: &str) -> Result<String, Fail> {
    let mut text = String::new(alloc);
    for step in steps.split(", ") {
        text.push_str(stepped(alloc, peer, step)?.as_str())?;
        text.push_str(", ")?;
    }
    Ok(text)
}

/// What the steps bring, and the effects behind them.
fn played(alloc: Global, mut peer: MemPeer, steps: &str) -> Result<String, Fail> {
    let shown = steps_shown(alloc, &mut peer, steps)?;
    Ok(format!(in alloc; "{shown}{:?}", peer.effects())?)
}

/// The same over a peer that gives `abc`, nothing, `de` and its end.
fn peer_shown(alloc: Global, input: &str) -> Result<String, Fail> {
    let (failing, steps) = input.split_once("; ").ok_or("no steps")?;
    let pieces = pieces_of(alloc, "616263  6465")?;
    let peer = peer_of(alloc, pieces, FILES, failing.parse::<u64>()?)?;
    played(alloc, peer, steps)
}

/// A stream comes as it fits; files are fetched by their paths; a call fails by its number; and the
/// console has no input, where a fetch and a console are counted too.
const PEERS: &str = "\
0; connect /s, receive, receive, deliver x, receive, receive, receive => Ok(()), 6162, 63, Ok(()), 6465, , , [Heard(Piece(0, Octets { bytes: [97, 98] })), Heard(Piece(0, Octets { bytes: [99] })), Sent(0, Octets { bytes: [120] }), Heard(Piece(0, Octets { bytes: [100, 101] })), Heard(Gone(0)), Heard(Gone(0))]
0; fetch a, fetch b, fetch c, fetch long, fetch full => 5 6669727374, 0 , Failed, Failed, 65536 0000000000, []
2; receive, receive, receive => 6162, Failed, 63, [Heard(Piece(0, Octets { bytes: [97, 98] })), Heard(Piece(0, Octets { bytes: [99] }))]
4; fetch c, read, print x, print y => Failed, Ok(0), Ok(()), Err(Failed), [Printed(Octets { bytes: [120] })]";

#[test]
fn a_peer_gives_and_records(rt: HostRuntime) -> Result<(), Fail> {
    expect_rows(&rt, PEERS, peer_shown)
}
