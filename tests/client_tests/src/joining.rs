//! Whole runs over a peer in memory, whose stream comes in pieces of 3 bytes. An input has the number of
//! the call that fails, and the frames that the stream has.

use crate::frames::stream_of;
use crate::worlds::{effects_shown, in_threes, peer_of};
use client_callbacks::{ClientEnd, JoinFault};
use client_peer::MemPeer;
use owned_lists::OctetsList;
use std::alloc::Global;
use std::test::Fail;
use test_tables::expect_rows;
use worked_values::{first_join, run_client};

/// The lines that were noted, each with a newline.
fn noted(alloc: Global, lines: &OctetsList) -> Result<String, Fail> {
    let mut text = String::new(alloc);
    for line in lines.as_slice() {
        text.push_str(str::from_utf8(line.as_slice())?)?;
        text.push('\n')?;
    }
    Ok(text)
}

/// The answer, what was sent and what was noted.
fn told(
    alloc: Global,
    answer: Result<ClientEnd, JoinFault>,
    peer: &MemPeer,
    lines: &OctetsList,
) -> Result<String, Fail> {
    let effects = effects_shown(alloc, peer.effects())?;
    let lines = noted(alloc, lines)?;
    Ok(format!(in alloc; "{answer:?}{effects} {lines:?}")?)
}

fn joined(alloc: Global, mut peer: MemPeer) -> Result<String, Fail> {
    let mut join = first_join(alloc);
    let answer = run_client(alloc, &mut peer, &mut join);
    told(alloc, answer, &peer, &join.lines)
}

fn join_shown(alloc: Global, input: &str) -> Result<String, Fail> {
    let (failing, frames) = input.split_once(' ').ok_or("no frames")?;
    let stream = stream_of(alloc, frames)?;
    let pieces = in_threes(alloc, stream.as_slice())?;
    joined(alloc, peer_of(alloc, pieces, "", failing.parse::<u64>()?)?)
}

/// A client saves once and closes; talks and dies; answers a save that was cancelled; is refused by a
/// fatal Error; refuses a token that nobody asked for; names a frame of no message by its place; and
/// ends by a fault of the links.
const JOINS: &str = "\
0 order demand connected demand opened registered save complete => Ok(Closed) order connects cookie opens cookie registers done closes \"id smd-00000001-00000001\\nsaved\\n\"
0 order connected opened registered save-any token die => Ok(Died) order connects opens registers asks talked done closes \"id smd-00000001-00000001\\ndied\\n\"
0 order connected opened registered save-any cancelled => Ok(StreamEnded { phase: Idle }) order connects opens registers asks failed \"id smd-00000001-00000001\\ncancelled\\n\"
0 order fatal => Err(Refused { class: 32769 }) order connects \"\"
0 order connected opened registered token => Ok(StreamEnded { phase: Idle }) order connects opens registers refuses \"id smd-00000001-00000001\\n\"
0 order connected unknown => Err(Malformed { at: 32 }) order connects opens \"\"
5 order connected => Err(LinkFault) order \"\"";

#[test]
fn a_client_with_callbacks_follows_its_session(rt: HostRuntime) -> Result<(), Fail> {
    expect_rows(&rt, JOINS, join_shown)
}
