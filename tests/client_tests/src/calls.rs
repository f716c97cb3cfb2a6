//! Whole calls over a peer in memory, whose stream comes in pieces of 3 bytes. An input has the words,
//! the frames that the stream has, and how many turns there are.

use crate::frames::stream_of;
use crate::worlds::{effects_shown, in_threes, peer_of};
use asked_paths::Asked;
use client_peer::MemPeer;
use hex_rows::bytes_of;
use owned_lists::Octets;
use smclient_app::{read_cookie, smclient_main};
use std::alloc::{Alloc, Global};
use std::process::Abort;
use std::test::Fail;
use test_tables::{expect_rows, text_of};

/// An authority file with the sockets `/t` and `/s` of the host `h` and `/s` of the host `g`, and one to
/// which its first byte lacks.
const FILES: &str = "\
a 00034943450000000a6c6f63616c2f683a2f7400124d49542d4d414749432d434f4f4b49452d3100107878787878787878787878787878787800034943450000000a6c6f63616c2f683a2f7300124d49542d4d414749432d434f4f4b49452d310010000102030405060708090a0b0c0d0e0f00034943450000000a6c6f63616c2f673a2f7300124d49542d4d414749432d434f4f4b49452d31001079797979797979797979797979797979
short 034943450000000a6c6f63616c2f683a2f7400124d49542d4d414749432d434f4f4b49452d3100107878787878787878787878787878787800034943450000000a6c6f63616c2f683a2f7300124d49542d4d414749432d434f4f4b49452d310010000102030405060708090a0b0c0d0e0f00034943450000000a6c6f63616c2f673a2f7300124d49542d4d414749432d434f4f4b49452d31001079797979797979797979797979797979";

/// The words of a client at the socket `/s` with the authority file `a`.
const WORDS: &str = "--socket /s --authority a";

/// The frames by which a client is registered, one save, and the save's end.
const LOGIN: &str = "order demand connected demand opened registered save complete";

fn words_of(alloc: Global, text: &str) -> Result<Vec<String>, Fail> {
    let mut words = Vec::new(alloc);
    for word in text.split(' ') {
        if !word.is_empty() {
            words.push(word.to_string(alloc)?)?;
        }
    }
    Ok(words)
}

/// A peer that gives these frames and has the files, and whose call with this number fails.
fn peer_with(alloc: Global, frames: &str, failing: u64) -> Result<MemPeer, Fail> {
    let stream = stream_of(alloc, frames)?;
    peer_of(alloc, in_threes(alloc, stream.as_slice())?, FILES, failing)
}

fn status_of(alloc: Global, words: &[String], peer: &mut MemPeer, turns: u64) -> u8 {
    smclient_main(alloc, words, peer, turns)
}

/// The status, and what was sent and printed.
fn told(alloc: Global, status: u8, peer: &MemPeer) -> Result<String, Fail> {
    let effects = effects_shown(alloc, peer.effects())?;
    Ok(format!(in alloc; "{status}{effects}")?)
}

fn called(alloc: Global, words: &str, frames: &str, turns: u64) -> Result<String, Fail> {
    let words = words_of(alloc, words)?;
    let mut peer = peer_with(alloc, frames, 0)?;
    let status = status_of(alloc, words.as_slice(), &mut peer, turns);
    told(alloc, status, &peer)
}

fn call_shown(alloc: Global, input: &str) -> Result<String, Fail> {
    let (words, rest) = input.split_once("; ").ok_or("a call without frames")?;
    let (frames, turns) = rest.split_once("; ").ok_or("a call without turns")?;
    called(alloc, words, frames, turns.parse::<u64>()?)
}

/// A client saves once and closes; saves twice as another program; talks, and then waits for the others;
/// has its save cancelled; is refused; gets a frame of no message; and has spent its turns.
const CALLS: &str = "\
--socket /s --authority a; order demand connected demand opened registered save complete; 1000 => 0 order connects cookie opens cookie registers sets done closes \"id smd-00000001-00000001\\n\" \"saved\\n\"
--socket /s --authority a --saves 2 --program p; order connected opened registered save complete save complete; 1000 => 0 order connects opens registers sets-p done sets-p done closes \"id smd-00000001-00000001\\n\" \"saved\\n\" \"saved\\n\"
--socket /s --authority a --interact --phase-two --id old-id; order connected opened registered save-any token two die; 1000 => 0 order connects opens registers-old sets asks talked waits done closes \"id smd-00000001-00000001\\n\" \"died\\n\"
--socket /s --authority a --interact; order connected opened registered save-any cancelled; 1000 => 3 order connects opens registers sets asks failed \"id smd-00000001-00000001\\n\" \"cancelled\\n\"
--socket /s --authority a; order demand fatal; 1000 => 2 order connects cookie
--socket /s --authority a; order connected unknown; 1000 => 11 order connects opens
--socket /s --authority a; order demand connected demand opened registered save; 2 => 9 order";

#[test]
fn a_client_follows_its_session_to_its_end(rt: HostRuntime) -> Result<(), Fail> {
    expect_rows(&rt, CALLS, call_shown)
}

/// The status of a client by these words, and which paths it asked its peer for.
fn asked_by(alloc: Global) -> Result<(u8, String), Fail> {
    let words = words_of(alloc, WORDS)?;
    let mut asked = Asked::new(alloc, peer_with(alloc, LOGIN, 0)?, Octets::new(alloc));
    let status = smclient_main(alloc, words.as_slice(), &mut asked, 1_000);
    Ok((status, asked.paths))
}

/// No clause says which socket is connected to, and how often, since a connection adds no effect.
#[test]
fn each_place_is_taken_once_and_as_the_words_say(rt: HostRuntime) -> Result<(), Fail> {
    let (status, paths) = asked_by(rt.alloc())?;
    assert_eq!(rt; (status, paths.as_str()), (0, "fetch a\nconnect /s\n"));
    Ok(())
}

/// Other words are bad, and other files have no entry or aren't there.
const OTHERS: &str = "\
; ; 1000 => 1 \"smclient: bad words\\n\"
--help; ; 1000 => 1 \"smclient: bad words\\n\"
--socket /s; ; 1000 => 1 \"smclient: bad words\\n\"
--socket /s --authority a --saves 0; ; 1000 => 1 \"smclient: bad words\\n\"
--socket /s --authority a more; ; 1000 => 1 \"smclient: bad words\\n\"
--socket /r --authority a; ; 1000 => 4
--socket /s --authority short; ; 1000 => 4
--socket /s --authority absent; ; 1000 => 5";

#[test]
fn other_words_are_bad_and_other_files_have_no_entry(rt: HostRuntime) -> Result<(), Fail> {
    expect_rows(&rt, OTHERS, call_shown)
}

/// The content of a file by its name.
fn content_of(alloc: Global, name: &str) -> Result<Vec<u8>, Fail> {
    for row in FILES.lines() {
        if let Some((known, digits)) = row.split_once(' ') {
            if known == name {
                return bytes_of(alloc, digits);
            }
        }
    }
    Err("no file of this name".into())
}

/// Whether a file has the cookie for a socket, or why it has none.
fn cookie_shown(alloc: Global, input: &str) -> Result<String, Fail> {
    let (name, socket) = input.split_once(' ').ok_or("a file without a socket")?;
    let file = content_of(alloc, name)?;
    let wanted = bytes_of(alloc, "000102030405060708090a0b0c0d0e0f")?;
    match read_cookie(alloc, file.as_slice(), socket) {
        Ok(cookie) => text_of(alloc, &cookie.matches(wanted.as_slice())),
        Err(refusal) => text_of(alloc, &refusal),
    }
}

const COOKIES: &str = "\
a /s => true
a s => NoEntry
short /s => NoEntry";

#[test]
fn a_client_needs_an_entry(rt: HostRuntime) -> Result<(), Fail> {
    expect_rows(&rt, COOKIES, cookie_shown)
}

/// The status of a client with these words that saves once, over a peer whose call with this number
/// fails.
fn status_failing(alloc: Global, words: &str, failing: u64) -> Result<u8, Fail> {
    let words = words_of(alloc, words)?;
    let mut peer = peer_with(alloc, LOGIN, failing)?;
    Ok(status_of(alloc, words.as_slice(), &mut peer, 1000))
}

/// The status for each failing call up to this one.
fn statuses_shown(alloc: Global, last: &str) -> Result<String, Fail> {
    let mut text = String::new(alloc);
    for number in 1..=last.parse::<u64>()? {
        let status = status_failing(alloc, WORDS, number)?;
        text.push_str(text_of(alloc, &status)?.as_str())?;
    }
    Ok(text)
}

/// Fetch, connect, 9 messages, and 152 bytes in pieces of 3; the console, twice; and nothing more.
const STATUSES: &str = "65 => 55555555555555555555555555555555555555555555555555555555555555660";

#[test]
fn each_call_can_fail(rt: HostRuntime) -> Result<(), Fail> {
    expect_rows(&rt, STATUSES, statuses_shown)
}

/// The status without an entry where this call fails.
fn status_without_entry(alloc: Global, failing: &str) -> Result<String, Fail> {
    let words = "--socket /r --authority a";
    text_of(
        alloc,
        &status_failing(alloc, words, failing.parse::<u64>()?)?,
    )
}

/// The first call fetches the file and the second one connects, which is made only where there is an
/// entry.
const WITHOUT_ENTRY: &str = "\
1 => 5
2 => 4";

#[test]
fn a_client_connects_once_it_has_an_entry(rt: HostRuntime) -> Result<(), Fail> {
    expect_rows(&rt, WITHOUT_ENTRY, status_without_entry)
}
