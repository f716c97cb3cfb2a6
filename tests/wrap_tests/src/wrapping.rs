//! Whole calls over a peer and files in memory, by bytes that the standards give (ICE, chapter 5; XSMP,
//! chapter 10).

use crate::frames::{
    CLOSES, COMPLETE, CONNECTED, CONNECTS, COOKIE, DEMAND, DIE, DONE, FAILED, FATAL, OPENED, OPENS,
    ORDER, REGISTERED, REGISTERS, SAVE, SETS, SETS_FOUR, SETS_TWO, UNKNOWN,
};
use asked_paths::Asked;
use client_peer::{MemPeer, Peer};
use owned_lists::{NoMemory, NumberList, Octets, OctetsList, PairList};
use sm_world::{Console, Effect, Spawner};
use smwrap_app::{a_client_tells_what_it_answers, copies_are_apart, smwrap_main};
use state_saver::{Files, MemFiles};
use std::alloc::Global;
use std::test::Fail;
use test_tables::expect_rows;

/// An entry for the socket `/p`.
const ENTRY: &[u8] = b"\0\x03ICE\0\0\0\x0alocal/h:/p\0\x12MIT-MAGIC-COOKIE-1\
\0\x10\0\x01\x02\x03\x04\x05\x06\x07\x08\x09\x0a\x0b\x0c\x0d\x0e\x0f";

/// The letter of each frame in the rows.
fn frame(letter: u8) -> &'static [u8] {
    match letter {
        b'B' => ORDER,
        b'D' => DEMAND,
        b'C' => CONNECTED,
        b'O' => OPENED,
        b'R' => REGISTERED,
        b'S' => SAVE,
        b'K' => COMPLETE,
        b'X' => DIE,
        b'F' => FATAL,
        b'U' => UNKNOWN,
        b'P' => CONNECTS,
        b'Q' => COOKIE,
        b'N' => OPENS,
        b'G' => REGISTERS,
        b'1' => SETS,
        b'2' => SETS_TWO,
        b'4' => SETS_FOUR,
        b'Y' => DONE,
        b'Z' => FAILED,
        b'L' => CLOSES,
        _ => b"",
    }
}

/// The bytes of frames, one behind the other.
fn joined(alloc: Global, letters: &str) -> Result<Octets, NoMemory> {
    let mut bytes = Octets::new(alloc);
    for letter in letters.as_bytes() {
        bytes.append(frame(*letter))?;
    }
    Ok(bytes)
}

fn numbers(alloc: Global, number: u64) -> Result<NumberList, NoMemory> {
    let mut numbers = NumberList::new(alloc);
    numbers.push(number)?;
    Ok(numbers)
}

/// A peer that gives these frames in pieces of 5 bytes, and whose call with this number fails.
pub fn peer(alloc: Global, frames: &str, failing: u64) -> Result<MemPeer, NoMemory> {
    let bytes = joined(alloc, frames)?;
    let mut pieces = OctetsList::new(alloc);
    for piece in bytes.as_slice().chunks(5) {
        pieces.push(Octets::from_slice(alloc, piece)?)?;
    }
    MemPeer::new(
        alloc,
        pieces,
        PairList::new(alloc),
        numbers(alloc, failing)?,
    )
}

/// A path and what stands there.
fn file(alloc: Global, path: &[u8], bytes: &[u8]) -> Result<(Octets, Octets), NoMemory> {
    Ok((
        Octets::from_slice(alloc, path)?,
        Octets::from_slice(alloc, bytes)?,
    ))
}

/// The authority file `/a`, the state `/s` with `a`, and its copies `/s.3` with `c` and
/// `/s.4294967295` with `z`; the call with this number fails.
fn files(alloc: Global, failing: u64) -> Result<MemFiles, NoMemory> {
    let mut files = PairList::new(alloc);
    files.push(file(alloc, b"/a", ENTRY)?)?;
    files.push(file(alloc, b"/s", b"a")?)?;
    files.push(file(alloc, b"/s.3", b"c")?)?;
    files.push(file(alloc, b"/s.4294967295", b"z")?)?;
    MemFiles::new(alloc, files, numbers(alloc, failing)?)
}

/// All that was sent.
fn sent(alloc: Global, effects: &[Effect]) -> Result<Octets, NoMemory> {
    let mut sent = Octets::new(alloc);
    for effect in effects {
        if let Effect::Sent(_, bytes) = effect {
            sent.append(bytes.as_slice())?;
        }
    }
    Ok(sent)
}

/// Appends what one effect did, in words.
fn put_deed(text: &mut Octets, effect: &Effect) -> Result<(), NoMemory> {
    match effect {
        Effect::Started(_, true) => text.append(b" started"),
        Effect::Started(_, false) => text.append(b" not started"),
        Effect::Published(path, bytes) => {
            text.append(b" ")?;
            text.append(path.as_slice())?;
            text.append(b"=")?;
            text.append(bytes.as_slice())
        }
        Effect::Printed(line) => {
            if line.as_slice() == b"smwrap: bad words\n".as_slice() {
                text.append(b" bad")
            } else {
                text.append(b" ?")
            }
        }
        _ => text.append(b" ?"),
    }
}

/// What was done to the files, in words.
fn deeds(alloc: Global, effects: &[Effect]) -> Result<Octets, NoMemory> {
    let mut text = Octets::new(alloc);
    for effect in effects {
        put_deed(&mut text, effect)?;
    }
    Ok(text)
}

/// Words that are parted by blanks.
fn word_list(alloc: Global, words: &str) -> Result<Vec<String>, Fail> {
    let mut list = Vec::new(alloc);
    for word in words.split(' ') {
        list.push(word.to_string(alloc)?)?;
    }
    Ok(list)
}

/// One of some numbers that are parted by blanks.
fn number(numbers: &str, place: usize) -> Result<u64, Fail> {
    let word = numbers.split(' ').nth(place).ok_or("a number")?;
    Ok(word.parse::<u64>()?)
}

/// Calls `smwrap_main` with these words.
pub fn status_of<P: Peer, F: Files + Spawner + Console>(
    alloc: Global,
    words: &str,
    peer: &mut P,
    files: &mut F,
    turns: u64,
) -> Result<u8, Fail> {
    let words = word_list(alloc, words)?;
    Ok(smwrap_main(alloc, words.as_slice(), peer, files, turns))
}

/// The status and the deeds of a call, and a mark where something else than these frames was sent.
fn shown(
    alloc: Global,
    status: u8,
    deeds: &Octets,
    sent: &Octets,
    want: &Octets,
) -> Result<String, Fail> {
    let deeds = str::from_utf8(deeds.as_slice())?;
    if sent.as_slice() == want.as_slice() {
        Ok(format!(in alloc; "{status}{deeds}")?)
    } else {
        Ok(format!(in alloc; "{status}{deeds}, and sent otherwise")?)
    }
}

/// The same of what a call did to its peer and its files.
fn told(
    alloc: Global,
    status: u8,
    peer: &[Effect],
    files: &[Effect],
    said: &str,
) -> Result<String, Fail> {
    let done = deeds(alloc, files)?;
    let sent = sent(alloc, peer)?;
    let want = joined(alloc, said)?;
    shown(alloc, status, &done, &sent, &want)
}

/// A call by a row: the numbers of the peer's call that fails, of the files', and of the turns; the words;
/// the frames of the peer; and those that are to be sent.
fn call(alloc: Global, input: &str) -> Result<String, Fail> {
    let (counts, rest) = input.split_once(" / ").ok_or("numbers")?;
    let (words, rest) = rest.split_once(" / ").ok_or("words")?;
    let (frames, said) = rest.split_once(" / ").ok_or("frames")?;
    let mut peer = peer(alloc, frames, number(counts, 0)?)?;
    let mut files = files(alloc, number(counts, 1)?)?;
    let turns = number(counts, 2)?;
    let status = status_of(alloc, words, &mut peer, &mut files, turns)?;
    told(alloc, status, peer.effects(), files.effects(), said)
}

const SESSIONS: &str = "\
0 0 1000 / --socket /p --authority /a --state /s --from 0 -- e / BDCDORSKX / BPQNQG1YL => 0 started /s.1=a
0 3 1000 / --socket /p --authority /a --state /s --from 0 -- e / BDCDORSKX / BPQNQGZL => 0 started
0 4 1000 / --socket /p --authority /a --state /s --from 0 -- e / BDCDORSKX / BPQNQGZL => 0 started
0 2 1000 / --socket /p --authority /a --state /s --from 0 -- e / BDCDORSKX / BPQNQG1YL => 0 not started /s.1=a
0 0 1000 / --socket /p --authority /a --state /s --from 0 -- e / BDCDORSKSKX / BPQNQG1Y2YL => 0 started /s.1=a /s.2=a
0 0 1000 / --from 3 --state /s --authority /a --socket /p -- e / BDCDORSKX / BPQNQG4YL => 0 /s=c started /s.4=c
0 4 1000 / --from 3 --state /s --authority /a --socket /p -- e / BDCDORSKX / BPQNQG4YL => 0 /s=c not started /s.4=c
0 5 1000 / --from 3 --state /s --authority /a --socket /p -- e / BDCDORSKX / BPQNQGZL => 0 /s=c started
0 6 1000 / --from 3 --state /s --authority /a --socket /p -- e / BDCDORSKX / BPQNQGZL => 0 /s=c started
0 0 1000 / --socket /p --authority /a --state /s --from 4294967295 -- e / BDCDORSKX / BPQNQGZL => 0 /s=z started";

#[test]
fn each_save_has_a_copy_with_its_number(rt: HostRuntime) -> Result<(), Fail> {
    a_client_tells_what_it_answers();
    copies_are_apart();
    expect_rows(&rt, SESSIONS, call)
}

/// The status of a run, and which paths it asked its peer for.
fn asked_by(alloc: Global) -> Result<(u8, String), Fail> {
    let words = "--socket /p --authority /a --state /s --from 0 -- e";
    let peer = peer(alloc, "BDCDORSKX", 0)?;
    let mut asked = Asked::new(alloc, peer, Octets::new(alloc));
    let status = status_of(alloc, words, &mut asked, &mut files(alloc, 0)?, 1_000)?;
    Ok((status, asked.paths))
}

/// No clause says which socket is connected to, and how often, since a connection adds no effect.
#[test]
fn each_place_is_taken_once_and_as_the_words_say(rt: HostRuntime) -> Result<(), Fail> {
    let (status, paths) = asked_by(rt.alloc())?;
    assert_eq!(rt; (status, paths.as_str()), (0, "connect /p\n"));
    Ok(())
}

const STOPS: &str = "\
0 1 1000 / --socket /p --authority /a --state /s --from 0 -- e / BDCDORSKX / - => 13
0 2 1000 / --from 3 --state /s --authority /a --socket /p -- e / BDCDORSKX / - => 13
0 3 1000 / --from 3 --state /s --authority /a --socket /p -- e / BDCDORSKX / - => 13
0 0 1000 / --socket /p --authority /none --state /s --from 0 -- e / BDCDORSKX / - => 13
0 0 1000 / --socket /p --authority /a --state /s --from 5 -- e / BDCDORSKX / - => 13
0 0 1000 / --socket /q --authority /a --state /s --from 0 -- e / BDCDORSKX / - => 4
0 0 1000 / --socket /p --authority /s --state /s --from 0 -- e / BDCDORSKX / - => 4";

#[test]
fn files_that_fail_before_the_start_end_the_call(rt: HostRuntime) -> Result<(), Fail> {
    expect_rows(&rt, STOPS, call)
}

const BAD_WORDS: &str = "\
0 0 1000 / --socket /p --authority /a --state /s --from 0 -- / B / - => 1 bad
0 1 1000 / --socket /p --authority /a --state /s -- e / B / - => 1
0 0 1000 / --socket /p --authority /a --state /s -- e / B / - => 1 bad
0 0 1000 / --socket /p --socket /p --authority /a --state /s -- e / B / - => 1 bad
0 0 1000 / --socket /p --authority /a --state /s --from 0 e / B / - => 1 bad
0 0 1000 / --socket /p --authority /a --state /s --from 00 -- e / B / - => 1 bad
0 0 1000 / --socket /p --authority /a --state /s --from 4294967296 -- e / B / - => 1 bad
0 0 1000 / --socket /p --authority /a --state /s --from 0 --from 0 -- e / B / - => 1 bad
0 0 1000 / --socket /p --authority /a --state /s --from 0 --ID x -- e / B / - => 1 bad
0 0 1000 / --socket  --authority /a --state /s --from 0 -- e / B / - => 1 bad
0 0 1000 / --socket /p --authority /a --state /s --from 0 -- 1 2 3 4 5 6 7 8 9 10 11 12 13 14 15 16 17 / B / - => 1 bad";

#[test]
fn other_words_are_bad(rt: HostRuntime) -> Result<(), Fail> {
    expect_rows(&rt, BAD_WORDS, call)
}

const ENDS: &str = "\
0 0 1000 / --socket /p --authority /a --state /s --from 0 -- e / BDF / BPQ => 2 started
0 0 1000 / --socket /p --authority /a --state /s --from 0 -- e / BD / BPQ => 3 started
0 0 1000 / --socket /p --authority /a --state /s --from 0 -- 1 2 3 4 5 6 7 8 9 10 11 12 13 14 15 16 / - / B => 3 started
0 0 1000 / --socket /p --authority /a --state /s --from 0 -- e / BCU / BPN => 11 started
0 0 1 / --socket /p --authority /a --state /s --from 0 -- e / BDCDORSKX / B => 9 started
1 0 1000 / --socket /p --authority /a --state /s --from 0 -- e / BDCDORSKX / - => 5 started
2 0 1000 / --socket /p --authority /a --state /s --from 0 -- e / BDCDORSKX / - => 5 started
3 0 1000 / --socket /p --authority /a --state /s --from 0 -- e / BDCDORSKX / B => 5 started";

#[test]
fn each_end_has_its_status(rt: HostRuntime) -> Result<(), Fail> {
    expect_rows(&rt, ENDS, call)
}

/// The status of a call with an ID of so many bytes, whose manager says nothing.
fn with_id(alloc: Global, input: &str) -> Result<String, Fail> {
    let id = "i".repeat(alloc, input.parse::<usize>()?)?;
    let words = format!(in alloc; "--id {id} --socket /p --authority /a --state /s --from 0 -- e")?;
    let mut peer = peer(alloc, "-", 0)?;
    let mut files = files(alloc, 0)?;
    let status = status_of(alloc, words.as_str(), &mut peer, &mut files, 1000)?;
    Ok(format!(in alloc; "{status}")?)
}

#[test]
fn an_id_has_at_most_512_bytes(rt: HostRuntime) -> Result<(), Fail> {
    expect_rows(&rt, "512 => 3\n513 => 1", with_id)
}
