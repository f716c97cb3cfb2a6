//! Calls of the program over worlds in memory.
ghost use Rattle.std.specs.Prelude.{IfOk};
ghost use Rattle.std.specs.List.{AllByRecursion};
ghost use Rattle.sm_world.specs.Events.{HasPieceSize};

use asked_paths::Asked;
use event_script::{Taken, read_script};
use owned_lists::{NoMemory, NumberList, Octets};
use sm_world::{Effect, EventList, MemWorld};
use smrelay_app::{read_route, smrelay_main};
use std::alloc::{Alloc, Global};
use std::fmt::Write;
use std::process::Abort;
use std::test::Fail;

/// A pair that opens, and a message each way.
const SCRIPT: &[u8] = b"join 2\njoin 1\npiece 1 00010000000000000009000000000000\n\
piece 2 0001010000000000000a000000000000\n";

/// The words of a relay.
const SERVE: &str = "serve --to /m --order msb --socket /s";

fn split_words(alloc: Global, text: &str) -> Result<Vec<String>, Fail> {
    let mut words = Vec::new(alloc);
    for word in text.split(' ') {
        words.push(word.to_string(alloc)?)?;
    }
    Ok(words)
}

fn events_of(alloc: Global) -> Result<EventList, NoMemory>
    ensures { IfOk result (AllByRecursion HasPieceSize) }
{
    match read_script(alloc, SCRIPT, Taken::WithoutOrders) {
        Ok(events) => Ok(events),
        Err(_) => Err(NoMemory),
    }
}

/// A world that has the script for its events and for its input, whose call of this number fails.
fn world_of(alloc: Global, failing: u64) -> Result<MemWorld, NoMemory> {
    let mut numbers = NumberList::new(alloc);
    numbers.push(failing)?;
    let input = Octets::from_slice(alloc, SCRIPT)?;
    MemWorld::new(alloc, events_of(alloc)?, input, Octets::new(alloc), numbers)
}

/// The status, how many effects there were, and what was printed last.
fn put_answer(alloc: Global, out: &mut String, status: u8, effects: &[Effect]) -> Result<(), Fail> {
    write!(out, "{status}/{} ", effects.len())?;
    if let Some(Effect::Printed(text)) = effects.last() {
        write!(out, "{}", str::from_utf8(text.as_slice())?)?;
    }
    Ok(())
}

/// Calls with these words, of which the calls of these numbers fail, answer so.
fn expect_answers(
    rt: &(impl Abort + Alloc<A = Global>),
    words: &str,
    turns: u64,
    failing: &[u64],
    wanted: &str,
) -> Result<(), Fail> {
    let alloc = rt.alloc();
    let words = split_words(alloc, words)?;
    let mut found = String::new(alloc);
    for number in failing {
        let mut world = world_of(alloc, *number)?;
        let status = smrelay_main(alloc, words.as_slice(), &mut world, turns);
        put_answer(alloc, &mut found, status, world.effects())?;
    }
    assert_eq!(rt; found.as_str(), wanted);
    Ok(())
}

/// No clause says which paths are opened, and how often, since opening them adds no effect.
#[test]
fn each_place_is_taken_once_and_as_the_words_say(rt: HostRuntime) -> Result<(), Fail> {
    let alloc = rt.alloc();
    let words = split_words(alloc, SERVE)?;
    let mut asked = Asked::new(alloc, world_of(alloc, 0)?, Octets::new(alloc));
    let status = smrelay_main(alloc, words.as_slice(), &mut asked, 5);
    assert_eq!(rt; (status, asked.paths.as_str()), (0, "listen /s /m\n"));
    Ok(())
}

#[test]
fn a_relay_serves_by_its_words(rt: HostRuntime) -> Result<(), Fail> {
    // Four events and End, two orders and two messages; no call has the number 0.
    expect_answers(&rt, SERVE, 5, &[0], "0/9 ")?;
    expect_answers(&rt, SERVE, 4, &[0], "9/9 smrelay: turns spent\n")
}

#[test]
fn each_call_of_a_relay_may_fail(rt: HostRuntime) -> Result<(), Fail> {
    // The socket, two who join, the two orders, and a piece.
    let wanted = "5/1 smrelay: link fault\n5/1 smrelay: link fault\n5/2 smrelay: link fault\n\
        5/3 smrelay: link fault\n5/4 smrelay: link fault\n5/5 smrelay: link fault\n";
    expect_answers(&rt, SERVE, 9, &[1, 2, 3, 4, 5, 6], wanted)
}

#[test]
fn each_call_of_a_rehearsal_may_fail(rt: HostRuntime) -> Result<(), Fail> {
    // The input, its end, and the trace.
    expect_answers(&rt, "rehearse msb", 9, &[1, 2, 3], "6/0 6/0 6/0 ")
}

#[test]
fn a_route_is_read_from_its_words(rt: HostRuntime) -> Result<(), Fail> {
    let words = split_words(rt.alloc(), SERVE)?;
    let found = match read_route(words.as_slice()) {
        Some(route) => (route.socket, route.to),
        None => ("", ""),
    };
    assert_eq!(rt; found, ("/s", "/m"));
    Ok(())
}
