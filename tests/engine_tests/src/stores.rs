//! Sessions over a store in memory: what opens a blank one, and stores that can't be opened or are full.
ghost use Rattle.std.specs.Prelude.{IfOk};
ghost use Rattle.std.specs.List.{AllByRecursion};
ghost use Rattle.sm_world.specs.Events.{HasPieceSize};

use crate::sessions::{at_once, blank_store, config, config_called};
use owned_lists::{NoMemory, NumberList, Octets};
use session_engine::{ServeFault, Session, Stepped, serve};
use sm_world::{Effect, Event, EventList, MemWorld, PIECE_LIMIT};
use std::alloc::{Alloc, Global};
use std::fmt::Write;
use std::process::Abort;
use std::test::Fail;

// What clients say

/// All that a client says until it has registered as one that is new: its order, the setup of the
/// connection, the proof that it has the cookie, the setup of XSMP, the proof again, and a
/// RegisterClient.
const REGISTERS: [&[u8]; 6] = [
    b"\0\x01\0\0\0\0\0\0",
    b"\0\x02\x01\x01\x06\0\0\0\0\0\0\0\0\0\0\0\x03\0MIT\0\0\0\x03\01.0\0\0\0\
      \x12\0MIT-MAGIC-COOKIE-1\x01\0\0\0",
    PROOF,
    b"\0\x07\x01\x01\x07\0\0\0\x01\x01\0\0\0\0\0\0\x04\0XSMP\0\0\x03\0MIT\0\0\0\x03\01.0\0\0\0\
      \x12\0MIT-MAGIC-COOKIE-1\x01\0\0\0",
    PROOF,
    b"\x01\x01\0\0\x01\0\0\0\0\0\0\0\0\0\0\0",
];

const PROOF: &[u8] = b"\0\x04\0\0\x03\0\0\0\x10\0\0\0\0\0\0\0\
    \x07\x07\x07\x07\x07\x07\x07\x07\x07\x07\x07\x07\x07\x07\x07\x07";

/// An ID of the first epoch, up to the last digit of its number, and what pads it.
const ID: &[u8] = b"\x15\0\0\0smd-00000001-000000";

const ID_END: &[u8] = b"\0\0\0\0\0\0\0";

/// A hex digit.
fn digit(number: u8) -> u8 {
    let number = number % 16;
    if number < 10 {
        return b'0' + number;
    }
    b'a' + (number - 10)
}

/// The two hex digits of a number.
fn digits(number: u8) -> [u8; 2] {
    [digit(number / 16), digit(number)]
}

/// All the parts in a row.
fn joined(alloc: Global, parts: &[&[u8]]) -> Result<Octets, NoMemory> {
    let mut bytes = Octets::new(alloc);
    for part in parts {
        bytes.append(part)?;
    }
    Ok(bytes)
}

/// A connection on which a client registers, all in one piece.
fn registering(alloc: Global) -> Result<EventList, Fail>
    ensures { IfOk result (AllByRecursion HasPieceSize) }
{
    let bytes = joined(alloc, &REGISTERS)?;
    if bytes.len() == 0 || bytes.len() > PIECE_LIMIT {
        return Err("no piece".into());
    }
    Ok(at_once(alloc, bytes.as_slice())?)
}

// What a store holds

const OPEN_GATE: &[u8] = &[0xa5];

/// The generation of the first commit, and the last one that there is.
const FIRST: &[u8] = &[1, 0, 0, 0, 0, 0, 0, 0];

const LAST: &[u8] = &[0xff; 8];

/// Books without entries, of the epoch 1 and of the last one.
const EMPTY_BOOK: &[u8] = &[2, 0, 0, 0, 1, 0, 0, 0, 0, 0, 0, 0, 0, 0, 0, 0];

const LAST_BOOK: &[u8] = &[2, 0, 0, 0, 0xff, 0xff, 0xff, 0xff, 0, 0, 0, 0, 0, 0, 0, 0];

/// Puts bytes at a place of the store, where there is room for them.
fn put(store: &mut Octets, at: usize, bytes: &[u8]) {
    if bytes.len() <= store.len() && at <= store.len() - bytes.len() {
        store.overwrite(at, bytes);
    }
}

/// A store whose first slot has this book.
fn store_of(alloc: Global, generation: &[u8], book: &[u8]) -> Result<Octets, NoMemory> {
    let mut store = blank_store(alloc)?;
    put(&mut store, 0, OPEN_GATE);
    put(&mut store, 64, generation);
    put(&mut store, 72, &(book.len() as u64).to_le_bytes());
    put(&mut store, 80, book);
    Ok(store)
}

/// An empty book of epoch 1 in the format of before sessions had names.
const OLD_BOOK: &[u8] = &[1, 0, 0, 0, 1, 0, 0, 0, 0, 0, 0, 0, 0, 0, 0, 0];

/// The head of a book of epoch 1 with eight sessions.
const EIGHT_SESSIONS: &[u8] = &[2, 0, 0, 0, 1, 0, 0, 0, 8, 0, 0, 0, 0, 0, 0, 0];

/// Appends the head of a session with this letter as its name and so many entries.
fn put_head(book: &mut Octets, letter: u8, count: u8) -> Result<(), NoMemory> {
    book.append(&[1, 0, 0, 0, letter, 0, 0, 0, count, 0, 0, 0, 0, 0, 0, 0])
}

/// Appends an entry of the ID of this number, without properties.
fn put_entry(book: &mut Octets, number: u8) -> Result<(), NoMemory> {
    book.append(ID)?;
    book.append(&digits(number))?;
    book.append(ID_END)?;
    book.append(&[0; 8])
}

/// The sessions `a` to `h` with so many entries each, which have no properties.
fn eight_sessions(alloc: Global, each: u8) -> Result<Octets, NoMemory> {
    let mut book = Octets::from_slice(alloc, EIGHT_SESSIONS)?;
    for place in 0..8u8 {
        put_head(&mut book, b'a' + place, each)?;
        for number in 0..each {
            put_entry(&mut book, (place * 16).saturating_add(number))?;
        }
    }
    Ok(book)
}

// Runs

/// A world with this store, in which this happens.
fn world_of(alloc: Global, events: EventList, store: Octets) -> Result<MemWorld, NoMemory>
    requires { AllByRecursion HasPieceSize events }
{
    MemWorld::new(
        alloc,
        events,
        Octets::new(alloc),
        store,
        NumberList::new(alloc),
    )
}

/// A world with this store, in which nothing happens.
fn quiet(alloc: Global, store: Octets) -> Result<MemWorld, NoMemory> {
    world_of(alloc, EventList::new(alloc), store)
}

/// What opens a blank store, and then the end of the events.
const OPENING: &str = "Wrote(0, Octets { bytes: [0] }) Synced \
    Wrote(64, Octets { bytes: [1, 0, 0, 0, 0, 0, 0, 0, 16, 0, 0, 0, 0, 0, 0, 0, \
    2, 0, 0, 0, 1, 0, 0, 0, 0, 0, 0, 0, 0, 0, 0, 0, 0, 0, 0, 0, 0, 0, 0, 0] }) Synced \
    Wrote(0, Octets { bytes: [165] }) Synced Heard(End) ";

/// What opens a store of before sessions had names: its book is written anew, into the other slot.
const TAKEN_OVER: &str = "Wrote(32, Octets { bytes: [0] }) Synced \
    Wrote(8388672, Octets { bytes: [2, 0, 0, 0, 0, 0, 0, 0, 16, 0, 0, 0, 0, 0, 0, 0, \
    2, 0, 0, 0, 2, 0, 0, 0, 0, 0, 0, 0, 0, 0, 0, 0, 0, 0, 0, 0, 0, 0, 0, 0] }) Synced \
    Wrote(32, Octets { bytes: [165] }) Synced Heard(End) ";

/// Expects that a session over this store does this, and no more.
fn expect_opened(
    rt: &(impl Abort + Alloc<A = Global>),
    store: Octets,
    want: &str,
) -> Result<(), Fail> {
    let mut world = quiet(rt.alloc(), store)?;
    let config = config(rt.alloc())?;
    assert_eq!(rt; serve(rt.alloc(), &mut world, config, 99), Ok(()));
    let mut text = String::new(rt.alloc());
    for effect in world.effects() {
        write!(text, "{effect:?} ")?;
    }
    assert_eq!(rt; text.as_str(), want);
    Ok(())
}

#[test]
fn a_store_is_opened_before_anything_is_heard(rt: HostRuntime) -> Result<(), Fail> {
    expect_opened(&rt, blank_store(rt.alloc())?, OPENING)?;
    let old = store_of(rt.alloc(), FIRST, OLD_BOOK)?;
    expect_opened(&rt, old, TAKEN_OVER)
}

// Stores that aren't blank

/// Expects that this store is refused before anything is written.
fn expect_refused(
    rt: &(impl Abort + Alloc<A = Global>),
    store: Octets,
    fault: ServeFault,
) -> Result<(), Fail> {
    let mut world = quiet(rt.alloc(), store)?;
    let config = config(rt.alloc())?;
    assert_eq!(rt; serve(rt.alloc(), &mut world, config, 99), Err(fault));
    assert_eq!(rt; world.effects().len(), 0);
    Ok(())
}

#[test]
fn a_store_that_cannot_be_opened_is_left_as_it_is(rt: HostRuntime) -> Result<(), Fail> {
    let alloc = rt.alloc();
    expect_refused(&rt, Octets::new(alloc), ServeFault::WrongSize { size: 0 })?;
    let no_book = store_of(alloc, &[], &[])?;
    expect_refused(&rt, no_book, ServeFault::Damaged { at: 80 })?;
    let last_generation = store_of(alloc, LAST, EMPTY_BOOK)?;
    expect_refused(&rt, last_generation, ServeFault::Worn)?;
    let last_epoch = store_of(alloc, FIRST, LAST_BOOK)?;
    expect_refused(&rt, last_epoch, ServeFault::Worn)?;
    let eight = store_of(alloc, FIRST, eight_sessions(alloc, 1)?.as_slice())?;
    expect_refused(&rt, eight, ServeFault::TooManySessions)
}

/// The last message that was sent.
fn last_sent(world: &MemWorld) -> Option<&[u8]> {
    let mut last = None;
    for effect in world.effects() {
        match effect {
            Effect::Sent(_, bytes) => last = Some(bytes.as_slice()),
            _ => {}
        }
    }
    last
}

/// A BadValue for a RegisterClient, the sixth message: the protocol ends, and the empty ID is named.
const NO_ROOM: &[u8] =
    b"\x01\0\x03\x80\x03\0\0\0\x01\x01\0\0\x06\0\0\0\x08\0\0\0\x08\0\0\0\0\0\0\0\0\0\0\0";

#[test]
fn a_full_book_takes_no_new_client(rt: HostRuntime) -> Result<(), Fail> {
    let alloc = rt.alloc();
    let store = store_of(alloc, FIRST, eight_sessions(alloc, 16)?.as_slice())?;
    let mut world = world_of(alloc, registering(alloc)?, store)?;
    assert_eq!(rt;
        serve(alloc, &mut world, config_called(alloc, b"h")?, 99),
        Ok(())
    );
    assert_eq!(rt; last_sent(&world), Some(NO_ROOM));
    Ok(())
}

// A session without `serve`

/// What a session over the world's store is after somebody joined and this event came.
fn stepped(alloc: Global, world: &mut MemWorld, event: Event) -> Result<Stepped, ServeFault> {
    let config = match config(alloc) {
        Ok(config) => config,
        Err(NoMemory) => return Err(ServeFault::NoMemory),
    };
    let session = match Session::start(alloc, world, config) {
        Ok(session) => session,
        Err(fault) => return Err(fault),
    };
    match session.step(alloc, world, Event::Joined(1)) {
        Ok(Stepped::Goes(next)) => next.step(alloc, world, event),
        Ok(Stepped::Finished(marks)) => Ok(Stepped::Finished(marks)),
        Err(fault) => Err(fault),
    }
}

#[test]
fn a_session_goes_from_event_to_event(rt: HostRuntime) -> Result<(), Fail> {
    let alloc = rt.alloc();
    let mut world = quiet(alloc, blank_store(alloc)?)?;
    match stepped(alloc, &mut world, Event::Joined(2))? {
        Stepped::Goes(session) => {
            assert_eq!(rt; session.book().epoch, 1);
            assert_eq!(rt; session.marks().begun, 0);
        }
        Stepped::Finished(_) => assert!(rt; false),
    }
    match stepped(alloc, &mut world, Event::End)? {
        Stepped::Goes(_) => assert!(rt; false),
        Stepped::Finished(marks) => assert_eq!(rt; marks.begun, 0),
    }
    Ok(())
}
