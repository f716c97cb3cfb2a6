//! Worlds in memory by the names that rows have for what is in them.

ghost use Rattle.std.specs.Prelude.{IfOk};
ghost use Rattle.std.specs.List.{AllByRecursion};
ghost use Rattle.sm_world.specs.Events.{HasPieceSize};

use event_script::{ScriptFault, Taken, read_script};
use owned_lists::{NoMemory, NumberList, Octets};
use session_in_memory::blank_store;
use sm_world::{Effect, EventList, MemWorld};
use std::alloc::Global;
use std::test::Fail;

/// A client that logs in, saves once, and leaves at the logout.
const SESSION: &str = "\
join 1
piece 1 0001000000000000
piece 1 0002010106000000000000000000000003004d49540000000300312e3000000012004d49542d4d414749432d434f4f4b49452d3101000000
piece 1 00040000030000001000000000000000000102030405060708090a0b0c0d0e0f
piece 1 00070100070000000101000000000000040058534d50000003004d49540000000300312e3000000012004d49542d4d414749432d434f4f4b49452d3101000000
piece 1 00040000030000001000000000000000000102030405060708090a0b0c0d0e0f
piece 1 01010000010000000000000000000000
piece 1 0108010000000000
order shutdown
piece 1 0108010000000000
piece 1 010b0000010000000000000000000000
";

/// A client that registers, and then says nothing more for a second.
const SILENCE: &str = "\
join 1
piece 1 0001000000000000
piece 1 0002010106000000000000000000000003004d49540000000300312e3000000012004d49542d4d414749432d434f4f4b49452d3101000000
piece 1 00040000030000001000000000000000000102030405060708090a0b0c0d0e0f
piece 1 00070100070000000101000000000000040058534d50000003004d49540000000300312e3000000012004d49542d4d414749432d434f4f4b49452d3101000000
piece 1 00040000030000001000000000000000000102030405060708090a0b0c0d0e0f
piece 1 01010000010000000000000000000000
tick 999
order status
tick 1
order status
";

const ORDERS: &str = "\
order status
order cancel
order drop 9
order forget x
order shutdown
";

/// A script by its name.
fn script_of(name: &str) -> &'static str {
    match name {
        "a join" => "join 1\n",
        "a join of x" => "join x\n",
        "a tick" => "#\ntick 1\n",
        "orders" => ORDERS,
        "a session" => SESSION,
        "a silence" => SILENCE,
        _ => "",
    }
}

/// Puts bytes at a place of the store, where there is room for them.
fn put(store: &mut Octets, at: usize, bytes: &[u8]) {
    if bytes.len() <= store.len() && at <= store.len() - bytes.len() {
        store.overwrite(at, bytes);
    }
}

/// Puts a book of the last generation, in which there is nothing, into the first slot.
fn put_last_book(store: &mut Octets) {
    put(store, 64, &[255; 8]);
    put(store, 72, b"\x10\0\0\0\0\0\0\0\x01\0\0\0\x01\0\0\0");
}

/// Puts a book of eight sessions, `a` to `h`, with an entry each, into the first slot.
fn put_eight(store: &mut Octets) {
    put(store, 64, &[1]);
    put(
        store,
        72,
        b"\xd0\x01\0\0\0\0\0\0\x02\0\0\0\x01\0\0\0\x08\0\0\0",
    );
    let mut at: usize = 96;
    for letter in b'a'..b'i' {
        put(store, at, b"\x01\0\0\0");
        put(store, at.saturating_add(4), &[letter]);
        put(
            store,
            at.saturating_add(8),
            b"\x01\0\0\0\0\0\0\0\x15\0\0\0smd-00000001-0000000",
        );
        put(store, at.saturating_add(40), &[letter.saturating_sub(48)]);
        at = at.saturating_add(56);
    }
}

/// A store by its name: one that is blank, one whose first gate is open over nothing, one that has no
/// number for a further book, one with eight sessions, and one without a byte.
fn store_of(alloc: Global, name: &str) -> Result<Octets, NoMemory> {
    if name == "none" {
        return Ok(Octets::new(alloc));
    }
    let mut store = blank_store(alloc)?;
    if name != "blank" {
        put(&mut store, 0, &[0xa5]);
    }
    if name == "worn" {
        put_last_book(&mut store);
    }
    if name == "eight" {
        put_eight(&mut store);
    }
    Ok(store)
}

/// The events of a script.
fn events_of(alloc: Global, script: &str) -> Result<EventList, Fail>
    ensures { IfOk result (AllByRecursion HasPieceSize) }
{
    match read_script(alloc, script.as_bytes(), Taken::All) {
        Ok(events) => Ok(events),
        Err(ScriptFault::BadLine(_)) => Err("no line of a script".into()),
        Err(ScriptFault::NoMemory) => Err("no memory".into()),
    }
}

/// A world with what is heard, what is typed and what is stored, whose call of this number fails; of 0
/// none does.
fn world_with(
    alloc: Global,
    heard: &str,
    typed: &str,
    store: Octets,
    failing: u64,
) -> Result<MemWorld, Fail> {
    let mut numbers = NumberList::new(alloc);
    numbers.push(failing)?;
    let typed = Octets::from_slice(alloc, typed.as_bytes())?;
    let events = events_of(alloc, heard)?;
    Ok(MemWorld::new(alloc, events, typed, store, numbers)?)
}

/// A world with this script and this store, by their names. A rehearsal's script is typed, and that of a
/// session is heard.
pub fn world_of(
    alloc: Global,
    is_rehearsal: bool,
    script: &str,
    store: &str,
    failing: u64,
) -> Result<MemWorld, Fail> {
    let script = script_of(script);
    let store = store_of(alloc, store)?;
    if is_rehearsal {
        world_with(alloc, "", script, store, failing)
    } else {
        world_with(alloc, script, "", store, failing)
    }
}

fn put_printed(out: &mut Octets, effect: &Effect) -> Result<(), NoMemory> {
    match effect {
        Effect::Printed(bytes) => {
            out.append(bytes.as_slice())?;
            out.append(b"|")
        }
        _ => Ok(()),
    }
}

/// What was printed, a bar behind each text.
pub fn printed(alloc: Global, effects: &[Effect]) -> Result<Octets, NoMemory> {
    let mut text = Octets::new(alloc);
    for effect in effects {
        put_printed(&mut text, effect)?;
    }
    Ok(text)
}
