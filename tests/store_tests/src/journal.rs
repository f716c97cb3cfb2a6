//! The journal over a world in memory: what an append writes, what a crash leaves of it after each
//! effect, a slot that appends fill, and a compaction behind appends.

use crate::amendments::{DELTAS, read};
use crate::slots::{
    FIRST_STORE, all_left, blank_store, book_of, byte_at, choice_of, epoch_in, is_old_or_new, put,
    store_with, world_of,
};
use crate::table::{bytes_of, digits_of, expect_rows, text_of};
use checkpoint_changes::{Change, Delta, delta_length, delta_of, spell_delta};
use checkpoint_journal::Journal;
use checkpoint_records::spell_book;
use checkpoint_slots::StoreFault;
use owned_lists::{NoMemory, Octets};
use sm_world::{Choice, Disk, MemWorld};
use std::alloc::{Alloc, Global};
use std::process::Abort;
use std::test::Fail;

/// So many changes, each of which sets this epoch.
fn epochs(alloc: Global, epoch: u32, count: u32) -> Result<Delta, NoMemory> {
    let mut delta = Delta::new(alloc);
    for _ in 0..count {
        delta.push(Change::Epoch(epoch))?;
    }
    Ok(delta)
}

/// Recovers the store, and appends a delta; false where it doesn't fit.
fn append<D: Disk>(alloc: Global, disk: &mut D, delta: &Delta) -> Result<bool, StoreFault> {
    let (journal, _) = Journal::recover_from(alloc, disk)?;
    if !journal.fits(delta) {
        return Ok(false);
    }
    match journal.append(alloc, disk, delta) {
        Ok(_) => Ok(true),
        Err((_, fault)) => Err(fault),
    }
}

/// Recovers the store, and writes a book of this epoch whole.
fn compact<D: Disk>(alloc: Global, disk: &mut D, epoch: u8) -> Result<(), StoreFault> {
    let (journal, _) = Journal::recover_from(alloc, disk)?;
    let Ok(book) = book_of(alloc, epoch) else {
        return Err(StoreFault::NoMemory);
    };
    match journal.compact(alloc, disk, &book) {
        Ok(_) => Ok(()),
        Err((_, fault)) => Err(fault),
    }
}

/// Recovers the store, and appends so many changes, each of which sets this epoch.
fn append_epochs<D: Disk>(
    alloc: Global,
    disk: &mut D,
    epoch: u32,
    count: u32,
) -> Result<bool, StoreFault> {
    append(alloc, disk, &epochs(alloc, epoch, count)?)
}

/// A world whose first slot has a book of epoch 1, in which the calls of these numbers fail.
fn first_world(alloc: Global, failing: &[u64]) -> Result<MemWorld, Fail> {
    let store = store_with(alloc, FIRST_STORE)?;
    Ok(world_of(alloc, store, failing)?)
}

/// What an append of the epoch 2 answers, and the effects.
fn appending(alloc: Global, world: &mut MemWorld) -> Result<String, Fail> {
    let answer = append_epochs(alloc, world, 2, 1);
    Ok(format!(in alloc; "{answer:?} {:?}", world.effects())?)
}

fn append_shown(alloc: Global, _input: &str) -> Result<String, Fail> {
    let mut world = first_world(alloc, &[])?;
    appending(alloc, &mut world)
}

/// What is put behind the gate for the epoch 2, with the next gate; and the gate.
const APPENDED: &str = " => Ok(true) \
    [Wrote(97, Octets { bytes: [0, 0, 0, 8, 0, 0, 0, 1, 0, 0, 0, 2, 0, 0, 0, 0] }), Synced, \
    Wrote(96, Octets { bytes: [165] }), Synced]";

#[test]
fn an_append_writes_behind_its_gate_and_opens_it(rt: HostRuntime) -> Result<(), Fail> {
    expect_rows(&rt, APPENDED, append_shown)
}

/// What an append of the epoch 2 answers, and what a crash of it leaves.
fn crashed(alloc: Global, world: &mut MemWorld, choice: Choice) -> Result<String, Fail> {
    let answer = append_epochs(alloc, world, 2, 1);
    Ok(format!(in alloc; "{answer:?} {}", all_left(alloc, world, choice)?)?)
}

fn crash_shown(alloc: Global, name: &str) -> Result<String, Fail> {
    let mut world = first_world(alloc, &[])?;
    crashed(alloc, &mut world, choice_of(name))
}

/// The epoch before and after each of the four effects of an append, where the bytes in doubt are as they
/// were written or as they were synced.
const LEFT: &str = "\
written => Ok(true) [1, 1, 1, 2, 2]
synced => Ok(true) [1, 1, 1, 1, 2]";

#[test]
fn a_crash_leaves_the_book_with_the_delta_or_without(rt: HostRuntime) -> Result<(), Fail> {
    expect_rows(&rt, LEFT, crash_shown)
}

/// The same where they are all alike, of which one could be an open gate.
const LEFT_ALIKE: &str = "\
zeros => Ok(true) [1, 1, 1, 1, 2]
gates => Ok(true) [1, 1, 1, 2, 2]
ones => Ok(true) [1, 1, 1, 1, 2]";

#[test]
fn a_crash_leaves_bytes_that_are_alike(rt: HostRuntime) -> Result<(), Fail> {
    expect_rows(&rt, LEFT_ALIKE, crash_shown)
}

/// Whether an append of the epoch 2 to a store of epoch 1 fails by the disk, and recovery then gives
/// one of the two books, whatever a crash leaves.
fn survived(alloc: Global, world: &mut MemWorld) -> Result<bool, Fail> {
    let answer = append_epochs(alloc, world, 2, 1);
    Ok(answer == Err(StoreFault::DiskFault) && is_old_or_new(alloc, world)?)
}

/// The same while the call of a number fails.
fn survived_shown(alloc: Global, number: &str) -> Result<String, Fail> {
    let mut world = first_world(alloc, &[number.parse::<u64>()?])?;
    text_of(alloc, &survived(alloc, &mut world)?)
}

/// What recovery asks of the disk.
const SURVIVED: &str = "\
1 => true
2 => true
3 => true
4 => true
5 => true
6 => true";

#[test]
fn each_call_of_recovery_may_fail(rt: HostRuntime) -> Result<(), Fail> {
    expect_rows(&rt, SURVIVED, survived_shown)
}

/// What is put behind the gate, and the gate, each by a write and a sync.
const SURVIVED_WRITING: &str = "\
7 => true
8 => true
9 => true
10 => true";

#[test]
fn each_call_of_an_append_may_fail(rt: HostRuntime) -> Result<(), Fail> {
    expect_rows(&rt, SURVIVED_WRITING, survived_shown)
}

fn blank_shown(alloc: Global, _input: &str) -> Result<String, Fail> {
    let mut world = world_of(alloc, blank_store(alloc)?, &[])?;
    text_of(alloc, &append_epochs(alloc, &mut world, 2, 0))
}

#[test]
fn nothing_is_appended_to_a_blank_store(rt: HostRuntime) -> Result<(), Fail> {
    expect_rows(&rt, " => Ok(false)", blank_shown)
}

/// Puts so many changes behind the book of a store, each of which sets this epoch, in one amendment.
fn put_changes(alloc: Global, store: &mut Octets, epoch: u32, count: u32) -> Result<(), Fail> {
    let delta = epochs(alloc, epoch, count)?;
    if delta_length(&delta) >= 4_294_967_296 {
        return Err("too many changes".into());
    }
    let bytes = spell_delta(alloc, &delta)?;
    put(store, 96, &[0xa5]);
    put(store, 100, &(bytes.len() as u32).to_le_bytes());
    put(store, 104, bytes.as_slice());
    Ok(())
}

/// A store of epoch 1 whose first slot has these changes.
fn filled_store(alloc: Global, epoch: u32, count: u32) -> Result<Octets, Fail> {
    let mut store = store_with(alloc, FIRST_STORE)?;
    put_changes(alloc, &mut store, epoch, count)?;
    Ok(store)
}

fn append_step(alloc: Global, world: &mut MemWorld, numbers: &str) -> Result<String, Fail> {
    let (epoch, count) = numbers.split_once(' ').ok_or("no count")?;
    let answer = append_epochs(alloc, world, epoch.parse::<u32>()?, count.parse::<u32>()?);
    text_of(alloc, &answer)
}

/// What a step answers: an append of an epoch so many times, a compaction to an epoch, the epoch that
/// stands, or the byte at a place.
fn step_shown(alloc: Global, world: &mut MemWorld, step: &str) -> Result<String, Fail> {
    let (what, numbers) = step.split_once(' ').ok_or("no number")?;
    match what {
        "append" => append_step(alloc, world, numbers),
        "compact" => text_of(alloc, &compact(alloc, world, numbers.parse::<u8>()?)),
        "epoch" => text_of(alloc, &epoch_in(alloc, world)),
        _ => text_of(alloc, &byte_at(world, numbers.parse::<usize>()?)),
    }
}

fn steps_shown(alloc: Global, world: &mut MemWorld, steps: &str) -> Result<String, Fail> {
    let mut text = String::new(alloc);
    for step in steps.split(", ") {
        text.push_str(step_shown(alloc, world, step)?.as_str())?;
        text.push(' ')?;
    }
    Ok(text)
}

/// What steps answer in a world whose first slot has so many changes, all of the epoch 7.
fn filled_shown(alloc: Global, input: &str) -> Result<String, Fail> {
    let (count, steps) = input.split_once(": ").ok_or("no count")?;
    let store = filled_store(alloc, 7, count.parse::<u32>()?)?;
    let mut world = world_of(alloc, store, &[])?;
    steps_shown(alloc, &mut world, steps)
}

/// 1,048,571 changes of an epoch fill the first slot behind a book of sixteen bytes to its last byte,
/// where no gate stands.
const TO_THE_END: &str = "\
1048571: epoch now, byte 8388671, append 8 0, compact 8, append 9 1, epoch now => Ok(7) Some(0) Ok(false) Ok(()) Ok(true) Ok(9) ";

#[test]
fn nothing_fits_behind_the_last_byte(rt: HostRuntime) -> Result<(), Fail> {
    expect_rows(&rt, TO_THE_END, filled_shown)
}

/// What steps answer in a world of epoch 1.
fn first_shown(alloc: Global, steps: &str) -> Result<String, Fail> {
    let mut world = first_world(alloc, &[])?;
    steps_shown(alloc, &mut world, steps)
}

/// 1,048,570 changes fill it but for eight bytes with the last gate.
const FILLED: &str = "\
append 7 1048567, append 8 1, append 8 1, append 9 0, append 9 0, epoch now => Ok(true) Ok(true) Ok(false) Ok(true) Ok(false) Ok(8) ";

#[test]
fn appends_fill_a_slot_up_to_its_last_gate(rt: HostRuntime) -> Result<(), Fail> {
    expect_rows(&rt, FILLED, first_shown)
}

const COMPACTED: &str = "\
append 7 1048570, epoch now, append 8 0, compact 8, epoch now, byte 8388672 => Ok(true) Ok(7) Ok(false) Ok(()) Ok(8) Some(2) ";

#[test]
fn a_full_slot_is_compacted_into_the_other(rt: HostRuntime) -> Result<(), Fail> {
    expect_rows(&rt, COMPACTED, first_shown)
}

/// A store of epoch 1 that an earlier version left, in format 1.
const OLD_STORE: &str = "\
    0 a5, 64 01000000000000001000000000000000010000000100000000000000000000000000000000000000";

/// What steps answer in a world of that store.
fn old_shown(alloc: Global, steps: &str) -> Result<String, Fail> {
    let mut world = world_of(alloc, store_with(alloc, OLD_STORE)?, &[])?;
    steps_shown(alloc, &mut world, steps)
}

const OLD_COMPACTED: &str = "\
epoch now, byte 80, append 2 1, compact 2, byte 8388688, append 3 1, epoch now => Ok(1) Some(1) Ok(false) Ok(()) Some(2) Ok(true) Ok(3) ";

#[test]
fn nothing_is_appended_to_a_book_of_format_1(rt: HostRuntime) -> Result<(), Fail> {
    expect_rows(&rt, OLD_COMPACTED, old_shown)
}

/// A store whose first slot has the book that these digits write.
fn store_of(alloc: Global, digits: &str) -> Result<Octets, Fail> {
    let bytes = bytes_of(alloc, digits)?;
    let mut store = store_with(alloc, "0 a5, 64 01")?;
    put(&mut store, 72, &(bytes.len() as u64).to_le_bytes());
    put(&mut store, 80, bytes.as_slice());
    Ok(store)
}

/// The delta of the two books that these digits write.
fn delta_between(alloc: Global, old: &str, new: &str) -> Result<Delta, Fail> {
    Ok(delta_of(alloc, &read(alloc, old)?, &read(alloc, new)?)?)
}

/// The digits of the book that recovery finds.
fn recovered<D: Disk>(alloc: Global, disk: &mut D) -> Result<String, Fail> {
    let (_, book) = Journal::recover_from(alloc, disk)?;
    digits_of(alloc, spell_book(alloc, &book)?.as_slice())
}

/// Appends a delta, and gives the book that recovery finds then.
fn appended<D: Disk>(alloc: Global, disk: &mut D, delta: &Delta) -> Result<String, Fail> {
    if !append(alloc, disk, delta)? {
        return Err("no room".into());
    }
    recovered(alloc, disk)
}

/// The digits of this book in format 2.
fn respelled(alloc: Global, digits: &str) -> Result<String, Fail> {
    let book = read(alloc, digits)?;
    digits_of(alloc, spell_book(alloc, &book)?.as_slice())
}

/// The same of the delta of two books, and a store that has the first.
fn amended(alloc: Global, old: &str, new: &str) -> Result<String, Fail> {
    let delta = delta_between(alloc, old, new)?;
    let store = store_of(alloc, respelled(alloc, old)?.as_str())?;
    let mut world = world_of(alloc, store, &[])?;
    appended(alloc, &mut world, &delta)
}

/// Ends the test where a store isn't led from the first book of a row to its second.
fn expect_recovered(rt: &(impl Abort + Alloc<A = Global>), row: &str) -> Result<(), Fail> {
    let (books, _) = row.split_once(" => ").ok_or("a row without an arrow")?;
    let (old, new) = books.split_once(' ').ok_or("no second book")?;
    let found = amended(rt.alloc(), old, new)?;
    let want = respelled(rt.alloc(), new)?;
    assert_eq!(rt; found.as_str(), want.as_str(), "from {old}");
    Ok(())
}

#[test]
fn what_changed_is_recovered(rt: HostRuntime) -> Result<(), Fail> {
    for row in DELTAS.lines() {
        expect_recovered(&rt, row)?;
    }
    Ok(())
}
