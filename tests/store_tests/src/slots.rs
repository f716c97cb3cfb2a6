//! The store over a world in memory: what a commit writes, what a crash leaves of it after each
//! effect, and each call of the disk failing in turn.

ghost use Rattle.std.specs.Prelude.{◌≡◌, IfOk};
ghost use Rattle.checkpoint_records.specs.Books.{default_name};
ghost use Rattle.checkpoint_records.specs.Rules.{KeepsRules};

use crate::table::{bytes_of, expect_rows, text_of};
use checkpoint_records::{Book, BookRefusal, read_book};
use checkpoint_slots::{Steady, StoreFault};
use owned_lists::{NoMemory, NumberList, Octets};
use sm_world::{Choice, Disk, EventList, MemWorld};
use std::alloc::Global;
use std::test::Fail;

const STORE_LEN: usize = 16_777_280;

const CHOICES: [Choice; 5] = [
    Choice::AsWritten,
    Choice::AsSynced,
    Choice::Filled(0),
    Choice::Filled(0xa5),
    Choice::Filled(0xff),
];

/// A store that nothing was written to: its bytes are 0.
pub fn blank_store(alloc: Global) -> Result<Octets, NoMemory> {
    Ok(Octets::from_vec(vec![in alloc; 0; STORE_LEN]?))
}

/// Puts bytes at a place of the store, where there is room for them.
pub fn put(store: &mut Octets, at: usize, bytes: &[u8]) {
    if bytes.len() <= store.len() && at <= store.len() - bytes.len() {
        store.overwrite(at, bytes);
    }
}

/// Puts what a text says: a place, and digits.
fn put_part(alloc: Global, store: &mut Octets, part: &str) -> Result<(), Fail> {
    let (at, digits) = part.split_once(' ').ok_or("no place")?;
    put(
        store,
        at.parse::<usize>()?,
        bytes_of(alloc, digits)?.as_slice(),
    );
    Ok(())
}

/// A blank store in which these parts are put, with commas between.
pub fn store_with(alloc: Global, parts: &str) -> Result<Octets, Fail> {
    let mut store = blank_store(alloc)?;
    for part in parts.split(", ") {
        put_part(alloc, &mut store, part)?;
    }
    Ok(store)
}

/// A world with this store, in which the calls of these numbers fail.
pub fn world_of(alloc: Global, store: Octets, failing: &[u64]) -> Result<MemWorld, NoMemory> {
    let mut numbers = NumberList::new(alloc);
    for number in failing {
        numbers.push(*number)?;
    }
    MemWorld::new(
        alloc,
        EventList::new(alloc),
        Octets::new(alloc),
        store,
        numbers,
    )
}

/// A book without entries, of an epoch below 256.
pub fn book_of(alloc: Global, epoch: u8) -> Result<Book, BookRefusal>
    ensures { IfOk result (λ book. KeepsRules book × (book.name ≡ default_name)) }
{
    read_book(alloc, &[1, 0, 0, 0, epoch, 0, 0, 0, 0, 0, 0, 0, 0, 0, 0, 0])
}

/// The epoch of the book that the store has.
pub fn epoch_in<D: Disk>(alloc: Global, disk: &mut D) -> Result<u32, StoreFault> {
    let (_, book) = Steady::recover_from(alloc, disk)?;
    Ok(book.epoch)
}

/// Recovers the store, and commits a book of this epoch.
fn commit<D: Disk>(alloc: Global, disk: &mut D, epoch: u8) -> Result<Steady, StoreFault> {
    let (steady, _) = Steady::recover_from(alloc, disk)?;
    let Ok(book) = book_of(alloc, epoch) else {
        return Err(StoreFault::NoMemory);
    };
    let (steady, body) = match steady.spell(alloc, &book) {
        Ok(spelled) => spelled,
        Err((_, fault)) => return Err(fault),
    };
    let closed = steady.close(disk)?;
    let filled = closed.fill(disk, &body)?;
    filled.lift(disk)
}

/// The epoch that recovery finds in the file that a crash leaves by a choice; 255 where it is larger.
fn epoch_left(alloc: Global, file: Octets) -> Result<u8, Fail> {
    let mut left = world_of(alloc, file, &[])?;
    Ok(u8::try_from(epoch_in(alloc, &mut left)?).unwrap_or(0xff))
}

/// The epochs that recovery finds after a crash, by each choice.
pub fn epochs_left(alloc: Global, world: &MemWorld, first: usize) -> Result<Octets, Fail> {
    let mut epochs = Octets::new(alloc);
    if first > world.effects().len() {
        return Ok(epochs);
    }
    for choice in CHOICES {
        let epoch = epoch_left(alloc, world.crash_file(first, choice)?)?;
        epochs.append(&[epoch])?;
    }
    Ok(epochs)
}

/// The epoch that recovery finds after a crash behind so many effects.
fn epoch_behind(alloc: Global, world: &MemWorld, first: usize, choice: Choice) -> Result<u8, Fail> {
    if first > world.effects().len() {
        return Err("no such effect".into());
    }
    epoch_left(alloc, world.crash_file(first, choice)?)
}

/// The same after none of the effects, after the first, and so on.
pub fn all_left(alloc: Global, world: &MemWorld, choice: Choice) -> Result<String, Fail> {
    let mut epochs = Octets::new(alloc);
    for first in 0..=world.effects().len() {
        epochs.append(&[epoch_behind(alloc, world, first, choice)?])?;
    }
    text_of(alloc, &epochs.as_slice())
}

/// The choice of a crash by its name.
pub fn choice_of(name: &str) -> Choice {
    match name {
        "written" => Choice::AsWritten,
        "synced" => Choice::AsSynced,
        "zeros" => Choice::Filled(0),
        "gates" => Choice::Filled(0xa5),
        _ => Choice::Filled(0xff),
    }
}

/// The effects of a commit.
fn committed(alloc: Global, world: &mut MemWorld) -> Result<String, Fail> {
    commit(alloc, world, 1)?;
    text_of(alloc, &world.effects())
}

fn commit_shown(alloc: Global, _input: &str) -> Result<String, Fail> {
    let mut world = world_of(alloc, blank_store(alloc)?, &[])?;
    committed(alloc, &mut world)
}

/// The slot of the first commit has the generation 1, sixteen bytes of book, the book of epoch 1 in
/// format 2, and zeros.
const COMMITTED: &str = " => [Wrote(0, Octets { bytes: [0] }), Synced, \
    Wrote(64, Octets { bytes: [1, 0, 0, 0, 0, 0, 0, 0, 16, 0, 0, 0, 0, 0, 0, 0, \
    2, 0, 0, 0, 1, 0, 0, 0, 0, 0, 0, 0, 0, 0, 0, 0, 0, 0, 0, 0, 0, 0, 0, 0] }), Synced, \
    Wrote(0, Octets { bytes: [165] }), Synced]";

#[test]
fn a_commit_closes_fills_and_lifts(rt: HostRuntime) -> Result<(), Fail> {
    expect_rows(&rt, COMMITTED, commit_shown)
}

/// What a crash of a commit leaves.
fn crashed(alloc: Global, world: &mut MemWorld, choice: Choice) -> Result<String, Fail> {
    commit(alloc, world, 1)?;
    all_left(alloc, world, choice)
}

fn crash_shown(alloc: Global, name: &str) -> Result<String, Fail> {
    let mut world = world_of(alloc, blank_store(alloc)?, &[])?;
    crashed(alloc, &mut world, choice_of(name))
}

/// The epoch before and after each of the six effects of a commit, where the bytes in doubt are as they
/// were written or as they were synced.
const LEFT: &str = "\
written => [0, 0, 0, 0, 0, 1, 1]
synced => [0, 0, 0, 0, 0, 0, 1]";

#[test]
fn a_crash_leaves_the_old_book_or_the_new_one(rt: HostRuntime) -> Result<(), Fail> {
    expect_rows(&rt, LEFT, crash_shown)
}

/// The same where they are all alike.
const LEFT_ALIKE: &str = "\
zeros => [0, 0, 0, 0, 0, 0, 1]
ones => [0, 0, 0, 0, 0, 0, 1]";

#[test]
fn a_crash_leaves_bytes_that_are_alike(rt: HostRuntime) -> Result<(), Fail> {
    expect_rows(&rt, LEFT_ALIKE, crash_shown)
}

/// The same where each could be an open gate.
const LEFT_OPEN: &str = "gates => [0, 0, 0, 0, 0, 1, 1]";

#[test]
fn a_crash_leaves_bytes_that_open_gates(rt: HostRuntime) -> Result<(), Fail> {
    expect_rows(&rt, LEFT_OPEN, crash_shown)
}

/// What recovery of a store with these parts answers, as an epoch or a fault.
fn recovered_shown(alloc: Global, parts: &str) -> Result<String, Fail> {
    let mut world = world_of(alloc, store_with(alloc, parts)?, &[])?;
    text_of(alloc, &epoch_in(alloc, &mut world))
}

/// A book that isn't there, a length that is none, an amendment that is none, two slots of one
/// generation, a blank store, and a book of each format.
const RECOVERED: &str = "\
0 a5 => Err(Damaged { at: 80 })
0 a5, 72 09 => Err(Damaged { at: 72 })
0 a5, 64 01000000000000001000000000000000010000000100000000000000000000000000000000000000, 96 a501 => Err(Damaged { at: 96 })
0 a5, 32 a5 => Err(Damaged { at: 64 })
0 00 => Ok(0)
0 a5, 64 01000000000000001000000000000000010000000300000000000000000000000000000000000000 => Ok(3)
0 a5, 64 01000000000000001000000000000000020000000300000000000000000000000000000000000000 => Ok(3)";

#[test]
fn a_store_is_damaged_at_its_place(rt: HostRuntime) -> Result<(), Fail> {
    expect_rows(&rt, RECOVERED, recovered_shown)
}

fn empty_shown(alloc: Global, _input: &str) -> Result<String, Fail> {
    let mut world = world_of(alloc, Octets::new(alloc), &[])?;
    text_of(alloc, &epoch_in(alloc, &mut world))
}

#[test]
fn a_store_of_another_size_is_refused(rt: HostRuntime) -> Result<(), Fail> {
    expect_rows(&rt, " => Err(WrongSize { size: 0 })", empty_shown)
}

/// What a commit answers, and how many effects there are.
fn worn(alloc: Global, world: &mut MemWorld) -> Result<String, Fail> {
    let answer = commit(alloc, world, 2).map(drop);
    Ok(format!(in alloc; "{answer:?} {}", world.effects().len())?)
}

fn worn_shown(alloc: Global, parts: &str) -> Result<String, Fail> {
    let mut world = world_of(alloc, store_with(alloc, parts)?, &[])?;
    worn(alloc, &mut world)
}

/// The head of a slot of the last generation, and a book of epoch 1.
const WORN: &str = "\
0 a5, 64 ffffffffffffffff10000000000000000100000001000000 => Err(Worn) 0";

#[test]
fn a_store_wears_out(rt: HostRuntime) -> Result<(), Fail> {
    expect_rows(&rt, WORN, worn_shown)
}

/// The byte of the store at this place.
pub fn byte_at(world: &MemWorld, at: usize) -> Option<u8> {
    world.file().get(at).copied()
}

/// The gates of both slots, and the first bytes of their generations.
fn turns_of(alloc: Global, world: &MemWorld) -> Result<String, Fail> {
    let gates = (byte_at(world, 0), byte_at(world, 32));
    let generations = (byte_at(world, 64), byte_at(world, 8_388_672));
    Ok(format!(in alloc; "{gates:?} {generations:?}")?)
}

/// Commits, and the epoch that stands then.
fn took_turns(alloc: Global, world: &mut MemWorld) -> Result<u32, Fail> {
    commit(alloc, world, 1)?;
    commit(alloc, world, 2)?;
    commit(alloc, world, 3)?;
    Ok(epoch_in(alloc, world)?)
}

fn turns_shown(alloc: Global, _input: &str) -> Result<String, Fail> {
    let mut world = world_of(alloc, blank_store(alloc)?, &[])?;
    let epoch = took_turns(alloc, &mut world)?;
    Ok(format!(in alloc; "{epoch} {}", turns_of(alloc, &world)?)?)
}

#[test]
fn commits_take_turns(rt: HostRuntime) -> Result<(), Fail> {
    let row = " => 3 (Some(165), Some(165)) (Some(3), Some(2))";
    expect_rows(&rt, row, turns_shown)
}

/// Whether recovery gives one of two books, whatever a crash leaves.
pub fn is_old_or_new(alloc: Global, world: &MemWorld) -> Result<bool, Fail> {
    let epochs = epochs_left(alloc, world, world.effects().len())?;
    Ok(
        epochs
            .as_slice()
            .iter()
            .all(|epoch| *epoch == 1 || *epoch == 2),
    )
}

/// Whether a commit to a store of epoch 1 fails by the disk, and recovery then gives one of the two
/// books.
fn survived(alloc: Global, world: &mut MemWorld) -> Result<bool, Fail> {
    let answer = commit(alloc, world, 2).map(drop);
    Ok(answer == Err(StoreFault::DiskFault) && is_old_or_new(alloc, world)?)
}

/// A store of epoch 1: an open gate, and the slot of the first commit.
pub const FIRST_STORE: &str = "\
    0 a5, 64 01000000000000001000000000000000020000000100000000000000000000000000000000000000";

/// The same while the call of a number fails.
fn survived_shown(alloc: Global, number: &str) -> Result<String, Fail> {
    let number = number.parse::<u64>()?;
    let mut world = world_of(alloc, store_with(alloc, FIRST_STORE)?, &[number])?;
    text_of(alloc, &survived(alloc, &mut world)?)
}

/// What recovery asks of the disk.
const SURVIVED: &str = "\
1 => true
2 => true
3 => true
4 => true
5 => true
6 => true";

#[test]
fn each_call_of_recovery_may_fail(rt: HostRuntime) -> Result<(), Fail> {
    expect_rows(&rt, SURVIVED, survived_shown)
}

/// A gate is closed, and a slot is filled, each by a write and a sync.
const SURVIVED_FILLING: &str = "\
7 => true
8 => true
9 => true
10 => true";

#[test]
fn each_call_that_fills_a_slot_may_fail(rt: HostRuntime) -> Result<(), Fail> {
    expect_rows(&rt, SURVIVED_FILLING, survived_shown)
}

/// The gate is opened.
const SURVIVED_LIFTING: &str = "\
11 => true
12 => true";

#[test]
fn each_call_that_opens_the_gate_may_fail(rt: HostRuntime) -> Result<(), Fail> {
    expect_rows(&rt, SURVIVED_LIFTING, survived_shown)
}
