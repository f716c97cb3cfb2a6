//! A store whose manager was killed between a gate and its sync, in a model of the file: what was
//! written is read, and a crash may lose what isn't synced. The next manager syncs it at its opening,
//! and then each crash during its commit leaves the old checkpoint or the new one. Without that sync
//! a crash may leave none.

ghost use Rattle.std.specs.Prelude.{◌≡◌, length, IfOk};
ghost use Rattle.checkpoint_slots.specs.Layout.{store_size};
ghost use Rattle.sm_world.specs.Worlds.{mem_outside};
ghost use Rattle.checkpoint_records.specs.Books.{default_name};
ghost use Rattle.checkpoint_records.specs.Rules.{KeepsRules};

use checkpoint_records::{Book, BookRefusal, read_book};
use checkpoint_slots::{Steady, StoreFault};
use owned_lists::{NoMemory, NumberList, Octets};
use sm_world::{Choice, Disk, EventList, MemWorld};
use std::alloc::{Alloc, Global};
use std::process::Abort;
use std::test::Fail;

const STORE_LEN: usize = 16_777_280;

/// Of what is in doubt: all was written, nothing was, and each gate is closed where it may be.
const CHOICES: [Choice; 3] = [Choice::AsWritten, Choice::AsSynced, Choice::Filled(0)];

/// The byte of an open gate.
const OPEN: [u8; 1] = [0xa5];

/// The first slot, behind its closed gate: generation 3, and a book of epoch 3 without entries.
const FIRST_SLOT: [u8; 24] = [
    3, 0, 0, 0, 0, 0, 0, 0, 16, 0, 0, 0, 0, 0, 0, 0, 1, 0, 0, 0, 3, 0, 0, 0,
];

/// The second slot: generation 2, and a book of epoch 2 without entries.
const SECOND_SLOT: [u8; 24] = [
    2, 0, 0, 0, 0, 0, 0, 0, 16, 0, 0, 0, 0, 0, 0, 0, 1, 0, 0, 0, 2, 0, 0, 0,
];

fn blank_store(alloc: Global) -> Result<Octets, NoMemory>
    ensures { IfOk result (λ store. length store ≡ store_size) }
{
    Ok(Octets::from_vec(vec![in alloc; 0; STORE_LEN]?))
}

/// A blank store with these bytes at their places.
fn store_with(alloc: Global, parts: &[(usize, &[u8])]) -> Result<Octets, NoMemory>
    ensures { IfOk result (λ store. length store ≡ store_size) }
{
    let mut store = blank_store(alloc)?;
    for (at, bytes) in parts {
        if bytes.len() <= store.len() && *at <= store.len() - bytes.len() {
            store.overwrite(*at, bytes);
        }
    }
    if store.len() != STORE_LEN {
        return blank_store(alloc);
    }
    Ok(store)
}

fn world_of(alloc: Global, store: Octets) -> Result<MemWorld, NoMemory>
    ensures { IfOk result (λ world. (mem_outside world).size ≡ length store) }
{
    let (events, input) = (EventList::new(alloc), Octets::new(alloc));
    MemWorld::new(alloc, events, input, store, NumberList::new(alloc))
}

/// A book of epoch 4 without entries, in which `default` is chosen.
fn next_book(alloc: Global) -> Result<Book, BookRefusal>
    ensures { IfOk result (λ book. KeepsRules book × (book.name ≡ default_name)) }
{
    read_book(alloc, &[1, 0, 0, 0, 4, 0, 0, 0, 0, 0, 0, 0, 0, 0, 0, 0])
}

/// The epoch of the book that the store has.
fn epoch_in<D: Disk>(alloc: Global, disk: &mut D) -> Result<u32, StoreFault> {
    let (_, book) = Steady::recover_from(alloc, disk)?;
    Ok(book.epoch)
}

/// Recovers the store, and commits the next book.
fn commit<D: Disk>(alloc: Global, disk: &mut D) -> Result<Steady, StoreFault> {
    let (steady, _) = Steady::recover_from(alloc, disk)?;
    let Ok(book) = next_book(alloc) else {
        return Err(StoreFault::NoMemory);
    };
    let (steady, body) = match steady.spell(alloc, &book) {
        Ok(spelled) => spelled,
        Err((_, fault)) => return Err(fault),
    };
    let closed = steady.close(disk)?;
    let filled = closed.fill(disk, &body)?;
    filled.lift(disk)
}

/// The world of a manager that opens the first gate, where the second is open, and is killed then.
fn killed(alloc: Global) -> Result<MemWorld, Fail> {
    let parts = [
        (64, FIRST_SLOT.as_slice()),
        (32, OPEN.as_slice()),
        (8_388_672, SECOND_SLOT.as_slice()),
    ];
    let mut world = world_of(alloc, store_with(alloc, &parts)?)?;
    world.write_at(0, &OPEN)?;
    Ok(world)
}

/// The epochs that recovery finds after a crash behind the first effects, by each choice.
fn put_epochs(alloc: Global, out: &mut Octets, world: &MemWorld, first: usize) -> Result<(), Fail> {
    if first > world.effects().len() {
        return Ok(());
    }
    for choice in CHOICES {
        let file = world.crash_file(first, choice)?;
        let mut left = world_of(alloc, file)?;
        let epoch = epoch_in(alloc, &mut left)?;
        out.append(&[b'0' + (epoch % 10) as u8])?;
    }
    out.append(b" ")?;
    Ok(())
}

/// The same after each of the effects of the next commit.
fn epochs(alloc: Global, world: &mut MemWorld) -> Result<Octets, Fail> {
    let begun = world.effects().len();
    let _steady = commit(alloc, world)?;
    let mut out = Octets::new(alloc);
    for first in begun..=world.effects().len() {
        put_epochs(alloc, &mut out, world, first)?;
    }
    Ok(out)
}

fn expect(
    rt: &(impl Abort + Alloc<A = Global>),
    world: &mut MemWorld,
    want: &str,
) -> Result<(), Fail> {
    let found = epochs(rt.alloc(), world)?;
    assert_eq!(rt; str::from_utf8(found.as_slice())?, want);
    Ok(())
}

#[test]
fn a_store_that_is_synced_first_is_never_lost(rt: HostRuntime) -> Result<(), Fail> {
    let mut world = killed(rt.alloc())?;
    world.sync()?;
    expect(&rt, &mut world, "333 333 333 333 333 433 444 ")
}

#[test]
fn a_store_that_is_read_as_it_is_may_be_lost(rt: HostRuntime) -> Result<(), Fail> {
    let mut world = killed(rt.alloc())?;
    expect(&rt, &mut world, "322 320 333 333 333 433 444 ")
}
