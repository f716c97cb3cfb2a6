ghost use Rattle.std.specs.Prelude.{◌≡◌, ◌≤◌, length, IfOk};
ghost use Rattle.sm_world.specs.Worlds.{mem_outside, steady_outside};

use crate::worlds::numbers;
use owned_lists::{NoMemory, NumberList, Octets};
use sm_world::{Choice, Disk, EventList, Failed, Failure, MemWorld, SteadyWorld};
use std::alloc::{Alloc, Global};
use std::process::Abort;
use std::test::Fail;
use test_tables::{expect_rows, text_of};
use worked_values::SilentDisk;

/// Brings two bytes to the front of a disk, and says whether they stand there.
fn keeps<D: Disk>(disk: &mut D) -> Result<bool, Failure> {
    disk.attach("store")?;
    if disk.size()? < 2 {
        return Ok(false);
    }
    disk.write_at(0, &[7, 8])?;
    disk.sync()?;
    let mut held = [0, 0];
    disk.read_at(0, &mut held)?;
    disk.publish("cookie", &[1])?;
    Ok(held == [7, 8])
}

fn steady_disk(alloc: Global, file: &[u8]) -> Result<SteadyWorld, NoMemory>
    ensures { IfOk result (λ world. (steady_outside world).size ≡ length file.now) }
{
    let file = Octets::from_slice(alloc, file)?;
    SteadyWorld::new(alloc, EventList::new(alloc), Octets::new(alloc), file)
}

/// A disk whose calls of these numbers fail.
fn failing_disk(alloc: Global, file: &[u8], failing: NumberList) -> Result<MemWorld, NoMemory>
    ensures { IfOk result (λ world. (mem_outside world).size ≡ length file.now) }
{
    let file = Octets::from_slice(alloc, file)?;
    let events = EventList::new(alloc);
    MemWorld::new(alloc, events, Octets::new(alloc), file, failing)
}

/// Whether a disk keeps what is written, and whether it does where it refuses each call.
fn silent_disk_shown(alloc: Global, _input: &str) -> Result<String, Fail> {
    let mut disk = SilentDisk {
        file: Octets::from_slice(alloc, &[0, 0, 0])?,
        refuses: false,
        faults: 0,
    };
    let kept = keeps(&mut disk)?;
    disk.refuses = true;
    let refused = keeps(&mut disk);
    Ok(format!(in alloc; "{kept} {refused:?}")?)
}

#[test]
fn a_silent_disk_keeps(rt: HostRuntime) -> Result<(), Fail> {
    expect_rows(&rt, " => true Err(Failed)", silent_disk_shown)
}

/// Whether a world in memory keeps what is written, its file, and what it tells.
fn world_shown(alloc: Global, _input: &str) -> Result<String, Fail> {
    let mut world = steady_disk(alloc, &[0, 0, 0])?;
    let kept = keeps(&mut world)?;
    steady_shown(alloc, kept, &world)
}

fn steady_shown(alloc: Global, kept: bool, world: &SteadyWorld) -> Result<String, Fail> {
    let file = text_of(alloc, &world.file())?;
    let effects = text_of(alloc, &world.effects())?;
    Ok(format!(in alloc; "{kept} {file} {} {effects}", world.unrecorded())?)
}

#[test]
fn worlds_in_memory_keep(rt: HostRuntime) -> Result<(), Fail> {
    let row = " => true [7, 8, 0] 0 [Wrote(0, Octets { bytes: [7, 8] }), Synced, \
        Published(Octets { bytes: [99, 111, 111, 107, 105, 101] }, Octets { bytes: [1] })]";
    expect_rows(&rt, row, world_shown)
}

/// Writes one byte and three bytes, each on its way to the disk by a sync, as a store does that opens
/// its gate behind what it wrote.
fn commit<D: Disk>(disk: &mut D) -> Result<(), Failed>
    requires { 6 ≤ (D.outside disk.old).size }
{
    disk.write_at(0, &[0])?;
    disk.sync()?;
    disk.write_at(2, &[7, 8, 9])?;
    disk.sync()?;
    disk.write_at(0, &[0xa5])?;
    disk.sync()
}

/// The file that a crash leaves after the first effects.
fn left(world: &SteadyWorld, first: usize, choice: Choice) -> Result<Octets, Fail> {
    if first > world.effects().len() {
        return Err("fewer effects".into());
    }
    Ok(world.crash_file(first, choice)?)
}

/// A choice by its name, or else by the byte that may fill.
fn choice_of(name: &str) -> Result<Choice, Fail> {
    Ok(match name {
        "written" => Choice::AsWritten,
        "synced" => Choice::AsSynced,
        _ => Choice::Filled(name.parse::<u8>()?),
    })
}

/// A commit on this disk, and what a crash leaves after so many effects of it, by a choice.
fn crash_of_commit(world: &mut SteadyWorld, first: usize, name: &str) -> Result<Octets, Fail>
    requires { 6 ≤ (steady_outside world.old).size }
{
    commit(world)?;
    left(world, first, choice_of(name)?)
}

/// The same as it is shown, on a disk of six bytes.
fn commit_left(alloc: Global, input: &str) -> Result<String, Fail> {
    let (first, name) = input.split_once(' ').ok_or("no choice")?;
    let first = first.parse::<usize>()?;
    let mut world = steady_disk(alloc, &[0; 6])?;
    let file = crash_of_commit(&mut world, first, name)?;
    text_of(alloc, &file.as_slice())
}

/// No sync has brought the bytes to the disk after the third effect, the write of three, and after
/// the fifth, that of the last.
const LEFT: &str = "\
0 written => [0, 0, 0, 0, 0, 0]
0 synced => [0, 0, 0, 0, 0, 0]
0 0 => [0, 0, 0, 0, 0, 0]
0 165 => [0, 0, 0, 0, 0, 0]
0 255 => [0, 0, 0, 0, 0, 0]
1 written => [0, 0, 0, 0, 0, 0]
1 synced => [0, 0, 0, 0, 0, 0]
1 0 => [0, 0, 0, 0, 0, 0]
1 165 => [0, 0, 0, 0, 0, 0]
1 255 => [0, 0, 0, 0, 0, 0]
2 written => [0, 0, 0, 0, 0, 0]
2 synced => [0, 0, 0, 0, 0, 0]
2 0 => [0, 0, 0, 0, 0, 0]
2 165 => [0, 0, 0, 0, 0, 0]
2 255 => [0, 0, 0, 0, 0, 0]
3 written => [0, 0, 7, 8, 9, 0]
3 synced => [0, 0, 0, 0, 0, 0]
3 0 => [0, 0, 0, 0, 0, 0]
3 165 => [0, 0, 165, 165, 165, 0]
3 255 => [0, 0, 255, 255, 255, 0]
4 written => [0, 0, 7, 8, 9, 0]
4 synced => [0, 0, 7, 8, 9, 0]
4 0 => [0, 0, 7, 8, 9, 0]
4 165 => [0, 0, 7, 8, 9, 0]
4 255 => [0, 0, 7, 8, 9, 0]
5 written => [165, 0, 7, 8, 9, 0]
5 synced => [0, 0, 7, 8, 9, 0]
5 0 => [0, 0, 7, 8, 9, 0]
5 165 => [165, 0, 7, 8, 9, 0]
5 255 => [0, 0, 7, 8, 9, 0]
6 written => [165, 0, 7, 8, 9, 0]
6 synced => [165, 0, 7, 8, 9, 0]
6 0 => [165, 0, 7, 8, 9, 0]
6 165 => [165, 0, 7, 8, 9, 0]
6 255 => [165, 0, 7, 8, 9, 0]";

#[test]
fn a_crash_leaves_what_it_may(rt: HostRuntime) -> Result<(), Fail> {
    expect_rows(&rt, LEFT, commit_left)
}

/// The file that a crash leaves after all effects, where it may have any byte as 255.
fn all_left(world: &MemWorld) -> Result<Octets, NoMemory> {
    world.crash_file(world.effects().len(), Choice::Filled(0xff))
}

/// What a world tells in which calls failed: its file, its effects, and what a crash may leave.
fn failing_shown(alloc: Global, world: &MemWorld) -> Result<String, Fail> {
    let left = all_left(world)?;
    let (file, effects) = (world.file(), world.effects());
    let text = format!(in alloc;
        "{file:?} {} {effects:?} {:?}",
        world.unrecorded(),
        left.as_slice()
    )?;
    Ok(text)
}

/// What a write at the front of a disk answers, and what the disk tells then.
fn written_shown(alloc: Global, world: &mut MemWorld, bytes: &[u8]) -> Result<String, Fail>
    requires { length bytes.now ≤ (mem_outside world.old).size }
{
    let answer = world.write_at(0, bytes);
    let told = failing_shown(alloc, world)?;
    Ok(format!(in alloc; "{answer:?} {told}")?)
}

/// A first write of bytes from 7 on, as many as it is told, which fails.
fn failed_write(alloc: Global, count: &str) -> Result<String, Fail> {
    let mut world = failing_disk(alloc, &[0, 0, 0], numbers(alloc, 1, 9)?)?;
    if count == "1" {
        written_shown(alloc, &mut world, &[7])
    } else {
        written_shown(alloc, &mut world, &[7, 8])
    }
}

#[test]
fn a_failed_write_of_one_byte_tears_nothing(rt: HostRuntime) -> Result<(), Fail> {
    let rows = "\
1 => Err(Failed) [0, 0, 0] 0 [] [0, 0, 0]
2 => Err(Failed) [0, 0, 0] 0 [Torn(0, 2)] [255, 255, 0]";
    expect_rows(&rt, rows, failed_write)
}

/// What a write and two syncs answer, and the effects of a disk then.
fn synced_shown(alloc: Global, world: &mut MemWorld) -> Result<String, Fail>
    requires { 3 ≤ (mem_outside world.old).size }
{
    let written = world.write_at(1, &[7, 8]);
    let first = world.sync();
    let second = world.sync();
    let effects = text_of(alloc, &world.effects())?;
    Ok(format!(in alloc; "{written:?} {first:?} {second:?} {effects}")?)
}

/// A write, and two syncs of which the first fails.
fn failed_sync(alloc: Global, _input: &str) -> Result<String, Fail> {
    let mut world = failing_disk(alloc, &[0, 0, 0], numbers(alloc, 2, 9)?)?;
    synced_shown(alloc, &mut world)
}

#[test]
fn a_failed_sync_is_recorded(rt: HostRuntime) -> Result<(), Fail> {
    let row = " => Ok(()) Err(Failed) Ok(()) \
        [Wrote(1, Octets { bytes: [7, 8] }), SyncFailed, Synced]";
    expect_rows(&rt, row, failed_sync)
}

/// So many bytes 0.
fn zeros(alloc: Global, count: usize) -> Result<Octets, NoMemory> {
    Ok(Octets::from_vec(vec![in alloc; 0; count]?))
}

/// How many bytes a file has, and the first.
fn front_shown(alloc: Global, file: &Octets) -> Result<String, Fail> {
    Ok(format!(in alloc; "{} {:?}", file.len(), file.as_slice().first())?)
}

/// What a crash at the gate of a commit leaves on a disk with this file.
fn gate_left(alloc: Global, file: &[u8], name: &str) -> Result<Octets, Fail>
    requires { 6 ≤ length file.now }
{
    let mut world = steady_disk(alloc, file)?;
    crash_of_commit(&mut world, 5, name)
}

/// The same as it is shown, on a disk of so many bytes.
fn large_left(alloc: Global, input: &str) -> Result<String, Fail> {
    let (count, name) = input.split_once(' ').ok_or("no choice")?;
    let file = zeros(alloc, count.parse::<usize>()?)?;
    if file.len() < 6 {
        return Err("too small".into());
    }
    front_shown(alloc, &gate_left(alloc, file.as_slice(), name)?)
}

/// As many bytes as the store of the session manager has.
const LARGE_LEFT: &str = "\
16777280 written => 16777280 Some(165)
16777280 synced => 16777280 Some(0)
16777280 0 => 16777280 Some(0)
16777280 165 => 16777280 Some(165)
16777280 255 => 16777280 Some(0)";

#[test]
fn a_crash_of_a_whole_store(rt: HostRuntime) -> Result<(), Fail> {
    expect_rows(&rt, LARGE_LEFT, large_left)
}
