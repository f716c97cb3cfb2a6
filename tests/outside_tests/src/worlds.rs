ghost use Rattle.std.specs.Prelude.{IfOk};
ghost use Rattle.std.specs.List.{AllByRecursion};
ghost use Rattle.sm_world.specs.Events.{HasPieceSize};

use owned_lists::{Command, Duplicate, NoMemory, NumberList, Octets, OctetsList, PairList};
use sm_world::{Console, Event, EventList, Failure, Links, MemWorld, Order, Spawner, SteadyWorld};
use std::alloc::{Alloc, Global};
use std::process::Abort;
use std::test::Fail;
use test_tables::{expect_rows, text_of};

// Bytes and lists

/// Two texts one after the other, copied.
fn joined(alloc: Global, first: &[u8], second: &[u8]) -> Result<Octets, NoMemory> {
    let mut octets = Octets::new(alloc);
    octets.append(first)?;
    octets.append(second)?;
    octets.copy()
}

/// The bytes in the same memory, cut twice.
fn cut(octets: Octets, first: usize, second: usize) -> Octets {
    let mut again = Octets::from_vec(octets.into_vec());
    again.truncate(first);
    again.truncate(second);
    again
}

/// The bytes `abc`, cut to so many, and how many there are.
fn cut_shown(alloc: Global, count: &str) -> Result<String, Fail> {
    let count = count.parse::<usize>()?;
    let octets = cut(joined(alloc, b"a", b"bc")?, count, 3);
    Ok(format!(in alloc; "{octets:?} {}", octets.len())?)
}

#[test]
fn octets_are_kept(rt: HostRuntime) -> Result<(), Fail> {
    let rows = "\
2 => Octets { bytes: [97, 98] } 2
3 => Octets { bytes: [97, 98, 99] } 3";
    expect_rows(&rt, rows, cut_shown)
}

/// A list of these two numbers.
pub fn numbers(alloc: Global, first: u64, second: u64) -> Result<NumberList, NoMemory> {
    let mut list = NumberList::new(alloc);
    list.push(first)?;
    list.push(second)?;
    Ok(list)
}

fn copied(list: &NumberList) -> Result<NumberList, NoMemory> {
    list.copy()
}

/// The same list in the same memory.
fn moved(list: NumberList) -> NumberList {
    NumberList::from_vec(list.into_vec())
}

#[test]
fn lists_are_kept(rt: HostRuntime) -> Result<(), Fail> {
    let list = moved(copied(&numbers(rt.alloc(), 5, 6)?)?);
    let text = text_of(rt.alloc(), &list.as_slice())?;
    assert_eq!(rt; text.as_str(), "[5, 6]");
    Ok(())
}

fn command(alloc: Global) -> Result<Command, NoMemory> {
    let mut words = OctetsList::new(alloc);
    words.push(Octets::from_slice(alloc, b"x")?)?;
    let mut environment = PairList::new(alloc);
    let name = Octets::from_slice(alloc, b"A")?;
    environment.push((name, Octets::from_slice(alloc, b"1")?))?;
    Ok(Command {
        words,
        directory: Octets::from_slice(alloc, b"/")?,
        environment,
    })
}

/// The order of this name, of which there is none under others.
fn order(alloc: Global, name: &str) -> Result<Order, NoMemory> {
    Ok(match name {
        "checkpoint" => Order::Checkpoint,
        "shutdown" => Order::Shutdown,
        "cancel" => Order::Cancel,
        "drop" => Order::DropConn(3),
        "forget" => Order::Forget(Octets::from_slice(alloc, b"1")?),
        _ => Order::Status,
    })
}

fn order_copied(alloc: Global, name: &str) -> Result<String, Fail> {
    let mut events = EventList::new(alloc);
    events.push(Event::Operator(order(alloc, name)?))?;
    events.push(Event::Tick(4))?;
    text_of(alloc, &events.copy()?)
}

fn command_copied(alloc: Global, _input: &str) -> Result<String, Fail> {
    text_of(alloc, &command(alloc)?.copy()?)
}

const COPIED_ORDERS: &str = "\
checkpoint => ListOf { items: [Operator(Checkpoint), Tick(4)] }
shutdown => ListOf { items: [Operator(Shutdown), Tick(4)] }
cancel => ListOf { items: [Operator(Cancel), Tick(4)] }
status => ListOf { items: [Operator(Status), Tick(4)] }
drop => ListOf { items: [Operator(DropConn(3)), Tick(4)] }
forget => ListOf { items: [Operator(Forget(Octets { bytes: [49] })), Tick(4)] }";

#[test]
fn copies_are_equal(rt: HostRuntime) -> Result<(), Fail> {
    let command = " => Command { words: ListOf { items: [Octets { bytes: [120] }] }, \
        directory: Octets { bytes: [47] }, \
        environment: ListOf { items: [(Octets { bytes: [65] }, Octets { bytes: [49] })] } }";
    expect_rows(&rt, command, command_copied)?;
    expect_rows(&rt, COPIED_ORDERS, order_copied)
}

// Worlds

/// A client that comes, says something and goes.
fn visit(alloc: Global) -> Result<EventList, NoMemory>
    ensures { IfOk result (AllByRecursion HasPieceSize) }
{
    let mut events = EventList::new(alloc);
    events.push(Event::Joined(1))?;
    events.push(Event::Piece(1, Octets::from_slice(alloc, &[7, 8])?))?;
    events.push(Event::Gone(1))?;
    Ok(events)
}

fn steady_world(alloc: Global) -> Result<SteadyWorld, NoMemory> {
    let input = Octets::from_slice(alloc, b"abc")?;
    let file = Octets::from_slice(alloc, b"store")?;
    SteadyWorld::new(alloc, visit(alloc)?, input, file)
}

fn failing_world(alloc: Global, failing: NumberList) -> Result<MemWorld, NoMemory> {
    let input = Octets::from_slice(alloc, b"abc")?;
    let file = Octets::from_slice(alloc, b"store")?;
    MemWorld::new(alloc, visit(alloc)?, input, file, failing)
}

fn effects_of(alloc: Global, world: &SteadyWorld) -> Result<String, Fail> {
    text_of(alloc, &world.effects())
}

fn heard(alloc: Global, world: &mut SteadyWorld) -> Result<String, Fail> {
    text_of(alloc, &world.next())
}

/// What so many calls of `next` bring.
fn heard_first(alloc: Global, count: &str) -> Result<String, Fail> {
    let mut world = steady_world(alloc)?;
    world.listen("socket", "control")?;
    for _ in 0..count.parse::<u32>()? {
        heard(alloc, &mut world)?;
    }
    heard(alloc, &mut world)
}

#[test]
fn a_steady_world_brings_its_events_and_then_end(rt: HostRuntime) -> Result<(), Fail> {
    let rows = "\
0 => Ok(Joined(1))
1 => Ok(Piece(1, Octets { bytes: [7, 8] }))
2 => Ok(Gone(1))
3 => Ok(End)
4 => Ok(End)";
    expect_rows(&rt, rows, heard_first)
}

fn read(world: &mut SteadyWorld, buffer: &mut [u8]) -> Result<usize, Failure> {
    world.read(buffer)
}

/// How many bytes are read, and what stands in the buffer then.
fn read_two(alloc: Global, world: &mut SteadyWorld, buffer: &mut [u8; 2]) -> Result<String, Fail> {
    let count = read(world, buffer)?;
    let [first, second] = *buffer;
    Ok(format!(in alloc; "{count} {first} {second}; ")?)
}

/// What three reads of a world bring, and its store behind them.
fn three_reads(alloc: Global, world: &mut SteadyWorld) -> Result<String, Fail> {
    let mut buffer = [0, 0];
    let mut text = String::new(alloc);
    for _ in 0..3 {
        text.push_str(read_two(alloc, world, &mut buffer)?.as_str())?;
    }
    text.push_str(str::from_utf8(world.file())?)?;
    Ok(text)
}

/// What three reads bring, and the store behind them.
fn read_whole(alloc: Global, _input: &str) -> Result<String, Fail> {
    let mut world = steady_world(alloc)?;
    three_reads(alloc, &mut world)
}

#[test]
fn a_steady_world_is_read_to_the_end(rt: HostRuntime) -> Result<(), Fail> {
    let row = " => 2 97 98; 1 99 98; 0 99 98; store";
    expect_rows(&rt, row, read_whole)
}

fn talk_in(world: &mut SteadyWorld) -> Result<(), Failure> {
    world.send(1, &[9])?;
    world.next().map(drop)?;
    world.shut(1)?;
    world.print(b"hi")
}

fn talk(alloc: Global, _input: &str) -> Result<String, Fail> {
    let mut world = steady_world(alloc)?;
    talk_in(&mut world)?;
    effects_of(alloc, &world)
}

fn start_in(alloc: Global, world: &mut SteadyWorld) -> Result<bool, NoMemory> {
    world.start(&command(alloc)?)
}

fn start(alloc: Global, _input: &str) -> Result<String, Fail> {
    let mut world = steady_world(alloc)?;
    let is_started = start_in(alloc, &mut world)?;
    Ok(format!(in alloc; "{is_started} {}", effects_of(alloc, &world)?)?)
}

#[test]
fn a_steady_world_tells_what_is_done(rt: HostRuntime) -> Result<(), Fail> {
    let row = " => [Sent(1, Octets { bytes: [9] }), Heard(Joined(1)), Shut(1), \
        Printed(Octets { bytes: [104, 105] })]";
    expect_rows(&rt, row, talk)?;
    let row = " => true [Started(Command { words: ListOf { items: [Octets { bytes: [120] }] }, \
        directory: Octets { bytes: [47] }, \
        environment: ListOf { items: [(Octets { bytes: [65] }, Octets { bytes: [49] })] } \
        }, true)]";
    expect_rows(&rt, row, start)
}

fn start_again(alloc: Global, world: &mut MemWorld) -> Result<String, Fail> {
    text_of(alloc, &world.start(&command(alloc)?))
}

fn told(alloc: Global, world: &MemWorld) -> Result<String, Fail> {
    text_of(alloc, &world.effects())
}

/// The answers to three starts in a world, and its effects.
fn starts_shown(alloc: Global, world: &mut MemWorld) -> Result<String, Fail> {
    let mut text = String::new(alloc);
    for _ in 0..3 {
        text.push_str(start_again(alloc, world)?.as_str())?;
    }
    text.push_str(told(alloc, world)?.as_str())?;
    Ok(text)
}

/// The answers to three starts, of which the one of this number fails, and the effects.
fn three_starts(alloc: Global, number: &str) -> Result<String, Fail> {
    let failing = numbers(alloc, 9, number.parse::<u64>()?)?;
    let mut world = failing_world(alloc, failing)?;
    starts_shown(alloc, &mut world)
}

const THREE_STARTS: &str = "2 => Ok(true)Ok(false)Ok(true)\
[Started(Command { words: ListOf { items: [Octets { bytes: [120] }] }, \
directory: Octets { bytes: [47] }, \
environment: ListOf { items: [(Octets { bytes: [65] }, Octets { bytes: [49] })] } }, true), \
Started(Command { words: ListOf { items: [Octets { bytes: [120] }] }, \
directory: Octets { bytes: [47] }, \
environment: ListOf { items: [(Octets { bytes: [65] }, Octets { bytes: [49] })] } }, false), \
Started(Command { words: ListOf { items: [Octets { bytes: [120] }] }, \
directory: Octets { bytes: [47] }, \
environment: ListOf { items: [(Octets { bytes: [65] }, Octets { bytes: [49] })] } }, true)]";

#[test]
fn the_starts_that_are_told_to_fail_do(rt: HostRuntime) -> Result<(), Fail> {
    expect_rows(&rt, THREE_STARTS, three_starts)
}

/// The call of this number in a run that makes each call once.
fn make_call(world: &mut MemWorld, number: u64) -> Result<(), Failure> {
    match number {
        1 => world.listen("socket", "control"),
        2 => world.next().map(drop),
        3 => world.send(1, &[9]),
        4 => world.shut(1),
        5 => world.read(&mut [0]).map(drop),
        _ => world.print(b"hi"),
    }
}

/// Which of six calls fail in a world, and what it tells.
fn calls_shown(alloc: Global, world: &mut MemWorld) -> Result<String, Fail> {
    let mut text = String::new(alloc);
    for number in 1..=6 {
        if make_call(world, number) == Err(Failure::Failed) {
            text.push_str(text_of(alloc, &number)?.as_str())?;
        }
    }
    text.push_str(told(alloc, world)?.as_str())?;
    text.push_str(str::from_utf8(world.file())?)?;
    Ok(text)
}

/// The same in a world where the two of these numbers do.
fn six_calls(alloc: Global, numbers_of: &str) -> Result<String, Fail> {
    let (first, second) = numbers_of.split_once(' ').ok_or("two numbers")?;
    let failing = numbers(alloc, second.parse::<u64>()?, first.parse::<u64>()?)?;
    let mut world = failing_world(alloc, failing)?;
    calls_shown(alloc, &mut world)
}

const FAILING_CALLS: &str = "\
0 7 => [Heard(Joined(1)), Sent(1, Octets { bytes: [9] }), Shut(1), Printed(Octets { bytes: [104, 105] })]store
1 3 => 13[Heard(Joined(1)), Shut(1), Printed(Octets { bytes: [104, 105] })]store
2 4 => 24[Sent(1, Octets { bytes: [9] }), Printed(Octets { bytes: [104, 105] })]store
5 6 => 56[Heard(Joined(1)), Sent(1, Octets { bytes: [9] }), Shut(1)]store";

#[test]
fn calls_fail_by_their_numbers(rt: HostRuntime) -> Result<(), Fail> {
    expect_rows(&rt, FAILING_CALLS, six_calls)
}
