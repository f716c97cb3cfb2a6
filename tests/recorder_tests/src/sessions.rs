ghost use Rattle.std.specs.Prelude.{◌≡◌, [], IfOk, Some};
ghost use Rattle.std.specs.List.{AllByRecursion};
ghost use Rattle.sm_world.specs.Events.{HasPieceSize};
ghost use Rattle.sm_world.specs.Worlds.{mem_outside};

use asked_paths::Asked;
use owned_lists::{Command, NoMemory, NumberList, Octets, OctetsList, PairList};
use session_recorder::Recorder;
use sm_world::{Console, Disk, Event, EventList, Failure, Links, MemWorld, Spawner};
use std::alloc::{Alloc, Global};
use std::process::Abort;
use std::test::Fail;
use test_tables::expect_rows;
use worked_values::Room;

/// A client that comes, says something and goes.
fn visit(alloc: Global) -> Result<EventList, NoMemory>
    ensures { IfOk result (AllByRecursion HasPieceSize) }
{
    let mut events = EventList::new(alloc);
    events.push(Event::Joined(1))?;
    events.push(Event::Piece(1, Octets::from_slice(alloc, &[7, 8])?))?;
    events.push(Event::Gone(1))?;
    Ok(events)
}

/// A world whose call of this number fails.
fn world(alloc: Global, failing: u64) -> Result<MemWorld, NoMemory>
    ensures { IfOk result (λ world. (mem_outside world).told ≡ Some []) }
{
    let mut numbers = NumberList::new(alloc);
    numbers.push(failing)?;
    let file = Octets::from_slice(alloc, b"store")?;
    MemWorld::new(alloc, visit(alloc)?, Octets::new(alloc), file, numbers)
}

/// A record of that world with this limit, which opens with a line.
fn recorder(
    alloc: Global,
    failing: u64,
    limit: usize,
) -> Result<Recorder<MemWorld, Room>, NoMemory> {
    let world = world(alloc, failing)?;
    let opening = Octets::from_slice(alloc, b"cookie 00\n")?;
    Ok(Recorder::new(alloc, world, Room::new(alloc, limit), opening))
}

fn command(alloc: Global) -> Result<Command, NoMemory> {
    let mut words = OctetsList::new(alloc);
    words.push(Octets::from_slice(alloc, b"x")?)?;
    Ok(Command {
        words,
        directory: Octets::new(alloc),
        environment: PairList::new(alloc),
    })
}

/// The call of this number in a run that makes each call once.
fn make_call(
    alloc: Global,
    world: &mut Recorder<MemWorld, Room>,
    number: u64,
) -> Result<(), Failure> {
    match number {
        1 => world.print(b"SESSION_MANAGER=x\n"),
        2 => world
            .start(&command(alloc)?)
            .map(drop)
            .map_err(Failure::from),
        3 => world.next().map(drop),
        4 => world.next().map(drop),
        5 => world.send(1, &[9]),
        6 => world.print(b"ok\n"),
        7 => world.sync().map_err(Failure::from),
        8 => world.shut(1),
        9 => world.read(&mut [0]).map(drop),
        _ => world.listen("socket", "control"),
    }
}

/// What stands in the record behind all calls, and how often its user was told that it goes no further.
fn shown(alloc: Global, recorder: Recorder<MemWorld, Room>) -> Result<String, Fail> {
    let (_, room) = recorder.parts();
    let text = str::from_utf8(room.bytes.as_slice())?;
    let mut line = String::new(alloc);
    for part in text.lines() {
        line.push_str(part)?;
        line.push_str("/")?;
    }
    Ok(format!(in alloc; "{line} {}", room.told)?)
}

/// The record of ten calls, of which one fails, within so many bytes.
fn recorded(alloc: Global, input: &str) -> Result<String, Fail> {
    let (failing, limit) = input.split_once(' ').ok_or("two numbers")?;
    let mut world = recorder(alloc, failing.parse::<u64>()?, limit.parse::<usize>()?)?;
    for number in 1..=10 {
        let _ = make_call(alloc, &mut world, number);
    }
    shown(alloc, world)
}

/// A whole record, records of runs in which a call fails, and records for which there is less room.
const RECORDS: &str = "\
0 999 => cookie 00/started 78/join 1/piece 1 0708/sent 1 09/printed ok/shut 1/ 0
1 999 => cookie 00/shut 1/ 0
2 999 => cookie 00/unstarted 78/join 1/piece 1 0708/sent 1 09/printed ok/shut 1/ 0
3 999 => cookie 00/started 78/join 1/sent 1 09/printed ok/shut 1/ 0
5 999 => cookie 00/started 78/join 1/piece 1 0708/printed ok/shut 1/ 0
6 999 => cookie 00/started 78/join 1/piece 1 0708/sent 1 09/shut 1/ 0
7 999 => cookie 00/started 78/join 1/piece 1 0708/sent 1 09/printed ok/shut 1/ 0
8 999 => cookie 00/started 78/join 1/piece 1 0708/sent 1 09/printed ok/ 0
0 9 => cookie 00/ 1
0 4 => cook/ 1
0 10 => cookie 00/ 1
0 15 => cookie 00/start/ 1
0 28 => cookie 00/started 78/join 1/ 1";

#[test]
fn sessions_are_recorded(rt: HostRuntime) -> Result<(), Fail> {
    expect_rows(&rt, RECORDS, recorded)
}

/// No clause says that paths are handed on as they come, since opening a thing adds no effect.
#[test]
fn each_place_is_handed_on_once_and_as_it_comes(rt: HostRuntime) -> Result<(), Fail> {
    let alloc = rt.alloc();
    let asked = Asked::new(alloc, world(alloc, 0)?, Octets::new(alloc));
    let opening = Octets::from_slice(alloc, b"cookie 00\n")?;
    let mut recorder = Recorder::new(alloc, asked, Room::new(alloc, 999), opening);
    assert_eq!(rt; recorder.attach("/f"), Ok(()));
    assert_eq!(rt; recorder.publish("/a", b"x"), Ok(()));
    assert_eq!(rt; recorder.listen("/s", "/c"), Ok(()));
    let (asked, _) = recorder.parts();
    assert_eq!(rt;
        asked.paths.as_str(),
        "attach /f\npublish /a\nlisten /s /c\n"
    );
    Ok(())
}
