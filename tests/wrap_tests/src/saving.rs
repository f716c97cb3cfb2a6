//! Files in memory, and a saver over them, by calls written down by hand.

ghost use Rattle.std.specs.Prelude.{◌≡◌, ◌≤◌, length, IfOk};
ghost use Rattle.std.specs.List.{AllByRecursion};
ghost use Rattle.state_saver.specs.Plans.{IsPlan, IsWord};

use client_machine::{SaveAsk, Stage, Step};
use ice_values::{Array8, SaveKind, SaveStyle};
use named_joiner::NamedAsk;
use owned_lists::{Command, NoMemory, NumberList, Octets, OctetsList, PairList};
use sm_world::{Console, Failure, Spawner};
use state_saver::{
    FILE_LIMIT, Files, MemFiles, Path, SavePlan, Saver, copies_have_paths_of_their_own,
};
use std::alloc::{Alloc, Global};
use std::process::Abort;
use std::test::Fail;
use test_tables::text_of;
use worked_values::Changing;

/// The file `/s` with `a`, and `/long`, which has too many bytes; the call with this number fails.
fn files(alloc: Global, failing: u64) -> Result<MemFiles, NoMemory> {
    let mut files = PairList::new(alloc);
    files.push((
        Octets::from_slice(alloc, b"/s")?,
        Octets::from_slice(alloc, b"a")?,
    ))?;
    let long = Octets::from_vec(vec![in alloc; 0; FILE_LIMIT + 1]?);
    files.push((Octets::from_slice(alloc, b"/long")?, long))?;
    let mut numbers = NumberList::new(alloc);
    numbers.push(failing)?;
    MemFiles::new(alloc, files, numbers)
}

fn expect_effects(
    rt: &(impl Abort + Alloc<A = Global>),
    files: &MemFiles,
    want: &str,
) -> Result<(), Fail> {
    let text = text_of(rt.alloc(), &files.effects())?;
    assert_eq!(rt; text.as_str(), want);
    Ok(())
}

/// A file can't be fetched.
fn fetches_not<F: Files>(
    rt: &(impl Abort + Alloc<A = Global>),
    files: &mut F,
    path: &str,
) -> Result<(), Fail> {
    assert_eq!(rt; files.fetch(path).err(), Some(Failure::Failed));
    Ok(())
}

#[test]
fn what_was_published_last_is_fetched(rt: HostRuntime) -> Result<(), Fail> {
    let mut files = files(rt.alloc(), 0)?;
    assert_eq!(&rt; files.fetch("/s")?.as_slice(), b"a".as_slice());
    files.publish("/s", b"b")?;
    files.publish("/t", b"c")?;
    assert_eq!(&rt; files.fetch("/s")?.as_slice(), b"b".as_slice());
    fetches_not(&rt, &mut files, "/u")?;
    fetches_not(&rt, &mut files, "/long")?;
    assert_eq!(&rt; files.read(&mut [0])?, 0);
    let want = "[Published(Octets { bytes: [47, 115] }, Octets { bytes: [98] }), \
        Published(Octets { bytes: [47, 116] }, Octets { bytes: [99] })]";
    expect_effects(&rt, &files, want)
}

/// A word of 1 to 512 bytes.
fn word(alloc: Global, text: &str) -> Result<Octets, NoMemory>
    requires some { 1 ≤ length text.now }
    requires few { length text.now ≤ 512 }
    ensures { IfOk result IsWord }
{
    Octets::from_slice(alloc, text.as_bytes())
}

/// Seven words.
fn before(alloc: Global) -> Result<OctetsList, NoMemory>
    ensures seven { IfOk result (λ words. length words ≡ 7) }
    ensures all { IfOk result (AllByRecursion IsWord) }
{
    let mut words = OctetsList::new(alloc);
    for _number in 0..7u32 {
        words.push(word(alloc, "w")?)?;
    }
    Ok(words)
}

/// One word.
fn program(alloc: Global) -> Result<OctetsList, NoMemory>
    ensures one { IfOk result (λ words. length words ≡ 1) }
    ensures all { IfOk result (AllByRecursion IsWord) }
{
    let mut words = OctetsList::new(alloc);
    words.push(word(alloc, "e")?)?;
    Ok(words)
}

/// A program `e` whose state is `/s`, and of which this many copies were made.
fn plan(alloc: Global, from: u32) -> Result<SavePlan, NoMemory>
    ensures { IfOk result IsPlan }
{
    let state = Path::from_str(alloc, "/s")?;
    let program = program(alloc)?;
    let before = before(alloc)?;
    Ok(SavePlan {
        state,
        from,
        program,
        before,
    })
}

/// A save without dialogs at this stage, of a client with this ID.
fn ask(alloc: Global, stage: Stage, id: &[u8]) -> Result<NamedAsk, NoMemory> {
    Ok(NamedAsk {
        id: Array8::from_slice(alloc, id)?,
        ask: SaveAsk {
            stage,
            kind: SaveKind::Local,
            shutdown: false,
            style: SaveStyle::Nothing,
            fast: false,
        },
    })
}

/// A save sets so many properties and goes on so, and the last copy has this number then.
fn saves<F: Files>(
    rt: &(impl Abort + Alloc<A = Global>),
    saver: &mut Saver<'_, F>,
    asked: NamedAsk,
    want: (usize, Step, u32),
) -> Result<(), Fail> {
    let answer = saver.save(asked)?;
    assert_eq!(rt; answer.set.as_slice().len(), want.0);
    assert_eq!(rt; answer.step, want.1);
    assert_eq!(rt; saver.number(), want.2);
    Ok(())
}

/// Three saves, of which the one that is to talk to the user makes no copy.
fn saves_twice<F: Files>(
    rt: &(impl Abort + Alloc<A = Global>),
    saver: &mut Saver<'_, F>,
) -> Result<(), Fail> {
    let alloc = rt.alloc();
    let first = ask(alloc, Stage::First, b"i")?;
    saves(rt, saver, first, (3, Step::Done(true), 1))?;
    let talking = ask(alloc, Stage::Talking, b"i")?;
    saves(rt, saver, talking, (0, Step::Talked(false), 1))?;
    let second = ask(alloc, Stage::Second, b"i")?;
    saves(rt, saver, second, (3, Step::Done(true), 2))
}

#[test]
fn each_copy_has_its_number(rt: HostRuntime) -> Result<(), Fail> {
    let mut files = files(rt.alloc(), 0)?;
    let mut saver = Saver::new(rt.alloc(), &mut files, plan(rt.alloc(), 0)?);
    saves_twice(&rt, &mut saver)?;
    drop(saver);
    let want = "[Published(Octets { bytes: [47, 115, 46, 49] }, Octets { bytes: [97] }), \
        Published(Octets { bytes: [47, 115, 46, 50] }, Octets { bytes: [97] })]";
    copies_have_paths_of_their_own();
    expect_effects(&rt, &files, want)
}

/// Between two saves somebody else has written the file: each copy has what it held as that save read it.
#[test]
fn each_copy_has_what_the_file_held_then(rt: HostRuntime) -> Result<(), Fail> {
    let mut files = Changing::new(rt.alloc());
    let mut saver = Saver::new(rt.alloc(), &mut files, plan(rt.alloc(), 0)?);
    saves_twice(&rt, &mut saver)?;
    drop(saver);
    let copies = files.published.as_slice();
    assert_eq!(&rt; copies.len(), 2);
    assert_eq!(&rt; copies[0].0.as_slice(), b"/s.1".as_slice());
    assert_eq!(&rt; copies[0].1.as_slice(), b"\x01".as_slice());
    assert_eq!(&rt; copies[1].0.as_slice(), b"/s.2".as_slice());
    assert_eq!(&rt; copies[1].1.as_slice(), b"\x02".as_slice());
    Ok(())
}

/// A save whose call with this number fails publishes nothing, and uses its number up.
fn misses(rt: &(impl Abort + Alloc<A = Global>), failing: u64) -> Result<(), Fail> {
    let alloc = rt.alloc();
    let mut files = files(alloc, failing)?;
    let mut saver = Saver::new(alloc, &mut files, plan(alloc, 7)?);
    saves(
        rt,
        &mut saver,
        ask(alloc, Stage::First, b"i")?,
        (0, Step::Done(false), 8),
    )?;
    drop(saver);
    expect_effects(rt, &files, "[]")
}

#[test]
fn a_refused_copy_uses_its_number_up(rt: HostRuntime) -> Result<(), Fail> {
    misses(&rt, 1)?;
    misses(&rt, 2)
}

/// A save that has no number for a copy does nothing.
fn refuses(rt: &(impl Abort + Alloc<A = Global>), from: u32, id: &[u8]) -> Result<(), Fail> {
    let alloc = rt.alloc();
    let mut files = files(alloc, 0)?;
    let mut saver = Saver::new(alloc, &mut files, plan(alloc, from)?);
    saves(
        rt,
        &mut saver,
        ask(alloc, Stage::First, id)?,
        (0, Step::Done(false), from),
    )?;
    drop(saver);
    expect_effects(rt, &files, "[]")
}

#[test]
fn numbers_end_and_ids_are_words(rt: HostRuntime) -> Result<(), Fail> {
    let long = vec![in rt.alloc(); b'i'; 513]?;
    refuses(&rt, u32::MAX, b"i")?;
    refuses(&rt, 0, b"")?;
    refuses(&rt, 0, b"i\0")?;
    refuses(&rt, 0, long.as_slice())
}

#[test]
fn a_program_is_started_or_not(rt: HostRuntime) -> Result<(), Fail> {
    let alloc = rt.alloc();
    let command = Command {
        words: program(alloc)?,
        directory: Octets::new(alloc),
        environment: PairList::new(alloc),
    };
    let mut files = files(alloc, 2)?;
    assert_eq!(&rt; files.start(&command)?, true);
    assert_eq!(&rt; files.start(&command)?, false);
    assert_eq!(&rt; files.print(b"x").is_ok(), true);
    Ok(())
}
