//! Two sessions with each call of the world failing in turn. A session ends at the call that fails, with
//! the fault of the call's trait; all before was done, to the byte, and nothing is done behind it. A start
//! that fails changes nothing but that it failed.

use crate::crashes::recovered;
use crate::sessions::{FIRST_SAVE, LOGIN, Session, TURNS, config, served, world_of};
use crate::shown::{put_effects, put_start};
use owned_lists::{NoMemory, Octets};
use session_engine::{ServeFault, serve};
use sm_world::{Choice, Effect};
use std::alloc::{Alloc, Global};
use std::process::Abort;
use std::test::Fail;

/// The fault of a session whose call that was to have this effect fails; a start brings none.
fn fault_of(effect: &Effect) -> Option<ServeFault> {
    match effect {
        Effect::Wrote(_, _) => Some(ServeFault::DiskFault),
        Effect::Torn(_, _) => Some(ServeFault::DiskFault),
        Effect::Synced => Some(ServeFault::DiskFault),
        Effect::SyncFailed => Some(ServeFault::DiskFault),
        Effect::Published(_, _) => Some(ServeFault::DiskFault),
        Effect::Heard(_) => Some(ServeFault::LinkFault),
        Effect::Sent(_, _) => Some(ServeFault::LinkFault),
        Effect::Shut(_) => Some(ServeFault::LinkFault),
        Effect::Printed(_) => Some(ServeFault::ConsoleFault),
        Effect::Started(_, _) => None,
    }
}

/// What is done in place of this effect where its call fails: a write of two bytes or more is torn.
fn put_instead(out: &mut Octets, effect: &Effect) -> Result<(), NoMemory> {
    match effect {
        Effect::Wrote(_, bytes) => {
            if bytes.len() >= 2 {
                return out.append(b"torn ");
            }
            Ok(())
        }
        Effect::Synced => out.append(b"unsynced "),
        Effect::Started(command, _) => put_start(out, command, false),
        _ => Ok(()),
    }
}

fn put_answer(alloc: Global, out: &mut Octets, answer: Result<(), ServeFault>) -> Result<(), Fail> {
    let text = format!(in alloc; "{answer:?}")?;
    out.append(text.as_bytes())?;
    Ok(())
}

/// What is done where the call of this effect fails, and what is answered then.
fn put_wanted(
    alloc: Global,
    out: &mut Octets,
    effects: &[Effect],
    index: usize,
) -> Result<(), Fail> {
    let (front, rest) = effects.split_at(index.min(effects.len()));
    put_effects(out, front)?;
    let Some((effect, behind)) = rest.split_first() else {
        return Err("no such effect".into());
    };
    put_instead(out, effect)?;
    match fault_of(effect) {
        Some(fault) => put_answer(alloc, out, Err(fault)),
        None => {
            put_effects(out, behind)?;
            put_answer(alloc, out, Ok(()))
        }
    }
}

/// Whether effects begin and end with others, to the byte.
fn stand_around(
    alloc: Global,
    before: &[Effect],
    behind: &[Effect],
    effects: &[Effect],
) -> Result<bool, Fail> {
    let text = format!(in alloc; "{effects:?}")?;
    let before = format!(in alloc; "{before:?}")?;
    let behind = format!(in alloc; "{behind:?}")?;
    let front = before.as_str().strip_suffix(']').ok_or("no list")?;
    let end = behind.as_str().strip_prefix('[').ok_or("no list")?;
    Ok(text.as_str().starts_with(front) && text.as_str().ends_with(end))
}

/// What is done in a session whose call of this number fails, and what is answered then. It begins and
/// ends with these effects.
fn failed(
    alloc: Global,
    session: &Session,
    number: u64,
    around: (&[Effect], &[Effect]),
) -> Result<Octets, Fail> {
    let mut world = world_of(alloc, session, number)?;
    let answer = serve(alloc, &mut world, config(alloc, session)?, TURNS);
    if !stand_around(alloc, around.0, around.1, world.effects())? {
        return Err("something else was done".into());
    }
    let mut text = Octets::new(alloc);
    put_effects(&mut text, world.effects())?;
    put_answer(alloc, &mut text, answer)?;
    Ok(text)
}

/// The number of the call that has this effect: those that read the store have none.
fn number_of(session: &Session, index: usize) -> u64 {
    session.reads.saturating_add(1).saturating_add(index as u64)
}

/// Ends the test where this is another text than the wanted one.
fn expect_text(
    rt: &(impl Abort + Alloc<A = Global>),
    text: &Octets,
    want: &str,
    number: u64,
) -> Result<(), Fail> {
    assert_eq!(rt; str::from_utf8(text.as_slice())?, want, "call {number}");
    Ok(())
}

/// What is done behind the call of the first of these effects, if it fails.
fn behind(effects: &[Effect]) -> &[Effect] {
    let Some((effect, behind)) = effects.split_first() else {
        return effects;
    };
    match fault_of(effect) {
        Some(_) => {
            let (nothing, _) = effects.split_at(0);
            nothing
        }
        None => behind,
    }
}

fn expect_failure(
    rt: &(impl Abort + Alloc<A = Global>),
    session: &Session,
    effects: &[Effect],
    index: usize,
) -> Result<(), Fail> {
    let number = number_of(session, index);
    let (before, rest) = effects.split_at(index.min(effects.len()));
    let text = failed(rt.alloc(), session, number, (before, behind(rest)))?;
    let mut want = Octets::new(rt.alloc());
    put_wanted(rt.alloc(), &mut want, effects, index)?;
    expect_text(rt, &text, str::from_utf8(want.as_slice())?, number)
}

/// Expects of each call that brings this fault that it does so in a session with these effects.
fn expect_failures(
    rt: &(impl Abort + Alloc<A = Global>),
    session: &Session,
    effects: &[Effect],
    fault: Option<ServeFault>,
) -> Result<(), Fail> {
    for (index, effect) in effects.iter().enumerate() {
        if fault_of(effect) == fault {
            expect_failure(rt, session, effects, index)?;
        }
    }
    Ok(())
}

fn expect_both(
    rt: &(impl Abort + Alloc<A = Global>),
    fault: Option<ServeFault>,
) -> Result<(), Fail> {
    let world = served(rt.alloc(), &FIRST_SAVE)?;
    expect_failures(rt, &FIRST_SAVE, world.effects(), fault)?;
    let world = served(rt.alloc(), &LOGIN)?;
    expect_failures(rt, &LOGIN, world.effects(), fault)
}

/// Expects of the call behind all these effects that there is none: the session is the whole one.
fn expect_no_more(
    rt: &(impl Abort + Alloc<A = Global>),
    session: &Session,
    effects: &[Effect],
) -> Result<(), Fail> {
    let number = number_of(session, effects.len());
    let text = failed(rt.alloc(), session, number, (effects, &[]))?;
    let mut want = Octets::new(rt.alloc());
    put_effects(&mut want, effects)?;
    put_answer(rt.alloc(), &mut want, Ok(()))?;
    expect_text(rt, &text, str::from_utf8(want.as_slice())?, number)
}

/// Expects a fault of the disk of each call that reads the store, before anything is done.
fn expect_unread(rt: &(impl Abort + Alloc<A = Global>), session: &Session) -> Result<(), Fail> {
    for number in 1..=session.reads {
        let text = failed(rt.alloc(), session, number, (&[], &[]))?;
        expect_text(rt, &text, "Err(DiskFault)", number)?;
    }
    Ok(())
}

#[test]
fn each_call_of_the_disk_may_fail(rt: HostRuntime) -> Result<(), Fail> {
    expect_unread(&rt, &FIRST_SAVE)?;
    expect_unread(&rt, &LOGIN)?;
    expect_both(&rt, Some(ServeFault::DiskFault))
}

#[test]
fn each_call_of_the_links_may_fail(rt: HostRuntime) -> Result<(), Fail> {
    expect_both(&rt, Some(ServeFault::LinkFault))
}

#[test]
fn each_line_may_fail(rt: HostRuntime) -> Result<(), Fail> {
    expect_both(&rt, Some(ServeFault::ConsoleFault))
}

#[test]
fn each_start_may_fail(rt: HostRuntime) -> Result<(), Fail> {
    expect_both(&rt, None)
}

#[test]
fn no_other_call_may_fail(rt: HostRuntime) -> Result<(), Fail> {
    let world = served(rt.alloc(), &FIRST_SAVE)?;
    expect_no_more(&rt, &FIRST_SAVE, world.effects())?;
    let world = served(rt.alloc(), &LOGIN)?;
    expect_no_more(&rt, &LOGIN, world.effects())
}

/// The books that recovery gives where this call of the first save fails, with what is in doubt as it was
/// written, and with open gates; and what is answered.
fn books_left(alloc: Global, number: u64) -> Result<Octets, Fail> {
    let mut world = world_of(alloc, &FIRST_SAVE, number)?;
    let answer = serve(alloc, &mut world, config(alloc, &FIRST_SAVE)?, TURNS);
    let all = world.effects().len();
    let mut text = recovered(alloc, world.crash_file(all, Choice::AsWritten)?)?;
    let opened = recovered(alloc, world.crash_file(all, Choice::Filled(0xa5))?)?;
    text.append(opened.as_slice())?;
    put_answer(alloc, &mut text, answer)?;
    Ok(text)
}

/// Expects of calls in a row, of which this is the first, what is left where each fails.
fn expect_books(rt: &(impl Abort + Alloc<A = Global>), first: u64, rows: &str) -> Result<(), Fail> {
    let mut number = first;
    for row in rows.lines() {
        let text = books_left(rt.alloc(), number)?;
        expect_text(rt, &text, row, number)?;
        number = number.saturating_add(1);
    }
    Ok(())
}

/// Three calls read the store and six write its first book, whose gate is open in the file also where it
/// can't be synced.
const LEFT_OF_THE_OPENING: &str = "\
[0 ] [0 ] Err(DiskFault)
[0 ] [0 ] Err(DiskFault)
[0 ] [0 ] Err(DiskFault)
[0 ] [0 ] Err(DiskFault)
[0 ] [0 ] Err(DiskFault)
[0 ] [0 ] Err(DiskFault)
[0 ] [0 ] Err(DiskFault)
[0 ] [0 ] Err(DiskFault)
[1 ] [1 ] Err(DiskFault)";

/// Two calls write what the save changed.
const LEFT_OF_THE_SAVE: &str = "\
[1 ] [1 ] Err(DiskFault)
[1 ] [1 ] Err(DiskFault)";

/// Two more open its gate.
const LEFT_OF_ITS_GATE: &str = "\
[1 ] [1 ] Err(DiskFault)
[1 c1 ] [1 c1 ] Err(DiskFault)";

#[test]
fn an_opening_that_fails_leaves_a_book(rt: HostRuntime) -> Result<(), Fail> {
    expect_books(&rt, 1, LEFT_OF_THE_OPENING)
}

#[test]
fn a_save_that_fails_leaves_a_book(rt: HostRuntime) -> Result<(), Fail> {
    expect_books(&rt, 19, LEFT_OF_THE_SAVE)
}

#[test]
fn a_save_whose_gate_fails_leaves_a_book(rt: HostRuntime) -> Result<(), Fail> {
    expect_books(&rt, 21, LEFT_OF_ITS_GATE)
}
