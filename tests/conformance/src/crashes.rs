//! What a crash leaves of sessions after each effect, by each choice. Recovery gives the book of
//! the last checkpoint or, from the write that opens the gate of the next one up to the sync behind it,
//! one of the two: nothing is done meanwhile, so no deed is done before its checkpoint.

use crate::sessions::{
    DISCARD_OF_ANOTHER, DISCARD_OF_ITS_OWN, FIRST_SAVE, FULL_SLOT, FULL_TO_THE_END, LOGIN,
    NEW_SESSION, OLD_LOGIN, QUIET_LOGIN, Session, put, quiet_world, served, store_of,
};
use crate::shown::{put_effect, put_effects, put_words};
use checkpoint_records::{Book, Entry, Named};
use checkpoint_slots::Steady;
use owned_lists::{NoMemory, Octets};
use sm_world::{Choice, Disk, Effect, MemWorld};
use std::alloc::{Alloc, Global};
use std::process::Abort;
use std::test::Fail;
use xsmp_properties::command_of;

/// By what the client of an entry is started again.
fn put_entry(alloc: Global, out: &mut Octets, entry: &Entry) -> Result<(), Fail> {
    if let Some(command) = command_of(alloc, &entry.table, b"RestartCommand")? {
        put_words(out, command.words.as_slice())?;
    }
    Ok(())
}

fn put_entries(alloc: Global, out: &mut Octets, entries: &[Entry]) -> Result<(), Fail> {
    for entry in entries {
        put_entry(alloc, out, entry)?;
    }
    Ok(())
}

/// The name of another session, and by what each of its clients is started again.
fn put_other(alloc: Global, out: &mut Octets, session: &Named) -> Result<(), Fail> {
    out.append(session.name.as_slice())?;
    out.append(b": ")?;
    put_entries(alloc, out, session.entries.as_slice())
}

/// A book in brackets: its epoch, and by what each client is started again, behind those of `default`
/// with the names of their sessions.
fn put_book(alloc: Global, out: &mut Octets, book: &Book) -> Result<(), Fail> {
    out.append(&[b'[', b'0' + (book.epoch % 10) as u8, b' '])?;
    put_entries(alloc, out, book.entries.as_slice())?;
    for session in book.others.as_slice() {
        put_other(alloc, out, session)?;
    }
    out.append(b"] ")?;
    Ok(())
}

/// The book that recovery gives of this store.
pub fn recovered(alloc: Global, store: Octets) -> Result<Octets, Fail> {
    let mut world = quiet_world(alloc, store)?;
    let (_, book) = Steady::recover_from(alloc, &mut world)?;
    let mut text = Octets::new(alloc);
    put_book(alloc, &mut text, &book)?;
    Ok(text)
}

/// Where the second slot begins.
const SECOND: usize = 8_388_672;

/// How many bytes of each slot are looked at. The gates stand in front of the first.
const FRONT: usize = 4096;

fn front_of(bytes: &[u8]) -> &[u8] {
    let (front, _) = bytes.split_at(bytes.len().min(FRONT));
    front
}

/// The fronts of both slots of a store.
fn folded(alloc: Global, store: &[u8]) -> Result<Octets, NoMemory> {
    let (_, second) = store.split_at(store.len().min(SECOND));
    let mut fronts = Octets::new(alloc);
    fronts.append(front_of(store))?;
    fronts.append(front_of(second))?;
    Ok(fronts)
}

/// The store of a session with these fronts of its slots.
fn unfolded(alloc: Global, session: &Session, fronts: &[u8]) -> Result<Octets, Fail> {
    let (first, second) = fronts.split_at(fronts.len().min(FRONT));
    let mut store = store_of(alloc, session)?;
    put(&mut store, 0, first);
    put(&mut store, SECOND, second);
    Ok(store)
}

/// Writes to fronts what was written to a store.
fn write_folded<D: Disk>(fronts: &mut D, at: u64, bytes: &[u8]) -> Result<(), Fail> {
    let mut place = at;
    if at >= SECOND as u64 {
        place = at - SECOND as u64 + FRONT as u64;
    }
    let size = fronts.size()?;
    if place > size || bytes.len() as u64 > size - place {
        return Err("no such place".into());
    }
    fronts.write_at(place, bytes)?;
    Ok(())
}

/// Does to fronts what was done to a store.
fn do_folded<D: Disk>(fronts: &mut D, effects: &[Effect]) -> Result<(), Fail> {
    for effect in effects {
        match effect {
            Effect::Wrote(at, bytes) => write_folded(fronts, *at, bytes.as_slice())?,
            Effect::Synced => fronts.sync()?,
            _ => {}
        }
    }
    Ok(())
}

/// The fronts of a session's store, to which is done what was done to the store.
fn fronts_of(alloc: Global, session: &Session, effects: &[Effect]) -> Result<MemWorld, Fail> {
    let first = folded(alloc, store_of(alloc, session)?.as_slice())?;
    let mut fronts = quiet_world(alloc, first)?;
    do_folded(&mut fronts, effects)?;
    Ok(fronts)
}

/// The book that recovery gives after a crash behind the first of what was done to the fronts of a
/// session's store.
fn left(
    alloc: Global,
    session: &Session,
    fronts: &MemWorld,
    first: usize,
    choice: Choice,
) -> Result<Octets, Fail> {
    if first > fronts.effects().len() {
        return Err("no such effect".into());
    }
    let crashed = fronts.crash_file(first, choice)?;
    recovered(alloc, unfolded(alloc, session, crashed.as_slice())?)
}

fn is_on_disk(effect: &Effect) -> bool {
    match effect {
        Effect::Wrote(_, _) => true,
        Effect::Synced => true,
        _ => false,
    }
}

/// What is done, and in brackets the book that recovery would give after a crash: at the beginning, and
/// behind each effect since which it is another one. What a crash leaves of a byte depends on what was
/// done to the disk at its place alone, so it is enough to look at the fronts of both slots, and at what
/// was written there and synced.
fn put_crashes(
    alloc: Global,
    out: &mut Octets,
    session: &Session,
    effects: &[Effect],
    choice: Choice,
) -> Result<(), Fail> {
    let fronts = fronts_of(alloc, session, effects)?;
    let mut count: usize = 0;
    let mut last = left(alloc, session, &fronts, 0, choice)?;
    out.append(last.as_slice())?;
    for effect in effects {
        put_effect(out, effect)?;
        if is_on_disk(effect) {
            count = count.saturating_add(1);
            let book = left(alloc, session, &fronts, count, choice)?;
            if book.as_slice() != last.as_slice() {
                out.append(book.as_slice())?;
                last = book;
            }
        }
    }
    Ok(())
}

fn crashes_shown(alloc: Global, session: &Session, choice: Choice) -> Result<Octets, Fail> {
    let world = served(alloc, session)?;
    let fronts = fronts_of(alloc, session, world.effects())?;
    if unfolded(alloc, session, fronts.file())?.as_slice() != world.file() {
        return Err("something stands behind the fronts".into());
    }
    let mut text = Octets::new(alloc);
    put_crashes(alloc, &mut text, session, world.effects(), choice)?;
    Ok(text)
}

/// What is done in these sessions, with the books.
#[derive(Clone, Copy)]
struct Want {
    quiet_login: &'static str,
    old_login: &'static str,
    new_session: &'static str,
    full_slot: &'static str,
    first_save: &'static str,
    login: &'static str,
}

/// A gate counts as open once it was written.
const AT_THE_WRITE: Want = Want {
    quiet_login: "[1 ] amend . open [2 ] . ",
    old_login: "[1 c1 ] close . slot . open [2 c1 ] . start c1 ",
    new_session: "[1 c1 work: c2 ] amend . open [2 c1 work: c2 ] . 1 reply 1 save \
        amend . open [2 c1 games: c1 work: c2 ] . 1 complete ",
    full_slot: "[1 ] close . slot . open [2 ] . 1 reply 1 save amend . open [2 c1 ] . 1 complete ",
    first_save: "[0 ] close . slot . open [1 ] . 1 reply 1 save amend . open [1 c1 ] . 1 complete ",
    login: "[1 c1 c2 c3 c4 c5 c6 ] close . slot . open [2 c1 c2 c3 c4 c5 c6 ] . \
        start c1 start c2 start c3 start c4 start c5 start c6 \
        1 reply 2 reply 3 reply 4 reply 5 reply 7 reply 7 save \
        amend . open [2 c1 c2 c3 c4 c5 c6 c7 ] . 7 complete \
        line 1 save 2 save 3 save 4 save 5 save 7 save \
        amend . open [2 c1 c2 c3 c4 c6 c7 ] . 1 die 2 die 3 die 4 die 5 die 7 die start s6 \
        1 shut 2 shut 3 shut 4 shut 5 shut 7 shut ",
};

/// A gate counts as open once it was synced.
const AT_THE_SYNC: Want = Want {
    quiet_login: "[1 ] amend . open . [2 ] ",
    old_login: "[1 c1 ] close . slot . open . [2 c1 ] start c1 ",
    new_session: "[1 c1 work: c2 ] amend . open . [2 c1 work: c2 ] 1 reply 1 save \
        amend . open . [2 c1 games: c1 work: c2 ] 1 complete ",
    full_slot: "[1 ] close . slot . open . [2 ] 1 reply 1 save amend . open . [2 c1 ] 1 complete ",
    first_save: "[0 ] close . slot . open . [1 ] 1 reply 1 save amend . open . [1 c1 ] 1 complete ",
    login: "[1 c1 c2 c3 c4 c5 c6 ] close . slot . open . [2 c1 c2 c3 c4 c5 c6 ] \
        start c1 start c2 start c3 start c4 start c5 start c6 \
        1 reply 2 reply 3 reply 4 reply 5 reply 7 reply 7 save \
        amend . open . [2 c1 c2 c3 c4 c5 c6 c7 ] 7 complete \
        line 1 save 2 save 3 save 4 save 5 save 7 save \
        amend . open . [2 c1 c2 c3 c4 c6 c7 ] 1 die 2 die 3 die 4 die 5 die 7 die start s6 \
        1 shut 2 shut 3 shut 4 shut 5 shut 7 shut ",
};

fn expect_shown(
    rt: &(impl Abort + Alloc<A = Global>),
    session: &Session,
    choice: Choice,
    want: &str,
) -> Result<(), Fail> {
    let text = crashes_shown(rt.alloc(), session, choice)?;
    assert_eq!(rt; str::from_utf8(text.as_slice())?, want);
    Ok(())
}

fn expect_crashes(
    rt: &(impl Abort + Alloc<A = Global>),
    choice: Choice,
    want: Want,
) -> Result<(), Fail> {
    expect_shown(rt, &QUIET_LOGIN, choice, want.quiet_login)?;
    expect_shown(rt, &OLD_LOGIN, choice, want.old_login)?;
    expect_shown(rt, &NEW_SESSION, choice, want.new_session)?;
    expect_shown(rt, &FULL_SLOT, choice, want.full_slot)?;
    expect_shown(rt, &FIRST_SAVE, choice, want.first_save)?;
    expect_shown(rt, &LOGIN, choice, want.login)
}

/// What is done in a session, without the books.
fn expect_done(
    rt: &(impl Abort + Alloc<A = Global>),
    session: &Session,
    want: &str,
) -> Result<(), Fail> {
    let world = served(rt.alloc(), session)?;
    let mut text = Octets::new(rt.alloc());
    put_effects(&mut text, world.effects())?;
    assert_eq!(rt; str::from_utf8(text.as_slice())?, want);
    Ok(())
}

#[test]
fn a_slot_that_is_full_to_its_end_is_written_whole_once(rt: HostRuntime) -> Result<(), Fail> {
    let want = "close . slot . open . 1 reply 1 save amend . open . 1 complete ";
    expect_done(&rt, &FULL_TO_THE_END, want)
}

/// What a session discards by that another one has, too, isn't started; what no other has is, and then
/// the book is written without it.
#[test]
fn what_another_session_discards_by_stays(rt: HostRuntime) -> Result<(), Fail> {
    let kept = "amend . open . start c1 1 reply line 1 save amend . open . 1 complete ";
    expect_done(&rt, &DISCARD_OF_ANOTHER, kept)?;
    let gone = "amend . open . start c1 1 reply line 1 save amend . open . 1 complete \
        start d1 amend . open . ";
    expect_done(&rt, &DISCARD_OF_ITS_OWN, gone)
}

#[test]
fn a_crash_leaves_what_was_written(rt: HostRuntime) -> Result<(), Fail> {
    expect_crashes(&rt, Choice::AsWritten, AT_THE_WRITE)
}

#[test]
fn a_crash_leaves_what_was_synced(rt: HostRuntime) -> Result<(), Fail> {
    expect_crashes(&rt, Choice::AsSynced, AT_THE_SYNC)
}

#[test]
fn a_crash_leaves_zeros(rt: HostRuntime) -> Result<(), Fail> {
    expect_crashes(&rt, Choice::Filled(0), AT_THE_SYNC)
}

#[test]
fn a_crash_leaves_open_gates(rt: HostRuntime) -> Result<(), Fail> {
    expect_crashes(&rt, Choice::Filled(0xa5), AT_THE_WRITE)
}

#[test]
fn a_crash_leaves_ones(rt: HostRuntime) -> Result<(), Fail> {
    expect_crashes(&rt, Choice::Filled(0xff), AT_THE_SYNC)
}
