//! Restores over a store in memory, by rows written down by hand: what is written to the byte, what a
//! crash leaves after each effect, what is told, and what is refused before anything is written.

use asked_paths::Asked;
use checkpoint_journal::Journal;
use checkpoint_records::spell_book;
use checkpoint_slots::STORE_BYTES;
use hex_rows::{bytes_of, digits_of};
use owned_lists::{NoMemory, NumberList, Octets};
use sm_world::{Choice, Effect, EventList, MemWorld};
use std::alloc::{Alloc, Global};
use std::process::Abort;
use std::test::Fail;
use store_return::{
    BOOK_LIMIT, Fault, carry_out_order, read_kept, read_order, restore, show, take_marks,
};
use test_tables::{expect_rows, text_of, words_of};
use written_books::{book_from, parted, shown, which_of};

/// A world with this store, in which the calls of these numbers fail.
pub fn world_of(alloc: Global, store: Octets, failing: NumberList) -> Result<MemWorld, NoMemory> {
    MemWorld::new(
        alloc,
        EventList::new(alloc),
        Octets::new(alloc),
        store,
        failing,
    )
}

fn blank_store(alloc: Global) -> Result<Octets, NoMemory> {
    Ok(Octets::from_vec(vec![in alloc; 0; STORE_BYTES as usize]?))
}

/// The first slot of a store has this book; a store without one is blank.
pub fn store_of(alloc: Global, line: &str) -> Result<Octets, Fail> {
    let blank = blank_store(alloc)?;
    if line == "blank" {
        return Ok(blank);
    }
    let mut world = world_of(alloc, blank, NumberList::new(alloc))?;
    let Ok((journal, _)) = Journal::recover_from(alloc, &mut world) else {
        return Err("no store is made".into());
    };
    let book = book_from(alloc, line)?;
    match journal.compact(alloc, &mut world, &book) {
        Ok(_) => Ok(Octets::from_slice(alloc, world.file())?),
        Err(_) => Err("no book is written".into()),
    }
}

/// An effect, with its bytes as hex digits and its text as it is.
fn effect_shown(alloc: Global, effect: &Effect) -> Result<String, Fail> {
    match effect {
        Effect::Wrote(at, bytes) => {
            let digits = digits_of(alloc, bytes.as_slice())?;
            Ok(format!(in alloc; "{at} {digits}")?)
        }
        Effect::Printed(text) => text_of(alloc, &str::from_utf8(text.as_slice())?),
        Effect::Published(path, bytes) => {
            let path = str::from_utf8(path.as_slice())?;
            let count = bytes.len();
            Ok(format!(in alloc; "{path} has {count}")?)
        }
        Effect::Synced => text_of(alloc, &"synced"),
        _ => Err("no restore does this".into()),
    }
}

fn effects_shown(alloc: Global, effects: &[Effect]) -> Result<String, Fail> {
    let mut text = String::new(alloc);
    for effect in effects {
        text.push_str("; ")?;
        text.push_str(effect_shown(alloc, effect)?.as_str())?;
    }
    Ok(text)
}

/// What a restore over the store's book answers, and its effects. The store's book is put into `b`.
fn restored(alloc: Global, input: &str) -> Result<String, Fail> {
    let (kept, name, present) = parted(input)?;
    let mut world = world_of(alloc, store_of(alloc, present)?, NumberList::new(alloc))?;
    let kept = book_from(alloc, kept)?;
    let which = which_of(alloc, name)?;
    let answer = restore(alloc, &mut world, "s", &which, &kept, Some("b"));
    let effects = effects_shown(alloc, world.effects())?;
    Ok(format!(in alloc; "{answer:?}{effects}")?)
}

/// What would come back.
fn looked(alloc: Global, input: &str) -> Result<String, Fail> {
    let (kept, name, present) = parted(input)?;
    let mut world = world_of(alloc, store_of(alloc, present)?, NumberList::new(alloc))?;
    let kept = book_from(alloc, kept)?;
    let answer = show(alloc, &mut world, "s", &which_of(alloc, name)?, &kept);
    let effects = effects_shown(alloc, world.effects())?;
    Ok(format!(in alloc; "{answer:?}{effects}")?)
}

/// To the byte: the book has 312 bytes and ends before 392, where a gate is closed. The changes go
/// behind it, 192 bytes of them, and then it is opened. Then refusals, which write nothing.
const RESTORED: &str = "\
1 default:1-1=d,1-2 / default / 3 default:1-1=e work:2-1=w !d !f => Ok(()); b has 312; 393 000000c000000006000000000000000700000064656661756c74000000000015000000736d642d30303030303030312d30303030303030310000000000000001000000000000000e00000044697363617264436f6d6d616e640000000000000c0000004c4953546f664152524159380100000000000000010000006400000006000000000000000700000064656661756c74000000000015000000736d642d30303030303030312d3030303030303032000000000000000000000000000000040000000000000000; \"synced\"; 392 a5; \"synced\"; \"entry smd-00000001-00000001 due\\nentry smd-00000001-00000002 own\\nrestored: entries 2, unkept 0, due 1, epoch 3, pending 1\\n\"
3 i:3-1 / i / 3 a:1-1 b:1-2 c:1-3 d:1-4 e:1-5 f:1-6 g:1-7 h:1-8 => Err(Stopped(TooManySessions))
3 b:2-1*29 / b / 3 a:1-1*100 b:3-1 => Err(Stopped(TooManyEntries))
1 c:1-1 / c / 3 a:1-1 => Err(Stopped(Clash))
1 default:1-1 / d / 3 a:2-1 => Err(Stopped(NoSession))
4294967295 c:1-1 / c / 4294967295 a:2-1 => Err(Stopped(Worn))";

/// No clause says which store is attached, and how often, since that adds no effect.
#[test]
fn each_place_is_taken_once_and_as_the_words_say(rt: HostRuntime) -> Result<(), Fail> {
    let alloc = rt.alloc();
    let store = store_of(alloc, "3 default:1-1=e work:2-1=w !d !f")?;
    let world = world_of(alloc, store, NumberList::new(alloc))?;
    let mut asked = Asked::new(alloc, world, Octets::new(alloc));
    let kept = book_from(alloc, "1 default:1-1=d,1-2")?;
    let mut words = words_of(alloc, "restore --from k --beside b --store s")?;
    let marks = take_marks(&mut words);
    let order = read_order(words.as_slice(), marks).ok_or("an order")?;
    let answer = carry_out_order(alloc, &mut asked, order, &kept);
    assert_eq!(rt;
        (answer, asked.paths.as_str()),
        (Ok(()), "attach s\npublish b\n")
    );
    Ok(())
}

/// The same, where only the lines are printed.
const LOOKED: &str = "\
1 default:1-1=d,1-2 / default / 3 default:1-1=e work:2-1=w !d !f => Ok(()); \"entry smd-00000001-00000001 due\\nentry smd-00000001-00000002 own\\nwould restore: entries 2, unkept 0, due 1, epoch 3, pending 1\\n\"
1 default:1-1 / d / 3 a:2-1 => Err(Stopped(NoSession))";

#[test]
fn changes_go_behind_the_book(rt: HostRuntime) -> Result<(), Fail> {
    expect_rows(&rt, RESTORED, restored)
}

#[test]
fn a_look_prints_alone(rt: HostRuntime) -> Result<(), Fail> {
    expect_rows(&rt, LOOKED, looked)
}

/// The book that a store's file stands for.
pub fn book_in(alloc: Global, file: Octets) -> Result<String, Fail> {
    let mut world = world_of(alloc, file, NumberList::new(alloc))?;
    match Journal::recover_from(alloc, &mut world) {
        Ok((_, book)) => shown(alloc, &book),
        Err(fault) => text_of(alloc, &fault),
    }
}

/// The books of the first row, before it and behind it.
const BEFORE: &str = "3 default smd-00000001-00000001=e work smd-00000002-00000001=w !d !f";

const BEHIND: &str =
    "3 default smd-00000001-00000001=d smd-00000001-00000002 work smd-00000002-00000001=w !f";

/// Which of both a crash leaves after each effect, or `neither`.
fn left_by(alloc: Global, world: &MemWorld, choice: Choice) -> Result<String, Fail> {
    let mut text = String::new(alloc);
    for first in 0..=world.effects().len() {
        let book = book_in(alloc, world.crash_file(first, choice)?)?;
        let word = match book.as_str() {
            BEFORE => "old ",
            BEHIND => "new ",
            _ => "neither ",
        };
        text.push_str(word)?;
    }
    Ok(text)
}

fn choice_of(name: &str) -> Choice {
    match name {
        "written" => Choice::AsWritten,
        "synced" => Choice::AsSynced,
        "gates" => Choice::Filled(0xa5),
        _ => Choice::Filled(0),
    }
}

/// The first row, in which the calls of these numbers fail, and what a crash leaves of it.
fn crashed(alloc: Global, input: &str) -> Result<String, Fail> {
    let Some((name, number)) = input.split_once(" ") else {
        return Err("no number".into());
    };
    let mut failing = NumberList::new(alloc);
    failing.push(number.parse::<u64>()?)?;
    let store = store_of(alloc, "3 default:1-1=e work:2-1=w !d !f")?;
    let mut world = world_of(alloc, store, failing)?;
    let kept = book_from(alloc, "1 default:1-1=d,1-2")?;
    let which = which_of(alloc, "default")?;
    let answer = restore(alloc, &mut world, "s", &which, &kept, None);
    let left = left_by(alloc, &world, choice_of(name))?;
    Ok(format!(in alloc; "{answer:?} {left}")?)
}

/// Before the five effects and after each, where no call fails, and what is left where a call does,
/// as the bytes in doubt may be.
const CRASHED: &str = "\
written 99 => Ok(()) old old old new new new 
synced 99 => Ok(()) old old old old new new 
zeros 99 => Ok(()) old old old old new new 
gates 99 => Ok(()) old old old new new new 
written 1 => Err(Disk) old ";

#[test]
fn a_crash_leaves_one_of_both(rt: HostRuntime) -> Result<(), Fail> {
    expect_rows(&rt, CRASHED, crashed)
}

/// What a file stands for in which a book was kept: the bytes of one, a store, and other bytes.
fn kept_shown(alloc: Global, input: &str) -> Result<String, Fail> {
    let file = match input.split_once(" ") {
        Some(("book", line)) => spell_book(alloc, &book_from(alloc, line)?)?,
        Some(("store", line)) => store_of(alloc, line)?,
        Some(("bytes", digits)) => Octets::from_vec(bytes_of(alloc, digits)?),
        _ => return Err("no file".into()),
    };
    match read_kept(alloc, file) {
        Ok(book) => shown(alloc, &book),
        Err(fault) => text_of(alloc, &fault),
    }
}

const KEPT: &str = "\
book 3 default:1-1=e work:2-1=w !d => 3 default smd-00000001-00000001=e work smd-00000002-00000001=w !d
store 3 default:1-1=e work:2-1=w !d => 3 default smd-00000001-00000001=e work smd-00000002-00000001=w !d
store blank => 0 default
bytes 00 => KeptDamaged(0)
bytes 0200000002000000000000000000000000 => KeptDamaged(16)";

#[test]
fn kept_books_are_read(rt: HostRuntime) -> Result<(), Fail> {
    expect_rows(&rt, KEPT, kept_shown)
}

#[test]
fn a_file_is_too_large(rt: HostRuntime) -> Result<(), Fail> {
    let alloc = rt.alloc();
    let file = Octets::from_vec(vec![in alloc; 0; BOOK_LIMIT as usize + 1]?);
    match read_kept(alloc, file) {
        Err(Fault::KeptSize(size)) => assert_eq!(rt; size, BOOK_LIMIT + 1),
        _ => return Err("it is taken".into()),
    }
    Ok(())
}
