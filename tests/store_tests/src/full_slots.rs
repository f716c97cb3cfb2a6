//! Slots with thousands of amendments behind a book of many entries and pending commands: each opens to
//! the book that a list of numbers, changed one after the other, gives.

use crate::table::text_of;
use checkpoint_changes::read_slot;
use checkpoint_records::spell_book;
use std::alloc::{Alloc, Global};
use std::process::Abort;
use std::test::Fail;

/// What the tests know of a book: what each entry is discarded by, and what is pending, as numbers.
#[derive(Drop)]
struct Numbers {
    discards: Vec<u32>,
    pending: Vec<u32>,
}

fn numbers(alloc: Global, entries: u32, commands: u32) -> Result<Numbers, Fail> {
    let mut discards = Vec::new(alloc);
    for number in 0..entries {
        discards.push(10_000 + number)?;
    }
    let mut pending = Vec::new(alloc);
    for number in 0..commands {
        pending.push(number)?;
    }
    Ok(Numbers { discards, pending })
}

fn put_number(number: u32, out: &mut Vec<u8>) -> Result<(), Fail> {
    for byte in number.to_le_bytes() {
        out.push(byte)?;
    }
    Ok(())
}

/// A text: how many bytes it has, these, and zeros up to a multiple of eight.
fn put_text(text: &str, out: &mut Vec<u8>) -> Result<(), Fail> {
    put_number(text.len() as u32, out)?;
    for byte in text.as_bytes() {
        out.push(*byte)?;
    }
    while out.len() % 8 != 0 {
        out.push(0)?;
    }
    Ok(())
}

/// A list of one word.
fn put_words(alloc: Global, number: u32, out: &mut Vec<u8>) -> Result<(), Fail> {
    put_number(1, out)?;
    put_number(0, out)?;
    put_text(format!(in alloc; "no-{number}")?.as_str(), out)
}

/// An entry, with the property by which it is discarded.
fn put_entry(alloc: Global, entry: u32, discard: u32, out: &mut Vec<u8>) -> Result<(), Fail> {
    put_text(format!(in alloc; "smd-00000001-{entry:08x}")?.as_str(), out)?;
    put_number(1, out)?;
    put_number(0, out)?;
    put_text("DiscardCommand", out)?;
    put_text("LISTofARRAY8", out)?;
    put_words(alloc, discard, out)
}

fn put_command(alloc: Global, number: u32, out: &mut Vec<u8>) -> Result<(), Fail> {
    put_words(alloc, number, out)?;
    put_text("/", out)?;
    put_number(0, out)?;
    put_number(0, out)
}

/// The bytes of the book, in the first format.
fn book_bytes(alloc: Global, book: &Numbers) -> Result<Vec<u8>, Fail> {
    let mut out = Vec::new(alloc);
    for number in [1, 1, book.discards.len() as u32, book.pending.len() as u32] {
        put_number(number, &mut out)?;
    }
    for (entry, discard) in book.discards.iter().enumerate() {
        put_entry(alloc, entry as u32, *discard, &mut out)?;
    }
    for number in book.pending.iter() {
        put_command(alloc, *number, &mut out)?;
    }
    Ok(out)
}

/// Adds an amendment of these changes.
fn put_amendment(changes: &[u8], out: &mut Vec<u8>) -> Result<(), Fail> {
    put_number(0xa5, out)?;
    put_number(changes.len() as u32, out)?;
    for byte in changes {
        out.push(*byte)?;
    }
    Ok(())
}

fn put_head(code: u32, number: u32, out: &mut Vec<u8>) -> Result<(), Fail> {
    put_number(code, out)?;
    put_number(number, out)
}

/// Adds an amendment by which an entry names a pending command, which goes then, and what the entry
/// named before comes to be pending.
fn exchange(alloc: Global, book: &mut Numbers, step: u32, out: &mut Vec<u8>) -> Result<(), Fail> {
    let entry = (step * 7) as usize % book.discards.len();
    let place = (step * 13) as usize % book.pending.len();
    let (named, freed) = (book.pending[place], book.discards[entry]);
    let mut changes = Vec::new(alloc);
    put_head(3, 0, &mut changes)?;
    put_entry(alloc, entry as u32, named, &mut changes)?;
    put_head(4, place as u32, &mut changes)?;
    put_head(5, 0, &mut changes)?;
    put_command(alloc, freed, &mut changes)?;
    book.discards[entry] = named;
    book.pending.remove(place);
    book.pending.push(freed)?;
    put_amendment(changes.as_slice(), out)
}

/// Adds an amendment by which a pending command comes once more, and then goes where it was.
fn repeat(alloc: Global, book: &mut Numbers, step: u32, out: &mut Vec<u8>) -> Result<(), Fail> {
    let place = (step * 11) as usize % book.pending.len();
    let moved = book.pending[place];
    let mut changes = Vec::new(alloc);
    put_head(5, 0, &mut changes)?;
    put_command(alloc, moved, &mut changes)?;
    put_head(4, place as u32, &mut changes)?;
    book.pending.remove(place);
    book.pending.push(moved)?;
    put_amendment(changes.as_slice(), out)
}

/// Adds an amendment by which an entry names a pending command, and another one goes.
fn collide(alloc: Global, book: &Numbers, out: &mut Vec<u8>) -> Result<(), Fail> {
    let mut changes = Vec::new(alloc);
    put_head(3, 0, &mut changes)?;
    put_entry(alloc, 0, book.pending[0], &mut changes)?;
    put_head(4, 1, &mut changes)?;
    put_amendment(changes.as_slice(), out)
}

fn spelled(alloc: Global, bytes: &[u8], count: usize) -> Result<String, Fail> {
    match read_slot(alloc, bytes, count as u32) {
        Ok((book, _)) => text_of(alloc, &spell_book(alloc, &book)?.as_slice()),
        Err(refusal) => text_of(alloc, &refusal),
    }
}

/// A slot of such a book and of so many amendments is the book that the numbers say. With one more behind
/// which an entry names what is pending, it is damaged there.
fn expect_exchanges(
    rt: &(impl Abort + Alloc<A = Global>),
    entries: u32,
    commands: u32,
    steps: u32,
) -> Result<(), Fail> {
    let alloc = rt.alloc();
    let mut book = numbers(alloc, entries, commands)?;
    let mut bytes = book_bytes(alloc, &book)?;
    let count = bytes.len();
    for step in 0..steps {
        if step % 100 == 99 {
            repeat(alloc, &mut book, step, &mut bytes)?;
        } else {
            exchange(alloc, &mut book, step, &mut bytes)?;
        }
    }
    let whole = book_bytes(alloc, &book)?;
    let want = spelled(alloc, whole.as_slice(), whole.len())?;
    let found = spelled(alloc, bytes.as_slice(), count)?;
    assert_eq!(rt;
        found.as_str(),
        want.as_str(),
        "{entries} {commands} {steps}"
    );
    Ok(())
}

/// Each amendment breaks a rule in its midst: an entry names what is yet pending, or a command is pending twice.
#[test]
fn thousands_of_exchanges_open_to_what_they_leave(rt: HostRuntime) -> Result<(), Fail> {
    expect_exchanges(&rt, 1, 2, 50)?;
    expect_exchanges(&rt, 3, 2, 500)?;
    expect_exchanges(&rt, 128, 320, 20_000)
}
