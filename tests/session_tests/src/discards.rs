//! Books and ledgers written down by hand.

use crate::written::{book_beside, book_of, entry, removal, words};
use checkpoint_records::{Book, EntryList};
use discard_ledger::Ledger;
use owned_lists::{Command, CommandList, NoMemory, Octets, PairList};
use std::alloc::{Alloc, Global};
use std::process::Abort;
use std::test::Fail;
use xsmp_properties::SetRefusal;

/// The command whose words are `rm` and this one.
fn command(alloc: Global, file: &[u8]) -> Result<Command, NoMemory> {
    Ok(Command {
        words: words(alloc, &[b"rm", file])?,
        directory: Octets::new(alloc),
        environment: PairList::new(alloc),
    })
}

/// A command for each byte.
fn commands(alloc: Global, files: &[u8]) -> Result<CommandList, NoMemory> {
    let mut list = CommandList::new(alloc);
    for file in files {
        list.push(command(alloc, &[*file])?)?;
    }
    Ok(list)
}

/// An entry for each byte, of a client with this DiscardCommand.
fn entries(alloc: Global, files: &[u8]) -> Result<EntryList, SetRefusal> {
    let mut entries = EntryList::new(alloc);
    for file in files {
        let list = removal(alloc, b"DiscardCommand", &[*file])?;
        entries.push(entry(alloc, b"smd-00000001-00000001", &list)?)?;
    }
    Ok(entries)
}

fn book(alloc: Global, files: &[u8]) -> Result<Book, SetRefusal> {
    Ok(book_of(alloc, entries(alloc, files)?)?)
}

/// The same beside another session.
fn beside(alloc: Global, files: &[u8], other: &[u8]) -> Result<Book, SetRefusal> {
    Ok(book_beside(alloc, entries(alloc, files)?, entries(alloc, other)?)?)
}

/// The second words of commands.
fn files_of(alloc: Global, commands: &CommandList) -> Result<Octets, NoMemory> {
    let mut text = Octets::new(alloc);
    for command in commands.as_slice() {
        if let Some(file) = command.words.as_slice().get(1) {
            text.append(file.as_slice())?;
        }
    }
    Ok(text)
}

/// Ends the test where the pending commands are others, or others of them may be run while the
/// clients that are there tell of these.
fn shows(
    rt: &(impl Abort + Alloc<A = Global>),
    ledger: &Ledger,
    pending: &[u8],
    live: &[u8],
    issuable: &[u8],
) -> Result<(), Fail> {
    let alloc = rt.alloc();
    let all = files_of(alloc, ledger.pending())?;
    assert_eq!(rt; all.as_slice(), pending);
    let some = ledger.issuable(&commands(alloc, live)?)?;
    assert_eq!(rt; files_of(alloc, &some)?.as_slice(), issuable);
    Ok(())
}

/// These DiscardCommands stop standing, one after the other.
fn stray_all(
    alloc: Global,
    ledger: &mut Ledger,
    files: &[u8],
    last: &[u8],
) -> Result<(), SetRefusal> {
    let book = book(alloc, last)?;
    for file in files {
        ledger.stray(command(alloc, &[*file])?, &book)?;
    }
    Ok(())
}

fn retire(alloc: Global, ledger: &mut Ledger, old: &[u8], new: &[u8]) -> Result<(), SetRefusal> {
    ledger.retire(&book(alloc, old)?, &book(alloc, new)?)?;
    Ok(())
}

#[test]
fn a_state_is_discarded_after_the_next_book(rt: HostRuntime) -> Result<(), Fail> {
    let alloc = rt.alloc();
    let mut ledger = Ledger::new(alloc, CommandList::new(alloc));
    retire(alloc, &mut ledger, b"", b"a")?;
    shows(&rt, &ledger, b"", b"a", b"")?;
    retire(alloc, &mut ledger, b"a", b"b")?;
    shows(&rt, &ledger, b"a", b"b", b"a")?;
    ledger.note(&commands(alloc, b"a")?);
    shows(&rt, &ledger, b"", b"b", b"")
}

/// Other sessions stay, and what they discard by is neither pending nor a stray.
#[test]
fn what_another_session_discards_by_stays(rt: HostRuntime) -> Result<(), Fail> {
    let alloc = rt.alloc();
    let mut ledger = Ledger::new(alloc, CommandList::new(alloc));
    ledger.retire(&beside(alloc, b"ab", b"a")?, &beside(alloc, b"c", b"a")?)?;
    shows(&rt, &ledger, b"b", b"", b"b")?;
    ledger.stray(command(alloc, b"a")?, &beside(alloc, b"c", b"a")?)?;
    ledger.stray(command(alloc, b"d")?, &beside(alloc, b"c", b"a")?)?;
    retire(alloc, &mut ledger, b"", b"")?;
    shows(&rt, &ledger, b"bd", b"", b"bd")
}

#[test]
fn each_command_is_pending_once_and_in_order(rt: HostRuntime) -> Result<(), Fail> {
    let alloc = rt.alloc();
    let mut ledger = Ledger::new(alloc, commands(alloc, b"pq")?);
    stray_all(alloc, &mut ledger, b"sstop", b"oq")?;
    retire(alloc, &mut ledger, b"oq", b"tn")?;
    shows(&rt, &ledger, b"pqos", b"sq", b"po")
}

#[test]
fn at_most_128_strays_are_kept(rt: HostRuntime) -> Result<(), Fail> {
    let alloc = rt.alloc();
    let mut ledger = Ledger::new(alloc, CommandList::new(alloc));
    let files = Vec::from_iter(alloc, 0..130u8)?;
    stray_all(alloc, &mut ledger, &files, b"")?;
    retire(alloc, &mut ledger, b"", b"")?;
    assert_eq!(rt; ledger.pending().as_slice().len(), 128);
    Ok(())
}
