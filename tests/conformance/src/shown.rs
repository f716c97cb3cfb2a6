//! What is done in a session, as text.

use owned_lists::{Command, NoMemory, Octets};
use sm_world::{Conn, Effect};
use std::alloc::Global;

/// A message of XSMP by its name, and all others by none.
fn name_of(message: &[u8]) -> &'static [u8] {
    if message.first().copied() != Some(1) {
        return b"".as_slice();
    }
    match message.get(1).copied() {
        Some(2) => b"reply".as_slice(),
        Some(3) => b"save".as_slice(),
        Some(9) => b"die".as_slice(),
        Some(0x12) => b"complete".as_slice(),
        _ => b"error".as_slice(),
    }
}

/// What is done to a connection.
fn put_to(out: &mut Octets, conn: Conn, text: &[u8]) -> Result<(), NoMemory> {
    if text.is_empty() {
        return Ok(());
    }
    out.append(&[b'0' + (conn % 10) as u8, b' '])?;
    out.append(text)?;
    out.append(b" ")
}

/// Some words, each with a blank behind it.
pub fn put_words(out: &mut Octets, words: &[Octets]) -> Result<(), NoMemory> {
    for word in words {
        out.append(word.as_slice())?;
        out.append(b" ")?;
    }
    Ok(())
}

/// The words of a command, and whether it could be started.
pub fn put_start(out: &mut Octets, command: &Command, started: bool) -> Result<(), NoMemory> {
    let word = if started {
        b"start ".as_slice()
    } else {
        b"fail ".as_slice()
    };
    out.append(word)?;
    put_words(out, command.words.as_slice())
}

/// A byte of a gate by its name. Of a slot `slot`, and of an amendment `amend`: what stands behind its
/// gate begins with three zeros.
fn put_written(out: &mut Octets, bytes: &[u8]) -> Result<(), NoMemory> {
    match bytes {
        [0] => out.append(b"close "),
        [_] => out.append(b"open "),
        [0, 0, 0, ..] => out.append(b"amend "),
        _ => out.append(b"slot "),
    }
}

/// An effect, with a blank behind it. A sync is a dot. What was heard, and all that is said before
/// a client speaks XSMP, is nothing.
pub fn put_effect(out: &mut Octets, effect: &Effect) -> Result<(), NoMemory> {
    match effect {
        Effect::Heard(_) => Ok(()),
        Effect::Sent(conn, message) => put_to(out, *conn, name_of(message.as_slice())),
        Effect::Shut(conn) => put_to(out, *conn, b"shut"),
        Effect::Started(command, started) => put_start(out, command, *started),
        Effect::Wrote(_, bytes) => put_written(out, bytes.as_slice()),
        Effect::Torn(_, _) => out.append(b"torn "),
        Effect::Synced => out.append(b". "),
        Effect::SyncFailed => out.append(b"unsynced "),
        Effect::Printed(_) => out.append(b"line "),
        Effect::Published(_, _) => out.append(b"? "),
    }
}

pub fn put_effects(out: &mut Octets, effects: &[Effect]) -> Result<(), NoMemory> {
    for effect in effects {
        put_effect(out, effect)?;
    }
    Ok(())
}
