//! A client from its first byte to its end.

use client_engine::Cue;
use ice_cookie::Cookie;
use ice_values::{Array8, Array8List, Dialog, PropertyList, SaveKind, SaveStyle};
use owned_lists::Octets;
use protocol_messages::Message;
use session_client::{Client, Member, Opening, SaveWish, Scope, Turn, put_message};
use std::alloc::{Alloc, Global};
use std::process::Abort;
use std::test::Fail;

/// ByteOrder, ConnectionReply without names, ProtocolReply with the major opcode 2.
const LET_IN: &[u8] = b"\0\x01\0\0\0\0\0\0\
    \0\x06\0\0\x01\0\0\0\0\0\0\0\0\0\0\0\
    \0\x08\0\x02\x01\0\0\0\0\0\0\0\0\0\0\0";

/// RegisterClientReply with the ID abc.
const REGISTERED: &[u8] = b"\x02\x02\0\0\x01\0\0\0\x03\0\0\0abc\0";

/// SaveYourself: Local, a shutdown, any dialog.
const SAVE: &[u8] = b"\x02\x03\0\0\x01\0\0\0\x01\x01\x02\0\0\0\0\0";

const SHUTDOWN_CANCELLED: &[u8] = b"\x02\x0a\0\0\0\0\0\0";

const DIE: &[u8] = b"\x02\x09\0\0\0\0\0\0";

/// A message's bytes.
fn bytes_of(alloc: Global, message: &Message) -> Result<Octets, Fail> {
    let mut bytes = Octets::new(alloc);
    put_message(message, &mut bytes)?;
    Ok(bytes)
}

fn as_member(client: Client) -> Result<Member, Fail> {
    match client {
        Client::Member(member) => Ok(member),
        Client::Opening(_) => Err("no ID".into()),
        Client::Dying(_) => Err("told to die".into()),
        Client::Stopped => Err("stopped".into()),
    }
}

fn as_opening(client: Client) -> Result<Opening, Fail> {
    match client {
        Client::Opening(opening) => Ok(opening),
        Client::Member(_) => Err("an ID".into()),
        Client::Dying(_) => Err("told to die".into()),
        Client::Stopped => Err("stopped".into()),
    }
}

/// A client that has heard that its ID is abc.
fn joined(alloc: Global) -> Result<Member, Fail> {
    let (opening, _first) = Opening::new(alloc, Cookie([7; 16]), Array8::new(alloc))?;
    let mut opening = opening;
    let mut left = LET_IN;
    while !left.is_empty() {
        let heard = opening.hear(alloc, left)?;
        left = &left[heard.count..];
        opening = as_opening(heard.client)?;
    }
    as_member(opening.hear(alloc, REGISTERED)?.client)
}

fn saving(alloc: Global) -> Result<Turn, Fail> {
    Ok(as_member(joined(alloc)?.hear(alloc, SAVE)?.client)?.turn())
}

#[test]
fn a_client_begins_with_byte_order(rt: HostRuntime) -> Result<(), Fail> {
    let (_opening, first) = Opening::new(rt.alloc(), Cookie([7; 16]), Array8::new(rt.alloc()))?;
    assert!(rt; first.as_slice() == b"\0\x01\0\0\0\0\0\0".as_slice());
    Ok(())
}

#[test]
fn a_client_that_has_joined_speaks(rt: HostRuntime) -> Result<(), Fail> {
    let alloc = rt.alloc();
    let member = joined(alloc)?;
    assert!(rt; member.id() == b"abc".as_slice());
    let get = bytes_of(alloc, &member.get())?;
    assert!(rt; get.as_slice() == b"\x01\x0e\0\0\0\0\0\0".as_slice());
    let set = bytes_of(alloc, &member.set(PropertyList::new(alloc)))?;
    assert!(rt; set.as_slice()[1] == 12);
    let delete = bytes_of(alloc, &member.delete(Array8List::new(alloc)))?;
    assert!(rt; delete.as_slice()[1] == 13);
    let wish = SaveWish {
        kind: SaveKind::Both,
        style: SaveStyle::Any,
        fast: false,
        scope: Scope::Shutdown,
    };
    let save = bytes_of(alloc, &member.request_save(wish))?;
    assert!(rt; save.as_slice() == b"\x01\x04\0\0\x01\0\0\0\x02\x01\x02\0\x01\0\0\0".as_slice());
    let close = bytes_of(alloc, &member.close(Array8List::new(alloc)))?;
    assert!(rt; close.as_slice()[1] == 11);
    Ok(())
}

#[test]
fn a_save_is_answered(rt: HostRuntime) -> Result<(), Fail> {
    let alloc = rt.alloc();
    match saving(alloc)? {
        Turn::Saving(saving) => {
            let (member, message) = saving.done(true);
            let done = bytes_of(alloc, &message)?;
            assert!(rt; done.as_slice() == b"\x01\x08\x01\0\0\0\0\0".as_slice());
            let heard = member.hear(alloc, DIE)?;
            assert!(rt; matches!(heard.cue, Cue::Die));
            assert!(rt; matches!(heard.client, Client::Dying(_)));
            Ok(())
        }
        _ => Err("no save".into()),
    }
}

#[test]
fn a_cancelled_save_is_owed(rt: HostRuntime) -> Result<(), Fail> {
    let alloc = rt.alloc();
    let member = match saving(alloc)? {
        Turn::Saving(saving) => saving.later(),
        _ => return Err("no save".into()),
    };
    let heard = member.hear(alloc, SHUTDOWN_CANCELLED)?;
    match as_member(heard.client)?.turn() {
        Turn::Owing(owing) => {
            let (_member, message) = owing.done();
            let done = bytes_of(alloc, &message)?;
            assert!(rt; done.as_slice() == b"\x01\x08\0\0\0\0\0\0".as_slice());
            Ok(())
        }
        _ => Err("nothing is owed".into()),
    }
}

const INTERACT: &[u8] = b"\x02\x06\0\0\0\0\0\0";

const PHASE_TWO: &[u8] = b"\x02\x11\0\0\0\0\0\0";

/// A client that has the token.
fn talking(alloc: Global) -> Result<Turn, Fail> {
    let Turn::Saving(saving) = saving(alloc)? else {
        return Err("no save".into());
    };
    match saving.interact(Dialog::Normal) {
        Ok((member, _message)) => Ok(as_member(member.hear(alloc, INTERACT)?.client)?.turn()),
        Err(_) => Err("no dialog".into()),
    }
}

#[test]
fn a_client_talks_to_the_user(rt: HostRuntime) -> Result<(), Fail> {
    let alloc = rt.alloc();
    let Turn::Talking(first) = talking(alloc)? else {
        return Err("no token".into());
    };
    let Ok((_member, message)) = first.cancel() else {
        return Err("no shutdown".into());
    };
    let cancels = bytes_of(alloc, &message)?;
    assert!(rt; cancels.as_slice() == b"\x01\x07\x01\0\0\0\0\0".as_slice());
    let Turn::Talking(second) = talking(alloc)? else {
        return Err("no token".into());
    };
    let (_member, message) = second.talked();
    let talked = bytes_of(alloc, &message)?;
    assert!(rt; talked.as_slice() == b"\x01\x07\0\0\0\0\0\0".as_slice());
    Ok(())
}

#[test]
fn a_client_saves_behind_the_others(rt: HostRuntime) -> Result<(), Fail> {
    let alloc = rt.alloc();
    let Turn::Saving(saving) = saving(alloc)? else {
        return Err("no save".into());
    };
    let (member, message) = saving.phase_two();
    let wants = bytes_of(alloc, &message)?;
    assert!(rt; wants.as_slice() == b"\x01\x10\0\0\0\0\0\0".as_slice());
    let member = as_member(member.hear(alloc, PHASE_TWO)?.client)?;
    let Turn::SavingTwo(second) = member.turn() else {
        return Err("no second phase".into());
    };
    let (_member, message) = second.done(false);
    let done = bytes_of(alloc, &message)?;
    assert!(rt; done.as_slice() == b"\x01\x08\0\0\0\0\0\0".as_slice());
    Ok(())
}
