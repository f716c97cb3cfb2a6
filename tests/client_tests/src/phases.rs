//! Whole sessions of a client in steps, each with the phase in which it leaves the client: what it hears
//! by its frames, and what it asks, which is shown by the name of the frame that it sends then.

use crate::frames::{message_of, named};
use client_machine::{Client, ClientAct, Request, Step, lawful_steps_have_their_place};
use ice_values::{Array8List, Dialog, Endian, Property, PropertyList, SaveKind, SaveStyle};
use owned_lists::{NoMemory, Octets};
use round_agreement::Wanted;
use std::alloc::{Alloc, Global};
use std::process::Abort;
use std::test::Fail;
use test_tables::{expect_rows, text_of};
use xsmp_messages::{XsmpMessage, encode_xsmp};

/// One property `P` of kind `CARD8` with the value 3.
fn property(alloc: Global) -> Result<Property, NoMemory> {
    let mut values = Array8List::new(alloc);
    values.push(Octets::from_slice(alloc, b"\x03")?)?;
    Ok(Property {
        name: Octets::from_slice(alloc, b"P")?,
        kind: Octets::from_slice(alloc, b"CARD8")?,
        values,
    })
}

fn set_request(alloc: Global) -> Result<Request, NoMemory> {
    let mut list = PropertyList::new(alloc);
    list.push(property(alloc)?)?;
    Ok(Request::Set(list))
}

/// A local save with any dialog.
fn save_request(only: Option<u32>, shutdown: bool) -> Request {
    Request::Save(Wanted {
        only,
        from: None,
        kind: SaveKind::Local,
        shutdown,
        style: SaveStyle::Any,
        fast: false,
    })
}

/// A step of a save as a request.
fn step_of(name: &str) -> Result<Request, Fail> {
    match name {
        "interact" => Ok(Step::Interact(Dialog::Normal).request()),
        "talked" => Ok(Step::Talked(false).request()),
        "phase-two" => Ok(Step::PhaseTwo.request()),
        "done" => Ok(Step::Done(true).request()),
        _ => Err("no step of this name".into()),
    }
}

/// A request in a save.
fn saving_of(name: &str) -> Result<Request, Fail> {
    match name {
        "to-interact" => Ok(Request::Interact(Dialog::Normal)),
        "to-talk-on" => Ok(Request::InteractDone(false)),
        "to-wait" => Ok(Request::PhaseTwo),
        "to-succeed" => Ok(Request::Done(true)),
        "to-fail" => Ok(Request::Done(false)),
        _ => step_of(name),
    }
}

pub fn request_of(alloc: Global, name: &str) -> Result<Request, Fail> {
    match name {
        "set" => Ok(set_request(alloc)?),
        "delete" => Ok(Request::Delete(Array8List::new(alloc))),
        "get" => Ok(Request::Get),
        "close" => Ok(Request::Close(Array8List::new(alloc))),
        "save-all" => Ok(save_request(None, false)),
        "save-one" => Ok(save_request(Some(1), false)),
        "save-one-and-end" => Ok(save_request(Some(1), true)),
        _ => saving_of(name),
    }
}

/// A message by the name of its frame.
fn message_shown(alloc: Global, message: &XsmpMessage) -> Result<String, Fail> {
    let mut out = Octets::new(alloc);
    encode_xsmp(Endian::Lsb, 1, message, &mut out)?;
    named(alloc, out.as_slice())
}

/// What is asked of a client; the message that it is to send by its frame.
fn act_shown(alloc: Global, act: &ClientAct) -> Result<String, Fail> {
    match act {
        ClientAct::Again(message) => message_shown(alloc, message),
        _ => text_of(alloc, act),
    }
}

fn heard(alloc: Global, client: &mut Client, name: &str) -> Result<String, Fail> {
    let act = client.take(message_of(alloc, name)?)?;
    act_shown(alloc, &act)
}

fn asked(alloc: Global, client: &mut Client, request: Request) -> Result<String, Fail> {
    match client.ask(request) {
        Ok(message) => message_shown(alloc, &message),
        Err(refusal) => text_of(alloc, &refusal),
    }
}

/// A step, `hears` with a frame or `asks` with a request.
fn stepped(alloc: Global, client: &mut Client, step: &str) -> Result<String, Fail> {
    match step.split_once(' ') {
        Some(("hears", name)) => heard(alloc, client, name),
        Some(("asks", name)) => asked(alloc, client, request_of(alloc, name)?),
        _ => Err("no step".into()),
    }
}

fn steps_shown(alloc: Global, client: &mut Client, steps: &str) -> Result<String, Fail> {
    let mut text = String::new(alloc);
    for step in steps.split(", ") {
        text.push_str(stepped(alloc, client, step)?.as_str())?;
        text.push_str(phase_shown(alloc, client)?.as_str())?;
    }
    Ok(text)
}

fn phase_shown(alloc: Global, client: &Client) -> Result<String, Fail> {
    Ok(format!(in alloc; " {:?}, ", client.phase())?)
}

/// A client that has the ID `smd-1`.
fn idle(alloc: Global) -> Result<Client, Fail> {
    let (mut client, _) = Client::register(alloc, Octets::new(alloc))?;
    client.take(message_of(alloc, "id-1")?)?;
    Ok(client)
}

fn session_shown(alloc: Global, steps: &str) -> Result<String, Fail> {
    let mut client = idle(alloc)?;
    steps_shown(alloc, &mut client, steps)
}

/// The same of a client that registers with the ID of an input's first word.
fn registering_shown(alloc: Global, input: &str) -> Result<String, Fail> {
    let (id, steps) = input.split_once("; ").ok_or("a client without an ID")?;
    let id = Octets::from_slice(alloc, id.as_bytes())?;
    let (mut client, message) = Client::register(alloc, id)?;
    let begun = message_shown(alloc, &message)?;
    let phase = phase_shown(alloc, &client)?;
    let steps = steps_shown(alloc, &mut client, steps)?;
    Ok(format!(in alloc; "{begun}{phase}{steps}")?)
}

const REGISTERS: &str =
    "smd-9; asks get, hears bad-value, hears bad-value, hears id-1 => registers-9 Registering, WrongPhase { phase: Registering } Registering, registers Registering, Nothing Registering, Registered(Octets { bytes: [115, 109, 100, 45, 49] }) Idle, ";

#[test]
fn a_client_registers_again_without_its_id(rt: HostRuntime) -> Result<(), Fail> {
    expect_rows(&rt, REGISTERS, registering_shown)
}

/// A client saves in two phases, each with a dialog, and dies; it saves, and all have; its save is
/// cancelled and still answered; it asks for saves and for properties; it closes; and it is refused.
const SESSIONS: &str = "\
asks to-succeed, hears save-end, asks set, asks interact, hears token, asks talked, asks phase-two, hears two, asks to-wait, asks to-interact, hears token, asks to-talk-on, asks done, hears die, asks get, hears die => WrongPhase { phase: Idle } Idle, Save(SaveAsk { stage: First, kind: Both, shutdown: true, style: Any, fast: false }) Saving, sets-3 Saving, asks Asked, Save(SaveAsk { stage: Talking, kind: Both, shutdown: true, style: Any, fast: false }) Interacting, talked Saving, waits WantsTwo, Save(SaveAsk { stage: Second, kind: Both, shutdown: true, style: Any, fast: false }) SavingTwo, WrongPhase { phase: SavingTwo } SavingTwo, asks AskedTwo, Save(SaveAsk { stage: TalkingTwo, kind: Both, shutdown: true, style: Any, fast: false }) InteractingTwo, talked SavingTwo, done Done, Die Dead, WrongPhase { phase: Dead } Dead, Unexpected Dead, 
hears save-errors, asks to-interact, hears die, asks to-succeed, hears complete, hears complete => Save(SaveAsk { stage: First, kind: Both, shutdown: false, style: Errors, fast: false }) Saving, WrongPhase { phase: Saving } Saving, Unexpected Saving, done Done, Complete Idle, Nothing Idle, 
hears save-end, hears cancelled, hears complete, asks set, asks to-fail => Save(SaveAsk { stage: First, kind: Both, shutdown: true, style: Any, fast: false }) Saving, Cancelled Owing, Nothing Owing, sets-3 Owing, failed Idle, 
asks save-all, asks save-one, asks save-one-and-end, asks delete, asks get, hears properties => all-save Idle, one-saves Idle, WrongPhase { phase: Idle } Idle, deletes Idle, gets Idle, Properties(ListOf { items: [Property { name: Octets { bytes: [80] }, kind: Octets { bytes: [67, 65, 82, 68, 56] }, values: ListOf { items: [Octets { bytes: [3] }] } }] }) Idle, 
hears bad-state, asks close, asks close => Nothing Idle, closes Dead, WrongPhase { phase: Dead } Dead, 
hears ended => Refused(32769) Dead, ";

#[test]
fn a_client_saves_and_asks_in_its_phases(rt: HostRuntime) -> Result<(), Fail> {
    lawful_steps_have_their_place();
    expect_rows(&rt, SESSIONS, session_shown)
}
