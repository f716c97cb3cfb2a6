//! A client's core in steps, one part of its manager's stream after the other.

use crate::frames::{frame_of, named};
use crate::phases::request_of;
use client_engine::{Core, Cue, Taken, closing, greeting, spell, stage_again};
use client_machine::{Request, SaveAnswer, Stage, Step};
use ice_cookie::Cookie;
use ice_messages::encode_ice;
use ice_values::{Array8, Array8List, EncodeRefusal, Endian, PropertyList};
use owned_lists::Octets;
use protocol_messages::Message;
use std::alloc::{Alloc, Global};
use std::process::Abort;
use std::test::Fail;
use test_tables::{expect_rows, text_of};
use xsmp_messages::encode_xsmp;

fn put(message: &Message, out: &mut Octets) -> Result<(), EncodeRefusal> {
    match message {
        Message::Ice(message) => encode_ice(Endian::Lsb, message, out),
        Message::Xsmp(message) => encode_xsmp(Endian::Lsb, 1, message, out),
    }
}

/// A message by the name of its frame, behind a blank.
fn message_shown(alloc: Global, message: &Message) -> Result<String, Fail> {
    let mut out = Octets::new(alloc);
    put(message, &mut out)?;
    let name = named(alloc, out.as_slice())?;
    Ok(format!(in alloc; " {name}")?)
}

fn said_shown(alloc: Global, said: &[Message]) -> Result<String, Fail> {
    let mut text = String::new(alloc);
    for message in said {
        text.push_str(message_shown(alloc, message)?.as_str())?;
    }
    Ok(text)
}

/// How many bytes were taken, the cue, and what the client says.
fn taken_shown(alloc: Global, taken: &Taken) -> Result<String, Fail> {
    let said = said_shown(alloc, taken.said.as_slice())?;
    Ok(format!(in alloc; "{} {:?}{said}", taken.count, taken.cue)?)
}

fn heard(alloc: Global, core: &mut Core, name: &str) -> Result<String, Fail> {
    let part = frame_of(alloc, name)?;
    match core.cut(alloc, part.as_slice())? {
        Some(taken) => taken_shown(alloc, &taken),
        None => Ok("nothing".to_string(alloc)?),
    }
}

fn asked(alloc: Global, core: &mut Core, request: Request) -> Result<String, Fail> {
    match core.ask(request) {
        Ok(message) => message_shown(alloc, &message),
        Err(refusal) => text_of(alloc, &refusal),
    }
}

/// The client hears that it is to save, and has saved.
fn saved(alloc: Global, core: &mut Core, name: &str) -> Result<String, Fail> {
    let part = frame_of(alloc, name)?;
    let taken = match core.cut(alloc, part.as_slice())? {
        Some(taken) => taken,
        None => return Err("no part".into()),
    };
    match taken.cue {
        Cue::Save(ask) => {
            if ask.stage != Stage::First {
                return Err("another stage".into());
            }
            let set = PropertyList::new(alloc);
            let step = Step::Done(true);
            let said = core.answer(alloc, ask, SaveAnswer { set, step })?;
            said_shown(alloc, said.as_slice())
        }
        _ => Err("no save".into()),
    }
}

fn owed(alloc: Global, core: &mut Core) -> Result<String, Fail> {
    let said = core.owed(alloc)?;
    said_shown(alloc, said.as_slice())
}

/// What a client says that was told to die.
fn closing_shown(alloc: Global) -> Result<String, Fail> {
    message_shown(alloc, &closing(Array8List::new(alloc)))
}

fn id_shown(alloc: Global, core: &Core) -> Result<String, Fail> {
    match core.id() {
        Some(id) => Ok(str::from_utf8(id)?.to_string(alloc)?),
        None => Ok("-".to_string(alloc)?),
    }
}

/// A step of one word.
fn done(alloc: Global, core: &mut Core, word: &str) -> Result<String, Fail> {
    match word {
        "owes" => owed(alloc, core),
        "says its end" => closing_shown(alloc),
        "id" => id_shown(alloc, core),
        _ => text_of(alloc, &core.phase()),
    }
}

fn stepped(alloc: Global, core: &mut Core, step: &str) -> Result<String, Fail> {
    match step.split_once(' ') {
        Some(("hears", name)) => heard(alloc, core, name),
        Some(("saves", name)) => saved(alloc, core, name),
        Some(("asks", name)) => asked(alloc, core, request_of(alloc, name)?),
        _ => done(alloc, core, step),
    }
}

fn steps_shown(alloc: Global, core: &mut Core, steps: &str) -> Result<String, Fail> {
    let mut text = String::new(alloc);
    let mut between = "";
    for step in steps.split(", ") {
        text.push_str(between)?;
        text.push_str(stepped(alloc, core, step)?.as_str())?;
        between = ", ";
    }
    Ok(text)
}

/// What a new client does in these steps.
fn session_shown(alloc: Global, steps: &str) -> Result<String, Fail> {
    let cookie = Cookie([0, 1, 2, 3, 4, 5, 6, 7, 8, 9, 10, 11, 12, 13, 14, 15]);
    let mut core = Core::new(alloc, cookie, Array8::new(alloc))?;
    steps_shown(alloc, &mut core, steps)
}

const SESSION: &str =
    "hears order, hears demand, hears connected, hears opened, hears registered, id, asks done, saves save, phase, hears save, asks to-wait, owes, asks close, phase => 8 Nothing connects, 16 Nothing cookie, 24 Nothing opens, 24 Nothing registers, 40 Registered(Octets { bytes: [115, 109, 100, 45, 48, 48, 48, 48, 48, 48, 48, 49, 45, 48, 48, 48, 48, 48, 48, 48, 49] }), smd-00000001-00000001, WrongPhase { phase: Idle },  done, Done, 16 Save(SaveAsk { stage: First, kind: Local, shutdown: false, style: Nothing, fast: false }),  waits, ,  closes, Dead";

/// A client closes once it has joined, and takes nothing more; one that is told to die takes nothing more, and says its end.
const ENDS: &str = "\
asks close, hears order, asks close, phase => WrongPhase { phase: Registering }, 8 Nothing connects, WrongPhase { phase: Registering }, Registering
hears order, hears demand, hears connected, hears opened, hears registered, asks close, asks close, hears save, phase, id => 8 Nothing connects, 16 Nothing cookie, 24 Nothing opens, 24 Nothing registers, 40 Registered(Octets { bytes: [115, 109, 100, 45, 48, 48, 48, 48, 48, 48, 48, 49, 45, 48, 48, 48, 48, 48, 48, 48, 49] }),  closes, WrongPhase { phase: Dead }, nothing, Dead, -
hears order, hears demand, hears connected, hears opened, hears registered, hears die, says its end, asks close, hears save => 8 Nothing connects, 16 Nothing cookie, 24 Nothing opens, 24 Nothing registers, 40 Registered(Octets { bytes: [115, 109, 100, 45, 48, 48, 48, 48, 48, 48, 48, 49, 45, 48, 48, 48, 48, 48, 48, 48, 49] }), 8 Die,  closes, WrongPhase { phase: Dead }, nothing";

#[test]
fn a_client_closes_once(rt: HostRuntime) -> Result<(), Fail> {
    expect_rows(&rt, ENDS, session_shown)
}

#[test]
fn a_client_asks_in_its_phase(rt: HostRuntime) -> Result<(), Fail> {
    expect_rows(&rt, SESSION, session_shown)
}

/// The message with which a client begins.
fn greeting_shown(alloc: Global) -> Result<String, Fail> {
    let mut bytes = Octets::new(alloc);
    spell(&greeting(), &mut bytes)?;
    named(alloc, bytes.as_slice())
}

/// That message, and the stage behind one at which the client talks.
fn beginning_shown(alloc: Global, _stage: &str) -> Result<String, Fail> {
    let begun = greeting_shown(alloc)?;
    Ok(format!(in alloc; "{begun} {:?}", stage_again(Stage::Talking))?)
}

#[test]
fn a_client_begins_with_byte_order(rt: HostRuntime) -> Result<(), Fail> {
    expect_rows(&rt, "Talking => order Some(First)", beginning_shown)
}
