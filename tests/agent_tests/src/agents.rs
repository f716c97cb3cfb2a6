//! Agents by steps. A step is the pieces of one call, as names of frames with `+` between them, or what the agent is told:
//! `succeeds`, `fails` and `ends`.

use crate::frames::{frame, name_of};
use ice_cookie::Cookie;
use ice_values::Array8;
use outer_agent::{
    Agent, AgentAct, AgentFault, are_few, ends_are_said_where_due, pieces_bring_no_success,
    pieces_make_no_difference,
};
use owned_lists::{NoMemory, Octets, OctetsList};
use std::alloc::{Alloc, Global};
use std::test::Fail;
use test_tables::expect_rows;

/// The words of a manager's command.
fn words(alloc: Global, command: &str) -> Result<OctetsList, NoMemory> {
    let mut words = OctetsList::new(alloc);
    for word in command.split(' ') {
        words.push(Octets::from_slice(alloc, word.as_bytes())?)?;
    }
    Ok(words)
}

/// An agent without an earlier ID whose manager has this command, and what it sends at once.
fn agent(alloc: Global, command: &str) -> Result<(Agent, Octets), Fail> {
    let words = words(alloc, command)?;
    if !are_few(&words) {
        return Err("too many words".into());
    }
    let cookie = Cookie([0, 1, 2, 3, 4, 5, 6, 7, 8, 9, 10, 11, 12, 13, 14, 15]);
    Ok(Agent::new(alloc, cookie, Array8::new(alloc), words)?)
}

/// The answer to a registration, with an ID of 512 bytes or one more.
fn put_id(alloc: Global, more: u8, piece: &mut Octets) -> Result<(), NoMemory> {
    piece.append(&[1, 2, 0, 0, 65, 0, 0, 0])?;
    piece.append(&[more, 2, 0, 0])?;
    let id = vec![in alloc; b'x'; 516]?;
    piece.append(id.as_slice())
}

/// Adds the frame of this name.
fn put_frame(alloc: Global, name: &str, piece: &mut Octets) -> Result<(), NoMemory> {
    match name {
        "id-of-512" => put_id(alloc, 0, piece),
        "id-of-513" => put_id(alloc, 1, piece),
        _ => piece.append(frame(name)),
    }
}

/// What can be read of some bytes.
fn put_read(bytes: &[u8], text: &mut String) -> Result<(), Fail> {
    for byte in bytes {
        if byte.is_ascii_graphic() {
            text.push(*byte as char)?;
        } else if !text.as_str().ends_with('.') {
            text.push('.')?;
        }
    }
    Ok(())
}

/// What is sent, by its name, or as its bytes.
fn put_bytes(alloc: Global, bytes: &[u8], text: &mut String) -> Result<(), Fail> {
    match name_of(bytes) {
        Some(name) => text.push_str(name)?,
        None => {
            for byte in bytes {
                text.push_str(format!(in alloc; "{byte:02x}")?.as_str())?;
            }
        }
    }
    Ok(())
}

fn put_act(alloc: Global, act: &AgentAct, text: &mut String) -> Result<(), Fail> {
    match act {
        AgentAct::Send(bytes) => put_bytes(alloc, bytes.as_slice(), text)?,
        AgentAct::Checkpoint => text.push_str("Checkpoint")?,
        AgentAct::Forget => text.push_str("Forget")?,
        AgentAct::Shutdown => text.push_str("Shutdown")?,
        AgentAct::Drop => text.push_str("Drop")?,
    }
    Ok(())
}

/// What the frames of one call bring.
fn hear(alloc: Global, agent: &mut Agent, names: &str, text: &mut String) -> Result<(), Fail> {
    let mut piece = Octets::new(alloc);
    for name in names.split('+') {
        put_frame(alloc, name, &mut piece)?;
    }
    match agent.hear(piece.as_slice()) {
        Ok(acts) => {
            for act in acts.as_slice() {
                text.push_str(" ")?;
                put_act(alloc, act, text)?;
            }
        }
        Err(fault) => text.push_str(format!(in alloc; " {fault:?}")?.as_str())?,
    }
    Ok(())
}

/// What it says to its outer manager as it is told something.
fn put_said(
    alloc: Global,
    said: Result<Octets, AgentFault>,
    text: &mut String,
) -> Result<(), Fail> {
    text.push_str(" ")?;
    match said {
        Ok(bytes) => put_bytes(alloc, bytes.as_slice(), text),
        Err(fault) => Ok(text.push_str(format!(in alloc; "{fault:?}")?.as_str())?),
    }
}

fn put_step(alloc: Global, agent: &mut Agent, step: &str, text: &mut String) -> Result<(), Fail> {
    match step {
        "succeeds" => put_said(alloc, agent.ended(true), text),
        "fails" => put_said(alloc, agent.ended(false), text),
        "ends" => put_said(alloc, agent.close(), text),
        _ => hear(alloc, agent, step, text),
    }
}

/// All that an agent whose manager has this command does in these steps, each behind a comma.
fn steps_shown(alloc: Global, command: &str, steps: &str) -> Result<String, Fail> {
    let (mut agent, first) = agent(alloc, command)?;
    let mut text = String::new(alloc);
    put_bytes(alloc, first.as_slice(), &mut text)?;
    for step in steps.split(' ') {
        text.push_str(",")?;
        put_step(alloc, &mut agent, step, &mut text)?;
    }
    Ok(text)
}

/// What can be read of what an agent sets whose manager has this command.
fn set_shown(alloc: Global, command: &str) -> Result<String, Fail> {
    let (mut agent, _first) = agent(alloc, command)?;
    let mut piece = Octets::new(alloc);
    for name in "order+connected+opened+id+save".split('+') {
        put_frame(alloc, name, &mut piece)?;
    }
    let acts = match agent.hear(piece.as_slice()) {
        Ok(acts) => acts,
        Err(_) => return Err("no acts".into()),
    };
    let mut text = String::new(alloc);
    for act in acts.as_slice().iter().skip(3) {
        if let AgentAct::Send(bytes) = act {
            put_read(bytes.as_slice(), &mut text)?;
        }
    }
    Ok(text)
}

fn rehearsed(alloc: Global, steps: &str) -> Result<String, Fail> {
    steps_shown(alloc, "rehearse", steps)
}

/// The set-up, a save, and the end; what is out of place, and what stops an agent.
const STEPS: &str = "\
order demand connected demand opened id => 0001000000000000, connects, proves, opens, proves, registers,
order+connected+opened+id save succeeds complete => 0001000000000000, connects opens registers, sets Checkpoint, saved,
order+connected+opened+id save fails => 0001000000000000, connects opens registers, sets Checkpoint, failed
order+connected+opened+id+save+cancelled succeeds => 0001000000000000, connects opens registers sets Checkpoint failed Forget, 
order+connected+opened+id+save succeeds cancelled fails => 0001000000000000, connects opens registers sets Checkpoint, saved,, 
order+connected+opened+id+save+cancelled+save+fatal fails => 0001000000000000, connects opens registers sets Checkpoint failed Forget sets Checkpoint Drop, 
order+connected+opened+id die+save succeeds ends => 0001000000000000, connects opens registers, closes Shutdown, , 
order+connected+opened+id save die succeeds => 0001000000000000, connects opens registers, sets Checkpoint, 01000180010000000900000006000000, saved
order+connected+opened+id ends save => 0001000000000000, connects opens registers, closes,
order+connected+opened ends id => 0001000000000000, connects opens registers, ,
order+connected+opened+id succeeds ping => 0001000000000000, connects opens registers, , 000a000000000000
order+connected+opened+id interact => 0001000000000000, connects opens registers, 01000180010000000600000005000000
order+connected+opened+id save+leaves fails ends => 0001000000000000, connects opens registers, sets Checkpoint 00000180010000000b02000006000000, , 
order unknown save => 0001000000000000, connects, Drop,
order+connected+opened+id unknown+save => 0001000000000000, connects opens registers, Drop
order+connected+opened+id refused ends => 0001000000000000, connects opens registers, Drop, 
order+connected+opened+id-of-513 save succeeds => 0001000000000000, connects opens registers, 010c00000800000001000000000000000700000050726f6772616d000000000006000000415252415938000000000000010000000000000006000000736d6e657374000000000000 Checkpoint, saved
order+connected+opened+id oversize+save => 0001000000000000, connects opens registers, Drop";

#[test]
fn an_agent_does_what_its_outer_manager_asks(rt: HostRuntime) -> Result<(), Fail> {
    pieces_make_no_difference();
    ends_are_said_where_due();
    pieces_bring_no_success();
    expect_rows(&rt, STEPS, rehearsed)
}

/// The command with which a manager is started again.
const SETS: &str = "\
rehearse => .Program.ARRAY8.smnest.RestartCommand.LISTofARRAY8.smnest.rehearse.--outer-id.smd-00000001-00000001.
serve --outer-id old --outer /x => .Program.ARRAY8.smnest.RestartCommand.LISTofARRAY8.smnest.serve.--outer./x.--outer-id.smd-00000001-00000001.
serve --store /s --outer-id old => .Program.ARRAY8.smnest.RestartCommand.LISTofARRAY8.smnest.serve.--store./s.--outer-id.smd-00000001-00000001.
serve --store --outer-id --outer /x => .Program.ARRAY8.smnest.RestartCommand.LISTofARRAY8.smnest.serve.--store.--outer-id.--outer./x.--outer-id.smd-00000001-00000001.
serve --outer-id => .Program.ARRAY8.smnest.RestartCommand.LISTofARRAY8.smnest.serve.--outer-id.--outer-id.smd-00000001-00000001.";

#[test]
fn a_manager_is_started_again_under_its_id(rt: HostRuntime) -> Result<(), Fail> {
    expect_rows(&rt, SETS, set_shown)
}
