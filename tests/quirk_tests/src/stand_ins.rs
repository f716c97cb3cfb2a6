use crate::answers::{OPENING, joined, put_frames, put_step, read_frames};
use client_quirks::{Answerer, HandedOver, StandIn};
use owned_lists::Octets;
use std::alloc::{Alloc, Global};
use std::process::Abort;
use std::test::Fail;
use test_tables::expect_rows;

/// What is known of a client behind these steps of its session.
fn answerer_of(alloc: Global, steps: &str) -> Result<Answerer, Fail> {
    let mut answerer = Answerer::new(alloc);
    let mut text = String::new(alloc);
    for step in OPENING.split(' ') {
        put_step(alloc, &mut answerer, step, &mut text)?;
    }
    for step in steps.split(' ') {
        put_step(alloc, &mut answerer, step, &mut text)?;
    }
    Ok(answerer)
}

/// Who speaks in the client's place then; what the manager hears at once is added.
fn stand_in_of(alloc: Global, answerer: &mut Answerer, text: &mut String) -> Result<StandIn, Fail> {
    let Some(handed_over) = answerer.give_over()? else {
        return Err("nobody stands in".into());
    };
    let HandedOver { stand_in, pieces } = handed_over;
    put_frames(alloc, joined(alloc, &pieces)?.as_slice(), text)?;
    Ok(stand_in)
}

/// What the manager sends: what it hears, and behind `!` what is started.
fn put_told(
    alloc: Global,
    stand_in: &mut StandIn,
    names: &str,
    text: &mut String,
) -> Result<(), Fail> {
    let stood = stand_in.tell(read_frames(alloc, names)?.as_slice())?;
    let pieces = joined(alloc, &stood.pieces)?;
    put_frames(alloc, pieces.as_slice(), text)?;
    for command in stood.started.as_slice() {
        text.push_str("!")?;
        for word in command.words.as_slice() {
            text.push_str(hex::encode(alloc, word.as_slice())?.as_str())?;
        }
    }
    Ok(())
}

/// Takes a step: `s` says something for the manager, `t` lets milliseconds pass, and `e` ends the client's
/// stream. A dot is behind the step with which the client's end is handed on, and a stroke where time counts.
fn put_turn(
    alloc: Global,
    stand_in: &mut StandIn,
    step: &str,
    text: &mut String,
) -> Result<(), Fail> {
    match step.split_once(':') {
        Some(("s", names)) => put_told(alloc, stand_in, names, text)?,
        Some((_, digits)) => {
            let Ok(milliseconds) = digits.parse::<u64>() else {
                return Err("no time".into());
            };
            let pieces = joined(alloc, &stand_in.pass(milliseconds)?)?;
            put_frames(alloc, pieces.as_slice(), text)?;
        }
        None => {
            stand_in.end();
            text.push_str("ended")?;
        }
    }
    if stand_in.waits() {
        text.push_str("'")?;
    }
    if stand_in.is_over() {
        text.push_str(".")?;
    }
    Ok(())
}

/// What the turns of a client bring that has answered a logout and closes.
fn turns_shown(alloc: Global, input: &str) -> Result<String, Fail> {
    let mut answerer = answerer_of(alloc, "s:logout c:done+closed")?;
    let mut nothing = String::new(alloc);
    let mut stand_in = stand_in_of(alloc, &mut answerer, &mut nothing)?;
    let mut text = String::new(alloc);
    for step in input.split(' ') {
        if !text.is_empty() {
            text.push_str(" ")?;
        }
        put_turn(alloc, &mut stand_in, step, &mut text)?;
    }
    Ok(text)
}

/// A client that has left a logout.
const LEAVERS: &str = "\
s:die => -.
s:complete => -.
s:ping e t:60000 => - ended -
s:cancelled s:save s:complete e t:1999 t:1 s:given t:59999 t:1 => asks done - ended' -' properties -!787465726d' -' -.
s:cancelled e t:60000 s:save s:complete t:2000 s:given s:given s:die => asks ended - done -' properties -!787465726d' -' -.
s:cancelled s:logout s:cancelled s:save s:complete s:cancelled s:save s:die => asks done asks done - - done -.
s:cancelled s:save s:complete e t:2000 s:none => asks done - ended' properties -.
s:cancelled s:save s:complete e t:2000 s:never => asks done - ended' properties -.
s:cancelled s:save s:complete e t:2000 s:immediately => asks done - ended' properties -.
s:cancelled s:given s:interact s:phase2 => asks - talked+done done
s:save+complete => done.";

#[test]
fn who_has_left_is_spoken_for(rt: HostRuntime) -> Result<(), Fail> {
    expect_rows(&rt, LEAVERS, turns_shown)
}

/// What the manager hears at once of a client that closes behind these steps, and then what these turns
/// bring; a word where its end isn't held back.
fn late_turns_shown(alloc: Global, input: &str) -> Result<String, Fail> {
    let Some((steps, turns)) = input.split_once(" | ") else {
        return Err("steps without turns".into());
    };
    let mut answerer = answerer_of(alloc, steps)?;
    let mut text = String::new(alloc);
    if !answerer.has_left() {
        text.push_str("gone")?;
        return Ok(text);
    }
    let mut stand_in = stand_in_of(alloc, &mut answerer, &mut text)?;
    for step in turns.split(' ') {
        text.push_str(" ")?;
        put_turn(alloc, &mut stand_in, step, &mut text)?;
    }
    Ok(text)
}

/// A client that leaves behind a logout that was called off, in each phase in which the manager may have it.
const LATE_LEAVERS: &str = "\
s:logout c:done s:cancelled c:closed | s:save s:complete e t:1999 t:1 s:given t:59999 t:1 => asks done - ended' -' properties -!787465726d' -' -.
s:logout c:done s:cancelled e | e s:save s:complete t:2000 => asks ended done -' properties
s:logout c:done s:cancelled s:save c:closed | s:complete e => done - ended'
s:logout c:done s:cancelled s:logout c:closed | s:cancelled s:save s:complete e => done asks done - ended'
s:logout c:done s:cancelled s:logout c:closed | s:die => done -.
s:logout c:done s:cancelled s:logout s:cancelled c:closed | s:save s:complete e => failed+asks done - ended'
s:logout s:cancelled c:done c:closed | s:save s:complete e => asks done - ended'
s:logout s:cancelled c:done+closed | s:save s:complete e => asks done - ended'
s:logout c:ask s:cancelled t:2000 s:save c:done+closed | s:complete e => done - ended'
s:logout s:cancelled t:2000 s:logout c:done+closed | s:die => done -.
s:logout c:ask s:interact s:cancelled c:done+closed | s:save s:complete e => asks done - ended'
s:logout c:ask s:interact s:cancelled c:talked+done+closed | s:save s:complete e => asks done - ended'
s:logout c:ask s:interact s:cancelled s:save c:done+closed | e s:complete s:save s:complete => - ended asks done -'
s:logout c:ask s:interact s:cancelled s:logout c:done+closed | s:interact s:complete e => - talked+done - ended'
s:logout c:ask s:interact s:cancelled s:logout c:done+closed | s:interact s:cancelled s:save s:complete => - talked+done asks done -
s:logout c:ask s:interact s:cancelled s:logout c:done+closed | s:cancelled s:save s:complete e => - failed+asks done - ended'
s:logout c:ask s:interact s:cancelled s:logout s:interact c:done+closed | s:die => done -.
s:logout c:done s:cancelled t:1999 c:closed | s:die => asks -.";

/// A client whose end is handed on as it comes.
const PUNCTUAL_LEAVERS: &str = "\
c:closed | e => gone
s:save c:done s:complete c:closed | e => gone
s:logout c:done c:closed | e => gone
s:logout c:done s:cancelled t:2000 c:closed | e => gone
s:logout c:done s:cancelled s:save c:reply c:closed | e => gone
s:logout c:done s:cancelled s:save c:reply c:done s:complete c:closed | e => gone
s:logout c:failed s:cancelled c:closed | e => gone
s:logout s:cancelled c:failed c:closed | e => gone
s:logout s:cancelled t:2000 c:closed | e => gone
s:logout c:done s:cancelled s:logout s:die c:closed | e => gone
s:logout c:done s:cancelled c:010b c:0000010000000000000000000000 | e => gone";

#[test]
fn who_leaves_late_is_spoken_for(rt: HostRuntime) -> Result<(), Fail> {
    expect_rows(&rt, LATE_LEAVERS, late_turns_shown)
}

#[test]
fn others_are_let_go(rt: HostRuntime) -> Result<(), Fail> {
    expect_rows(&rt, PUNCTUAL_LEAVERS, late_turns_shown)
}

fn put_id(alloc: Global, id: Option<Octets>, text: &mut String) -> Result<(), Fail> {
    match id {
        Some(id) => text.push_str(hex::encode(alloc, id.as_slice())?.as_str())?,
        None => text.push_str("-")?,
    }
    Ok(())
}

/// The IDs in a client's piece and in a manager's, each in hex digits, or a dash.
fn ids_shown(alloc: Global, input: &str) -> Result<String, Fail> {
    let mut answerer = Answerer::new(alloc);
    let mut text = String::new(alloc);
    for step in OPENING.split(' ') {
        put_step(alloc, &mut answerer, step, &mut text)?;
    }
    let bytes = read_frames(alloc, input)?;
    let mut shown = String::new(alloc);
    put_id(alloc, answerer.registers(bytes.as_slice())?, &mut shown)?;
    shown.push_str("/")?;
    put_id(alloc, answerer.registered(bytes.as_slice())?, &mut shown)?;
    Ok(shown)
}

const IDS: &str = "\
01010000010000000100000061000000 => 61/-
01010000010000000000000000000000 => /-
registered => -/61
registered+save => -/-
0101000001000000 => -/-
done => -/-";

#[test]
fn an_id_is_read_where_it_comes_alone(rt: HostRuntime) -> Result<(), Fail> {
    expect_rows(&rt, IDS, ids_shown)
}
