use crate::answers::{OPENING, read_frames};
use client_quirks::{Amender, Answerer, Keeper, Quiet, StreamPiece};
use owned_lists::Octets;
use std::alloc::{Alloc, Global};
use std::process::Abort;
use std::test::Fail;
use test_tables::expect_rows;

/// Those who hear one connection.
#[derive(Drop)]
struct Listeners {
    amender: Amender,
    answerer: Answerer,
    keeper: Keeper,
}

/// Has all three hear a piece of the client's, and says whether they needn't have.
fn hear(alloc: Global, all: &mut Listeners, names: &str) -> Result<bool, Fail> {
    let bytes = read_frames(alloc, names)?;
    let passes = match Quiet::of(&all.amender, &all.answerer, &all.keeper) {
        Some(quiet) => quiet.lets_pass(bytes.as_slice()),
        None => false,
    };
    let meant = all.amender.take(StreamPiece::new(Octets::from_vec(bytes)))?;
    for piece in meant.into_vec() {
        let answering = all.answerer.hear(piece)?;
        for heard in answering.pieces.into_vec() {
            all.keeper.hear(heard)?;
        }
    }
    Ok(passes)
}

/// Tells both what the manager sends, and says whether they needn't have been told.
fn tell(alloc: Global, all: &mut Listeners, names: &str) -> Result<bool, Fail> {
    let bytes = read_frames(alloc, names)?;
    let passes = match Quiet::of(&all.amender, &all.answerer, &all.keeper) {
        Some(quiet) => quiet.sends_on(bytes.as_slice()),
        None => false,
    };
    all.keeper.tell(bytes.as_slice())?;
    all.answerer.tell(bytes.as_slice())?;
    Ok(passes)
}

fn put_step(alloc: Global, all: &mut Listeners, step: &str, text: &mut String) -> Result<(), Fail> {
    let passes = match step.split_once(':') {
        Some(("c", names)) => hear(alloc, all, names)?,
        Some((_, names)) => tell(alloc, all, names)?,
        None => return Err("no step".into()),
    };
    text.push_str(if passes { "y" } else { "-" })?;
    Ok(())
}

/// Which steps of a session needn't be heard, its opening among them.
fn passes_shown(alloc: Global, input: &str) -> Result<String, Fail> {
    let mut all = Listeners {
        amender: Amender::new(alloc),
        answerer: Answerer::new(alloc),
        keeper: Keeper::new(alloc),
    };
    let mut text = String::new(alloc);
    for step in OPENING.split(' ') {
        put_step(alloc, &mut all, step, &mut text)?;
    }
    for step in input.split(' ') {
        put_step(alloc, &mut all, step, &mut text)?;
    }
    Ok(text)
}

const STEPS: &str = "\
s:ping c:reply c:ping s:reply c:ping+ping => -----yyyyy
s:save c:done s:complete => -----yyy
s:logout c:done s:complete => --------
s:logout s:cancelled s:ping c:reply => ---------
s:logout c:failed s:cancelled s:ping c:ping => ----------
s:logout c:done s:cancelled s:save c:reply => ----------
c:010800 c:0000000000 c:ping => --------
s:0203 s:0000010000000100000000000000 s:ping => --------";

#[test]
fn a_quiet_connection_is_passed_over(rt: HostRuntime) -> Result<(), Fail> {
    expect_rows(&rt, STEPS, passes_shown)
}
