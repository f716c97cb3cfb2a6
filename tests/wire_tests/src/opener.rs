//! The client's table of the set-up: every state against every message, and whole openings to the
//! byte. An input names the frames that come, one after the other.

use crate::frames::{COOKIE, MESSAGES, answer_name, answer_or_dash, message_of};
use ice_messages::IceMessage;
use ice_setup::{AnyOpener, OpenMoved, OpenOrder};
use ice_values::Endian;
use std::alloc::{Alloc, Global};
use std::process::Abort;
use std::test::Fail;
use test_tables::expect_rows;

/// What a message brings in a state.
fn taken(alloc: Global, state: AnyOpener, message: IceMessage) -> Result<OpenMoved, Fail> {
    match state.take(alloc, message, 7) {
        Ok(moved) => Ok(moved),
        Err(kept) => Err(kept.1.into()),
    }
}

fn moved_by(alloc: Global, state: AnyOpener, name: &str) -> Result<OpenMoved, Fail> {
    taken(alloc, state, message_of(alloc, Endian::Lsb, name)?)
}

fn gone_on(moved: OpenMoved) -> Result<AnyOpener, Fail> {
    match moved {
        OpenMoved::Goes(next, _) => Ok(next),
        OpenMoved::Ends(_) => Err("the client ended".into()),
    }
}

/// The state behind these frames.
fn reached(alloc: Global, path: &str) -> Result<AnyOpener, Fail> {
    let mut state = AnyOpener::OpenOrder(OpenOrder::new(COOKIE));
    for name in path.split(' ') {
        if !name.is_empty() {
            state = gone_on(moved_by(alloc, state, name)?)?;
        }
    }
    Ok(state)
}

fn state_name(alloc: Global, state: &AnyOpener) -> Result<String, Fail> {
    match state {
        AnyOpener::OpenOrder(_) => Ok("OpenOrder".to_string(alloc)?),
        AnyOpener::OpenSetup(_) => Ok("OpenSetup".to_string(alloc)?),
        AnyOpener::OpenProtocol(_) => Ok("OpenProtocol".to_string(alloc)?),
        AnyOpener::Joined(joined) => {
            Ok(format!(in alloc; "Joined {}", joined.manager_opcode())?)
        }
    }
}

fn place(alloc: Global, moved: &OpenMoved) -> Result<String, Fail> {
    match moved {
        OpenMoved::Goes(state, _) => state_name(alloc, state),
        OpenMoved::Ends(_) => Ok("ends".to_string(alloc)?),
    }
}

fn answer(moved: &OpenMoved) -> Option<&IceMessage> {
    match moved {
        OpenMoved::Goes(_, answer) => answer.as_ref(),
        OpenMoved::Ends(answer) => answer.as_ref(),
    }
}

/// What came, in the words of the table.
fn cell(alloc: Global, moved: &OpenMoved) -> Result<String, Fail> {
    let mut text = place(alloc, moved)?;
    if let Some(answer) = answer(moved) {
        text.push_str(answer_name(alloc, answer)?.as_str())?;
    }
    Ok(text)
}

/// What this message brings behind these frames.
fn cell_behind(alloc: Global, path: &str, name: &str) -> Result<String, Fail> {
    cell(alloc, &moved_by(alloc, reached(alloc, path)?, name)?)
}

/// What each message brings behind these frames.
fn row_shown(alloc: Global, path: &str) -> Result<String, Fail> {
    let mut text = String::new(alloc);
    for name in MESSAGES.split(' ') {
        let cell = cell_behind(alloc, path, name)?;
        text.push_str(cell.as_str())?;
        text.push(';')?;
    }
    Ok(text)
}

/// A state by the frames that lead to it, and what each of the messages brings there: the state behind
/// it, or the end, and the answer.
const ROWS: &str = "\
order => OpenSetup;ends 8001.2;ends 8001.2;OpenSetup 4;ends 8001.2;ends 8001.2;OpenProtocol 7;ends 8001.2;ends 8001.2;OpenSetup 10;ends 8001.2;ends 8001.2;ends 8001.2;
order connected => OpenProtocol;ends 8001.2;ends 8001.2;OpenProtocol 4;ends 8001.2;ends 8001.2;ends 8001.2;ends 8001.2;Joined 1;OpenProtocol 10;ends 8001.2;ends 8001.2;ends 8001.2;
order connected begun => Joined 1;ends 8001.2;ends 8001.2;ends 8001.2;ends 8001.2;ends 8001.2;ends 8001.2;ends 8001.2;ends 8001.2;Joined 1 10;ends 8001.2;ends 8001.2;ends 8001.2;
 => OpenOrder;OpenSetup 2;ends 8001.2;ends 8001.2;ends 8001.2;ends 8001.2;ends 8001.2;ends 8001.2;ends 8001.2;ends 8001.2;ends 8001.2;ends 8001.2;ends 8001.2;";

#[test]
fn every_state_of_the_opener_takes_every_message(rt: HostRuntime) -> Result<(), Fail> {
    expect_rows(&rt, ROWS, row_shown)
}

fn last_moved(alloc: Global, frames: &str) -> Result<OpenMoved, Fail> {
    let (path, name) = frames.rsplit_once(' ').unwrap_or(("", frames));
    moved_by(alloc, reached(alloc, path)?, name)
}

fn cell_shown(alloc: Global, frames: &str) -> Result<String, Fail> {
    cell(alloc, &last_moved(alloc, frames)?)
}

const FATAL: &str = "\
fatal => ends
order more-fatal => ends
order connected fatal => ends
order connected begun more-fatal => ends";

#[test]
fn a_fatal_error_ends_without_an_answer(rt: HostRuntime) -> Result<(), Fail> {
    expect_rows(&rt, FATAL, cell_shown)
}

/// The bytes of the answer to the last of these frames.
fn answer_shown(alloc: Global, frames: &str) -> Result<String, Fail> {
    let moved = last_moved(alloc, frames)?;
    answer_or_dash(alloc, answer(&moved))
}

/// The cookie is asked for, also once more; the second name and the second version are taken, of which
/// there are none.
const ANSWERS: &str = "\
order => 000201010700000000000000000000000800736d636c69656e7400000300312e3000000012004d49542d4d414749432d434f4f4b49452d310100000000000000
order required => 00040000030000001000000000000000000102030405060708090a0b0c0d0e0f
order required required => 00040000030000001000000000000000000102030405060708090a0b0c0d0e0f
order required connected => 00070100080000000101000000000000040058534d5000000800736d636c69656e7400000300312e3000000012004d49542d4d414749432d434f4f4b49452d310100000000000000
order connected required => 00040000030000001000000000000000000102030405060708090a0b0c0d0e0f
order required-second => 00000180010000000302000007000000
order connected-second => 00000180010000000602000007000000
order connected begun-second => 00000180010000000802000007000000";

#[test]
fn the_opener_answers_to_the_byte(rt: HostRuntime) -> Result<(), Fail> {
    expect_rows(&rt, ANSWERS, answer_shown)
}
