//! The manager's table of the set-up: every state against every message, and whole set-ups to the
//! byte. An input names the frames that come, one after the other.

use crate::frames::{COOKIE, MESSAGES, answer_digits, answer_name, answer_or_dash, message_of};
use hex_rows::{bytes_of, digits_of};
use ice_messages::IceMessage;
use ice_setup::{
    AnySetup, AwaitOrder, Moved, Offending, error_of, opcode_values, refusal, text_values,
    wrong_byte_values,
};
use ice_values::{Endian, ErrorBody, ErrorClass, Severity, Text16};
use owned_lists::Octets;
use std::alloc::{Alloc, Global};
use std::process::Abort;
use std::test::Fail;
use test_tables::expect_rows;

/// What a message brings in a state.
fn taken(
    alloc: Global,
    state: AnySetup,
    message: IceMessage,
    sequence: u32,
) -> Result<Moved, Fail> {
    match state.take(alloc, message, sequence) {
        Ok(moved) => Ok(moved),
        Err(kept) => Err(kept.1.into()),
    }
}

/// What the frame of a name brings in a state.
fn moved_by(alloc: Global, state: AnySetup, name: &str, sequence: u32) -> Result<Moved, Fail> {
    let endian = state.client_endian().unwrap_or(Endian::Lsb);
    taken(alloc, state, message_of(alloc, endian, name)?, sequence)
}

/// The state in which a connection goes on, without an end of its own.
fn gone_on(moved: Moved) -> Result<AnySetup, Fail> {
    match moved {
        Moved::Goes(state, _) => Ok(state),
        _ => Err("the connection ended".into()),
    }
}

/// The state behind these frames.
fn reached(alloc: Global, path: &str) -> Result<AnySetup, Fail> {
    let mut state = AnySetup::AwaitOrder(AwaitOrder::new(COOKIE));
    for name in path.split(' ') {
        if !name.is_empty() {
            state = gone_on(moved_by(alloc, state, name, 1)?)?;
        }
    }
    Ok(state)
}

fn name(state: &AnySetup) -> &'static str {
    match state {
        AnySetup::AwaitOrder(_) => "AwaitOrder",
        AnySetup::AwaitSetup(_) => "AwaitSetup",
        AnySetup::AwaitCookie(_) => "AwaitCookie",
        AnySetup::AwaitProtocol(_) => "AwaitProtocol",
        AnySetup::AwaitProtocolCookie(_) => "AwaitProtocolCookie",
        AnySetup::Ready(_) => "Ready",
    }
}

/// The state behind what came, or how the connection ends.
fn place(moved: &Moved) -> &'static str {
    match moved {
        Moved::Goes(state, _) => name(state),
        Moved::Ends(_) => "ends",
        Moved::Close => "close",
        Moved::Ask(_) => "ask Ready",
    }
}

fn answer(moved: &Moved) -> Option<&IceMessage> {
    match moved {
        Moved::Goes(_, answer) => answer.as_ref(),
        Moved::Ends(answer) => answer.as_ref(),
        _ => None,
    }
}

/// What came, in the words of the table.
fn cell(alloc: Global, moved: &Moved) -> Result<String, Fail> {
    let mut text = place(moved).to_string(alloc)?;
    if let Some(answer) = answer(moved) {
        text.push_str(answer_name(alloc, answer)?.as_str())?;
    }
    Ok(text)
}

/// What this message brings behind these frames.
fn cell_behind(alloc: Global, path: &str, name: &str) -> Result<String, Fail> {
    cell(alloc, &moved_by(alloc, reached(alloc, path)?, name, 7)?)
}

/// What each message brings behind these frames.
fn row_shown(alloc: Global, path: &str) -> Result<String, Fail> {
    let mut text = String::new(alloc);
    for name in MESSAGES.split(' ') {
        let cell = cell_behind(alloc, path, name)?;
        text.push_str(cell.as_str())?;
        text.push(';')?;
    }
    Ok(text)
}

/// A state by the frames that lead to it, and what each of the messages brings there: the state behind
/// it, or the end, and the answer.
const ROWS: &str = "\
order => AwaitSetup;ends 8001.2;AwaitCookie 3;ends 8001.2;ends 8001.2;ends 8001.2;ends 8001.2;ends 8001.2;ends 8001.2;AwaitSetup 10;ends 8001.2;close;ends 8001.2;
order connect => AwaitCookie;ends 8001.2;ends 8001.2;ends 8001.2;AwaitProtocol 6;ends 8001.2;ends 8001.2;ends 8001.2;ends 8001.2;AwaitCookie 10;ends 8001.2;close;ends 8001.2;
order connect reply => AwaitProtocol;AwaitProtocol 8001.0;AwaitProtocol 8001.0;AwaitProtocol 8001.0;AwaitProtocol 8001.0;AwaitProtocol 8001.0;AwaitProtocol 8001.0;AwaitProtocolCookie 3;AwaitProtocol 8001.0;AwaitProtocol 10;AwaitProtocol 8001.0;close;AwaitProtocol 8001.0;
order connect reply protocol-5 => AwaitProtocolCookie;AwaitProtocolCookie 8001.0;AwaitProtocolCookie 8001.0;AwaitProtocolCookie 8001.0;Ready 8;AwaitProtocolCookie 8001.0;AwaitProtocolCookie 8001.0;AwaitProtocolCookie 8001.0;AwaitProtocolCookie 8001.0;AwaitProtocolCookie 10;AwaitProtocolCookie 8001.0;close;AwaitProtocolCookie 8001.0;
order connect reply protocol-5 reply => Ready;Ready 8001.0;Ready 8001.0;Ready 8001.0;Ready 8001.0;Ready 8001.0;Ready 8001.0;Ready 6.1;Ready 8001.0;Ready 10;Ready 8001.0;ask Ready;Ready 8001.0;
 => ends 8001.2;AwaitSetup;ends 8001.2;ends 8001.2;ends 8001.2;ends 8001.2;ends 8001.2;ends 8001.2;ends 8001.2;ends 8001.2;ends 8001.2;ends 8001.2;ends 8001.2;";

#[test]
fn every_state_takes_every_message(rt: HostRuntime) -> Result<(), Fail> {
    expect_rows(&rt, ROWS, row_shown)
}

/// What the last of these frames brings, under its number.
fn last_moved(alloc: Global, frames: &str) -> Result<Moved, Fail> {
    let sequence = u32::try_from(frames.split(' ').count())?;
    let (path, name) = frames.rsplit_once(' ').unwrap_or(("", frames));
    moved_by(alloc, reached(alloc, path)?, name, sequence)
}

fn cell_shown(alloc: Global, frames: &str) -> Result<String, Fail> {
    cell(alloc, &last_moved(alloc, frames)?)
}

/// Offers, and what comes.
const OFFERS: &str = "\
order connect-nameless => ends 1.2
order connect-must => AwaitCookie 3
order connect-versionless => ends 2.2
order connect reply protocol-0 => AwaitProtocol 7.1
order connect reply protocol-xsmq => AwaitProtocol 8.1
order connect reply protocol-versionless => AwaitProtocol 2.1
order connect reply protocol-must-nameless => AwaitProtocol 1.1
order connect reply protocol-free => Ready 8
order connect reply protocol-5 reply xsmq-0 => Ready 7.1
order connect reply protocol-5 reply xsmq-5 => Ready 7.1
order connect reply protocol-5 reply xsmq-1 => Ready 8.1
order connect reply protocol-5 reply xsmp-again => Ready 6.1";

#[test]
fn offers_are_tested_in_their_order(rt: HostRuntime) -> Result<(), Fail> {
    expect_rows(&rt, OFFERS, cell_shown)
}

/// The state behind the last of these frames, and the bytes of its answer.
fn answer_shown(alloc: Global, frames: &str) -> Result<String, Fail> {
    let moved = last_moved(alloc, frames)?;
    let digits = answer_or_dash(alloc, answer(&moved))?;
    Ok(format!(in alloc; "{} {digits}", place(&moved))?)
}

/// A client joins; another one does in the other order of bytes; the cookie is wrong or short; there is
/// no version that both speak; another protocol is refused and the connection stays; the name and the
/// version are the second ones, and the opcode is taken.
const SCRIPTS: &str = "\
order => AwaitSetup -
order connect => AwaitCookie 00030000010000000000000000000000
order connect reply => AwaitProtocol 00060000020000000300736d640000000300312e30000000
order connect reply protocol => AwaitProtocolCookie 00030000010000000000000000000000
order connect reply protocol reply => Ready 00080001020000000300736d640000000300312e30000000
other-order => AwaitSetup -
other-order other-connect => AwaitCookie 00030000010000000000000000000000
other-order other-connect other-reply => AwaitProtocol 00060000020000000300736d640000000300312e30000000
order connect wrong-reply => ends 000004000300000004010000030000000e00636f6f6b69652072656675736564
order connect short-reply => ends 000004000300000004010000030000000e00636f6f6b69652072656675736564
order connect-2.0 => ends 00000200010000000202000002000000
order connect reply other-protocol => AwaitProtocol 00000800020000000701000004000000040058534d510000
order connect reply other-protocol protocol => AwaitProtocolCookie 00030000010000000000000000000000
order connect-second => AwaitCookie 00030100010000000000000000000000
order connect-second reply => AwaitProtocol 00060100020000000300736d640000000300312e30000000
order connect-second reply protocol-second => AwaitProtocolCookie 00030100010000000000000000000000
order connect-second reply protocol-second reply => Ready 00080101020000000300736d640000000300312e30000000
order connect-second reply protocol-second reply protocol-5 => Ready 000007000200000007010000060000000500000000000000";

#[test]
fn the_set_up_is_answered_to_the_byte(rt: HostRuntime) -> Result<(), Fail> {
    expect_rows(&rt, SCRIPTS, answer_shown)
}

/// A Ping with the number 4.
fn ping() -> Offending {
    Offending {
        minor: 9,
        sequence: 4,
    }
}

fn error_digits(alloc: Global, error: ErrorBody) -> Result<String, Fail> {
    answer_digits(alloc, &IceMessage::Error(error))
}

/// A BadLength of a Ping behind these frames.
fn refusal_shown(alloc: Global, path: &str) -> Result<String, Fail> {
    let state = reached(alloc, path)?;
    let error = refusal(&state, ErrorClass::BadLength, ping(), Octets::new(alloc));
    error_digits(alloc, error)
}

/// A BadMajor of a Ping that names this opcode.
fn opcode_shown(alloc: Global, opcode: &str) -> Result<String, Fail> {
    let values = opcode_values(alloc, opcode.parse::<u8>()?)?;
    let error = error_of(Severity::CanContinue, ErrorClass::BadMajor, ping(), values);
    error_digits(alloc, error)
}

#[test]
fn errors_name_the_message_and_their_values(rt: HostRuntime) -> Result<(), Fail> {
    let row = "order connect reply => 00000280010000000900000004000000";
    expect_rows(&rt, row, refusal_shown)?;
    let row = "5 => 000000000200000009000000040000000500000000000000";
    expect_rows(&rt, row, opcode_shown)
}

fn text_values_shown(alloc: Global, text: &str) -> Result<String, Fail> {
    let text = Text16::from_slice(alloc, text.as_bytes())?;
    digits_of(alloc, text_values(alloc, &text)?.as_slice())
}

/// The values that name the third byte of a frame.
fn wrong_byte_shown(alloc: Global, digits: &str) -> Result<String, Fail> {
    let frame = bytes_of(alloc, digits)?;
    let values = wrong_byte_values(alloc, 2, frame.as_slice())?;
    digits_of(alloc, values.as_slice())
}

#[test]
fn values_are_spelled_in_units(rt: HostRuntime) -> Result<(), Fail> {
    expect_rows(&rt, "XSMQ => 040058534d510000", text_values_shown)?;
    let row = "00010700 => 02000000010000000700000000000000";
    expect_rows(&rt, row, wrong_byte_shown)
}

/// What the state behind these frames tells.
fn told(alloc: Global, path: &str) -> Result<String, Fail> {
    let state = reached(alloc, path)?;
    let endian = state.client_endian();
    let opcode = state.client_opcode();
    Ok(format!(in alloc; "{endian:?} {} {opcode:?}", state.connected())?)
}

const TOLD: &str = "\
other-order => Some(Msb) false None
 => None false None
order connect reply => Some(Lsb) true None
order connect reply protocol-5 reply => Some(Lsb) true Some(5)";

#[test]
fn a_state_tells_the_client(rt: HostRuntime) -> Result<(), Fail> {
    expect_rows(&rt, TOLD, told)
}

/// What the frame of a name brings where a client that spoke XSMP doesn't any more.
fn unset_shown(alloc: Global, name: &str) -> Result<String, Fail> {
    let AnySetup::Ready(ready) = reached(alloc, "order connect reply protocol-5 reply")? else {
        return Err("it isn't ready".into());
    };
    let state = AnySetup::AwaitProtocol(ready.unset());
    cell(alloc, &moved_by(alloc, state, name, 7)?)
}

#[test]
fn without_xsmp_the_protocol_may_be_set_up_again(rt: HostRuntime) -> Result<(), Fail> {
    expect_rows(&rt, "protocol-5 => AwaitProtocolCookie 3", unset_shown)
}
