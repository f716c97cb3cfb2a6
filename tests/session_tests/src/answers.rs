//! Errors, IDs and lines written down by hand.

use ice_values::ErrorBody;
use owned_lists::{NoMemory, Octets};
use session_answers::{
    ArrivalView, Doing, Status, bad_id, bad_state, client_id, full_table, lone_shutdown, no_room,
    status_line,
};
use std::alloc::{Alloc, Global};
use std::process::Abort;
use std::test::Fail;
use test_tables::{expect_rows, text_of};
use xsmp_messages::XsmpMessage;

/// A RegisterClient with this previous-ID.
fn registering(alloc: Global, previous: &[u8]) -> Result<XsmpMessage, NoMemory> {
    let previous = Octets::from_slice(alloc, previous)?;
    Ok(XsmpMessage::RegisterClient { previous })
}

/// The class, the minor opcode, the sequence number, the severity and the values of an Error.
fn error_shown(alloc: Global, error: &ErrorBody) -> Result<String, Fail> {
    let (class, minor, sequence) = (error.class, error.minor, error.sequence);
    let severity = error.severity;
    let values = error.values.as_slice();
    Ok(format!(in alloc; "{class} {minor} {sequence} {severity:?} {values:?}")?)
}

/// The message has no place. Nothing of it is shown.
fn misplaced(alloc: Global, _input: &str) -> Result<String, Fail> {
    let message = registering(alloc, b"")?;
    let arrival = ArrivalView {
        conn: 3,
        message: &message,
        sequence: 1,
        frame: b"",
    };
    error_shown(alloc, &bad_state(alloc, &arrival))
}

#[test]
fn a_message_without_a_place_is_named(rt: HostRuntime) -> Result<(), Fail> {
    expect_rows(&rt, " => 32769 1 1 CanContinue []", misplaced)
}

/// What is wrong with a message: its ID, that there is no room for one, its table, or a shutdown.
fn error_of(alloc: Global, what: &str, arrival: &ArrivalView<'_>) -> Result<ErrorBody, NoMemory> {
    match what {
        "id" => bad_id(alloc, arrival),
        "room" => no_room(alloc, arrival),
        "table" => full_table(alloc, arrival),
        _ => lone_shutdown(alloc, arrival),
    }
}

fn wrong(alloc: Global, what: &str) -> Result<String, Fail> {
    let message = registering(alloc, b"abc")?;
    let arrival = ArrivalView {
        conn: 3,
        message: &message,
        sequence: 1,
        frame: b"\x01\x01\0\0\x01\0\0\0\x03\0\0\0abc\0",
    };
    error_shown(alloc, &error_of(alloc, what, &arrival)?)
}

/// The place and the number of the bytes that are shown, and these.
const WRONG: &str = "\
id => 32771 1 1 CanContinue [8, 0, 0, 0, 8, 0, 0, 0, 3, 0, 0, 0, 97, 98, 99, 0]
room => 32771 1 1 FatalToProtocol [8, 0, 0, 0, 8, 0, 0, 0, 3, 0, 0, 0, 97, 98, 99, 0]
table => 32771 1 1 CanContinue [8, 0, 0, 0, 4, 0, 0, 0, 3, 0, 0, 0, 0, 0, 0, 0]
shutdown => 32771 1 1 CanContinue [12, 0, 0, 0, 1, 0, 0, 0, 97, 0, 0, 0, 0, 0, 0, 0]";

#[test]
fn what_is_wrong_is_shown(rt: HostRuntime) -> Result<(), Fail> {
    expect_rows(&rt, WRONG, wrong)
}

/// The ID of the epoch 1 and this number.
fn id_shown(alloc: Global, number: &str) -> Result<String, Fail> {
    let id = client_id(alloc, 1, number.parse::<u32>()?)?;
    Ok(str::from_utf8(id.as_slice())?.to_string(alloc)?)
}

#[test]
fn ids_are_of_an_epoch_and_a_number(rt: HostRuntime) -> Result<(), Fail> {
    expect_rows(&rt, "171 => smd-00000001-000000ab", id_shown)
}

fn doing(what: &str) -> Doing {
    match what {
        "idle" => Doing::Idle,
        "saving" => Doing::Saving,
        "shutdown" => Doing::ShuttingDown,
        _ => Doing::Ending,
    }
}

/// The line that tells what a session is at.
fn status_shown(alloc: Global, what: &str) -> Result<String, Fail> {
    let status = Status {
        connections: 2,
        records: 31,
        pending: 0,
        epoch: 7,
        doing: doing(what),
    };
    text_of(
        alloc,
        &str::from_utf8(status_line(alloc, &status)?.as_slice())?,
    )
}

const STATUS: &str = "\
idle => \"connections 2, records 31, pending 0, epoch 7, idle\"
saving => \"connections 2, records 31, pending 0, epoch 7, saving\"
shutdown => \"connections 2, records 31, pending 0, epoch 7, shutdown\"
ending => \"connections 2, records 31, pending 0, epoch 7, ending\"";

#[test]
fn the_status_is_one_line(rt: HostRuntime) -> Result<(), Fail> {
    expect_rows(&rt, STATUS, status_shown)
}
