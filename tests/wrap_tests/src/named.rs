//! Clients without a world, by bytes that the standards give (ICE, chapter 5; XSMP, chapter 10).

use crate::frames::{
    CLOSES, COMPLETE, CONNECTED, CONNECTS, DEMAND, DIE, DONE, FATAL, OPENED, OPENS, ORDER,
    REGISTERED, REGISTERS, SAVE, UNKNOWN,
};
use ice_cookie::Cookie;
use ice_values::Array8;
use named_joiner::{
    HearFault, NamedDies, NamedEnd, NamedJoiner, NamedSaves, pieces_make_no_difference,
};
use std::alloc::{Alloc, Global};
use std::process::Abort;
use std::test::Fail;
use worked_values::{Silent, Steady};

/// The ID of the client in these tests.
const ID: &[u8] = b"smd-00000001-00000001";

/// A client that has said ByteOrder, and saves under this ID.
fn joiner<'a>(
    rt: &(impl Abort + Alloc<A = Global>),
    id: &'a [u8],
) -> Result<NamedJoiner<Steady<'a>, Silent>, Fail> {
    let alloc = rt.alloc();
    let cookie = Cookie([0, 1, 2, 3, 4, 5, 6, 7, 8, 9, 10, 11, 12, 13, 14, 15]);
    let save = Steady { alloc, id };
    let die = Silent { alloc };
    let (joiner, first) = NamedJoiner::new(alloc, cookie, Array8::new(alloc), save, die)?;
    assert_eq!(rt; first.as_slice(), ORDER);
    Ok(joiner)
}

/// A piece brings these bytes, and this end.
fn hears<S: NamedSaves, D: NamedDies>(
    rt: &(impl Abort + Alloc<A = Global>),
    joiner: &mut NamedJoiner<S, D>,
    piece: &[u8],
    bytes: &[u8],
    end: Option<NamedEnd>,
) -> Result<(), Fail> {
    match joiner.hear(piece) {
        Ok(reply) => {
            assert_eq!(rt; reply.bytes.as_slice(), bytes);
            assert_eq!(rt; reply.end, end);
            Ok(())
        }
        Err(_) => panic!(rt; "no reply"),
    }
}

/// A piece brings nothing, for this cause.
fn fails<S: NamedSaves, D: NamedDies>(
    rt: &(impl Abort + Alloc<A = Global>),
    joiner: &mut NamedJoiner<S, D>,
    piece: &[u8],
    fault: HearFault,
) -> Result<(), Fail> {
    match joiner.hear(piece) {
        Ok(_) => panic!(rt; "a reply"),
        Err(found) => {
            assert_eq!(rt; found, fault);
            Ok(())
        }
    }
}

/// The manager lets the client in without asking for the cookie, and gives it an ID.
fn registers<S: NamedSaves, D: NamedDies>(
    rt: &(impl Abort + Alloc<A = Global>),
    joiner: &mut NamedJoiner<S, D>,
) -> Result<(), Fail> {
    hears(rt, joiner, &ORDER[..3], b"", None)?;
    hears(rt, joiner, &ORDER[3..], CONNECTS, None)?;
    hears(rt, joiner, CONNECTED, OPENS, None)?;
    hears(rt, joiner, OPENED, REGISTERS, None)?;
    hears(rt, joiner, REGISTERED, b"", None)
}

/// The client is told to die, and hears nothing behind that.
fn dies<S: NamedSaves, D: NamedDies>(
    rt: &(impl Abort + Alloc<A = Global>),
    joiner: &mut NamedJoiner<S, D>,
) -> Result<(), Fail> {
    hears(rt, joiner, DIE, CLOSES, Some(NamedEnd::Died))?;
    fails(rt, joiner, SAVE, HearFault::Stopped)
}

/// A client that is asked to save and to die.
fn saves_and_dies<S: NamedSaves, D: NamedDies>(
    rt: &(impl Abort + Alloc<A = Global>),
    joiner: &mut NamedJoiner<S, D>,
) -> Result<(), Fail> {
    registers(rt, joiner)?;
    hears(rt, joiner, SAVE, DONE, None)?;
    hears(rt, joiner, COMPLETE, b"", None)?;
    dies(rt, joiner)
}

#[test]
fn a_client_saves_and_dies(rt: HostRuntime) -> Result<(), Fail> {
    let mut joiner = joiner(&rt, ID)?;
    saves_and_dies(&rt, &mut joiner)?;
    let (_save, _die) = joiner.parts();
    pieces_make_no_difference();
    Ok(())
}

/// A client whose callback wants for memory hears nothing more.
fn starves<S: NamedSaves, D: NamedDies>(
    rt: &(impl Abort + Alloc<A = Global>),
    joiner: &mut NamedJoiner<S, D>,
) -> Result<(), Fail> {
    registers(rt, joiner)?;
    fails(rt, joiner, SAVE, HearFault::NoMemory)?;
    fails(rt, joiner, COMPLETE, HearFault::Stopped)
}

#[test]
fn a_callback_without_memory_ends_the_client(rt: HostRuntime) -> Result<(), Fail> {
    let mut joiner = joiner(&rt, b"another")?;
    starves(&rt, &mut joiner)
}

/// This frame in place of the manager's answer ends a client so.
fn ends<S: NamedSaves, D: NamedDies>(
    rt: &(impl Abort + Alloc<A = Global>),
    joiner: &mut NamedJoiner<S, D>,
    frame: &[u8],
    end: NamedEnd,
) -> Result<(), Fail> {
    hears(rt, joiner, ORDER, CONNECTS, None)?;
    hears(rt, joiner, frame, b"", Some(end))?;
    fails(rt, joiner, DEMAND, HearFault::Stopped)
}

#[test]
fn a_fatal_error_ends_a_client(rt: HostRuntime) -> Result<(), Fail> {
    let mut joiner = joiner(&rt, ID)?;
    ends(&rt, &mut joiner, FATAL, NamedEnd::Refused { class: 0x8001 })
}

#[test]
fn a_malformed_frame_ends_a_client(rt: HostRuntime) -> Result<(), Fail> {
    let mut joiner = joiner(&rt, ID)?;
    ends(&rt, &mut joiner, UNKNOWN, NamedEnd::Malformed { at: 8 })
}
