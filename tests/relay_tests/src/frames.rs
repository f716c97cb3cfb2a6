ghost use Rattle.std.specs.Prelude.{◌≡◌, ◌≤◌};

use byte_relay::{RespellFault, respell};
use ice_values::{Endian, read_card32};
use owned_lists::Octets;
use std::alloc::Global;
use std::process::Abort;
use std::test::Fail;

/// Spells a frame, least significant byte first, anew; or ends the test.
fn respelled(rt: &(impl Abort + Alloc<A = Global>), frame: &[u8]) -> Result<Octets, RespellFault> {
    let alloc = rt.alloc();
    let mut out = Octets::new(alloc);
    if frame.len() < 8 || frame.len() > 65_544 {
        panic!(rt; "no frame");
    }
    if frame.len() != 8 + 8 * read_card32(Endian::Lsb, &frame[4..]) as usize {
        panic!(rt; "no frame");
    }
    match respell(alloc, Endian::Lsb, frame, Endian::Msb, &mut out) {
        Ok(()) => Ok(out),
        Err(fault) => Err(fault),
    }
}

fn expect_respelled(
    rt: &(impl Abort + Alloc<A = Global>),
    frame: &[u8],
    want: &[u8],
) -> Result<(), Fail> {
    let out = respelled(rt, frame)?;
    assert_eq!(rt; out.as_slice(), want);
    Ok(())
}

#[test]
fn the_place_of_wrong_bytes_is_turned(rt: HostRuntime) -> Result<(), Fail> {
    let frame = [
        1, 0, 3, 128, 3, 0, 0, 0, 3, 1, 0, 0, 7, 0, 0, 0, 8, 0, 0, 0, 1, 0, 0, 0, 5, 170, 187, 0,
        0, 0, 0, 0,
    ];
    let want = [
        1, 0, 128, 3, 0, 0, 0, 3, 3, 1, 0, 0, 0, 0, 0, 7, 0, 0, 0, 8, 0, 0, 0, 1, 5, 170, 187, 0,
        0, 0, 0, 0,
    ];
    expect_respelled(&rt, &frame, &want)
}

#[test]
fn the_length_of_a_text_is_turned(rt: HostRuntime) -> Result<(), Fail> {
    let frame = [
        0, 0, 8, 0, 2, 0, 0, 0, 7, 2, 0, 0, 1, 0, 0, 0, 4, 0, 88, 83, 77, 80, 0, 0,
    ];
    let want = [
        0, 0, 0, 8, 0, 0, 0, 2, 7, 2, 0, 0, 0, 0, 0, 1, 0, 4, 88, 83, 77, 80, 0, 0,
    ];
    expect_respelled(&rt, &frame, &want)
}

#[test]
fn a_text_that_does_not_fit_stays(rt: HostRuntime) -> Result<(), Fail> {
    let frame = [
        0, 0, 4, 0, 2, 0, 0, 0, 7, 2, 0, 0, 1, 0, 0, 0, 7, 0, 1, 2, 3, 4, 5, 6,
    ];
    let want = [
        0, 0, 0, 4, 0, 0, 0, 2, 7, 2, 0, 0, 0, 0, 0, 1, 7, 0, 1, 2, 3, 4, 5, 6,
    ];
    expect_respelled(&rt, &frame, &want)
}

#[test]
fn an_unknown_message_is_unspelled(rt: HostRuntime) -> Result<(), Fail> {
    let frame = [1, 19, 0, 0, 0, 0, 0, 0];
    assert_eq!(&rt; respelled(&rt, &frame).err(), Some(RespellFault::Unspelled));
    Ok(())
}
