//! Rounds of a few connections, by cases written down by hand.

use round_agreement::Round;
use sm_world::{Conn, ConnList};
use std::alloc::{Alloc, Global};
use std::process::Abort;
use std::test::Fail;
use worked_values::{checkpoint, half_done, second_phase, three};

fn shows(
    rt: &(impl Abort + Alloc<A = Global>),
    round: &Round,
    members: &[Conn],
    two_ready: bool,
    agreed: bool,
) -> Result<(), Fail> {
    assert_eq!(rt; round.members(), members);
    assert_eq!(rt; round.two_ready(), two_ready);
    assert_eq!(rt; round.agreed(), agreed);
    Ok(())
}

#[test]
fn a_round_begins_with_all_saving(rt: HostRuntime) -> Result<(), Fail> {
    let round = three(rt.alloc())?;
    assert_eq!(rt; round.wanted() == &checkpoint(), true);
    assert_eq!(rt; round.deserted(), false);
    shows(&rt, &round, &[1, 2, 3], false, false)
}

#[test]
fn the_second_phase_waits_for_all_others(rt: HostRuntime) -> Result<(), Fail> {
    let round = half_done(rt.alloc())?;
    assert_eq!(rt; round.succeeded(1), true);
    assert_eq!(rt; round.succeeded(2), false);
    assert_eq!(rt; round.succeeded(3), false);
    shows(&rt, &round, &[1, 2, 3], true, false)
}

#[test]
fn all_agree_when_the_second_phase_is_done(rt: HostRuntime) -> Result<(), Fail> {
    let mut round = second_phase(rt.alloc())?;
    shows(&rt, &round, &[1, 2], false, false)?;
    round.done(2, true);
    shows(&rt, &round, &[1, 2], false, true)
}

#[test]
fn a_cancelled_round_tells_who_is_not_done(rt: HostRuntime) -> Result<(), Fail> {
    let mut round = three(rt.alloc())?;
    round.done(2, true);
    assert_eq!(rt; round.cancel().as_slice(), [1, 3].as_slice());
    Ok(())
}

#[test]
fn a_round_that_all_left_is_deserted(rt: HostRuntime) -> Result<(), Fail> {
    let mut round = three(rt.alloc())?;
    round.leave(1);
    round.leave(2);
    round.leave(3);
    assert_eq!(rt; round.deserted(), true);
    shows(&rt, &round, &[], false, false)
}

#[test]
fn a_round_that_began_empty_agrees(rt: HostRuntime) -> Result<(), Fail> {
    let alloc = rt.alloc();
    let round = Round::begin(alloc, ConnList::new(alloc), checkpoint())?;
    assert_eq!(rt; round.deserted(), false);
    shows(&rt, &round, &[], false, true)
}
