//! The text of each fault's line, written down by hand, and its status.

use crate::worlds::printed;
use owned_lists::Octets;
use program_frame::conclude;
use sm_world::{EventList, SteadyWorld};
use smd_app::Fault;
use std::alloc::Global;
use std::test::Fail;
use test_tables::expect_rows;

const FAULTS: &str = "\
bad words => 1 \"smd: bad words\\n|\"
damaged => 2 \"smd: store damaged at 64\\n|\"
wrong size => 3 \"smd: store has size 7\\n|\"
disk => 4 \"smd: disk fault\\n|\"
links => 5 \"smd: link fault\\n|\"
console => 6 \"\"
bad line => 7 \"smd: bad script line 3\\n|\"
worn => 8 \"smd: store worn\\n|\"
too many sessions => 12 \"smd: too many sessions\\n|\"
spent => 9 \"smd: turns spent\\n|\"
no memory => 10 \"smd: no memory\\n|\"";

/// A fault of what a session stands on.
fn fault_of_a_device(name: &str) -> Option<Fault> {
    match name {
        "damaged" => Some(Fault::Damaged(64)),
        "wrong size" => Some(Fault::WrongSize(7)),
        "disk" => Some(Fault::Disk),
        "links" => Some(Fault::Links),
        "console" => Some(Fault::Console),
        "worn" => Some(Fault::Worn),
        "too many sessions" => Some(Fault::TooManySessions),
        _ => None,
    }
}

/// A fault by its name in the rows.
fn fault_of(name: &str) -> Option<Fault> {
    match name {
        "bad words" => Some(Fault::BadWords),
        "bad line" => Some(Fault::BadLine(3)),
        "spent" => Some(Fault::Spent),
        "no memory" => Some(Fault::NoMemory),
        _ => fault_of_a_device(name),
    }
}

/// A world in which nothing happens.
fn quiet_world(alloc: Global) -> Result<SteadyWorld, Fail> {
    Ok(SteadyWorld::new(
        alloc,
        EventList::new(alloc),
        Octets::new(alloc),
        Octets::new(alloc),
    )?)
}

/// The status of a fault, and its line.
fn shown(alloc: Global, name: &str) -> Result<String, Fail> {
    let Some(fault) = fault_of(name) else {
        return Err("no such fault".into());
    };
    let mut world = quiet_world(alloc)?;
    let status = conclude(alloc, &mut world, Err(fault));
    let line = printed(alloc, world.effects())?;
    Ok(format!(in alloc; "{status} {:?}", str::from_utf8(line.as_slice())?)?)
}

#[test]
fn each_fault_has_its_line_and_its_status(rt: HostRuntime) -> Result<(), Fail> {
    expect_rows(&rt, FAULTS, shown)
}
