//! Files without memory.

use crate::wrapping::{peer, status_of};
use std::test::Fail;
use worked_values::Starved;

#[test]
fn want_of_memory_has_its_status(rt: HostRuntime) -> Result<(), Fail> {
    let words = "--socket /p --authority /a --state /s --from 0 -- e";
    let mut peer = peer(rt.alloc(), "-", 0)?;
    let status = status_of(rt.alloc(), words, &mut peer, &mut Starved, 1000)?;
    assert_eq!(rt; status, 10);
    Ok(())
}
