//! The token among a few connections, by cases written down by hand.

use std::test::Fail;
use worked_values::held;

#[test]
fn one_at_a_time_has_the_token(rt: HostRuntime) -> Result<(), Fail> {
    let mut queue = held(rt.alloc())?;
    assert_eq!(rt; queue.holder(), Some(1));
    assert_eq!(rt; queue.grant(), None);
    queue.release();
    assert_eq!(rt; queue.holder(), None);
    assert_eq!(rt; queue.grant(), Some(2));
    Ok(())
}

#[test]
fn the_token_goes_on_where_its_holder_leaves(rt: HostRuntime) -> Result<(), Fail> {
    let mut queue = held(rt.alloc())?;
    queue.leave(1);
    assert_eq!(rt; queue.grant(), Some(2));
    Ok(())
}

#[test]
fn those_that_wait_get_it_in_their_order(rt: HostRuntime) -> Result<(), Fail> {
    let mut queue = held(rt.alloc())?;
    queue.ask(3);
    queue.leave(2);
    queue.release();
    assert_eq!(rt; queue.grant(), Some(3));
    Ok(())
}

#[test]
fn a_cleared_queue_has_nobody(rt: HostRuntime) -> Result<(), Fail> {
    let mut queue = held(rt.alloc())?;
    queue.clear();
    assert_eq!(rt; queue.holder(), None);
    assert_eq!(rt; queue.grant(), None);
    Ok(())
}
