use std::test::Fail;
use stream_watch::{Place, Visitors};

/// The first bytes of what a client is sent that is let in, and the rest: ByteOrder and ConnectionReply.
const FRONT: &[u8] = b"\0\x01\0\0\0\0\0\0\0\x06\0\0";

const REST: &[u8] = b"\0\0\0\0";

/// Die of XSMP.
const DIE: &[u8] = b"\x01\x09\0\0\0\0\0\0";

/// So many who come at this moment, and have the numbers from 1 on.
fn crowd(rt: HostRuntime, count: u32, now: u64) -> Result<Visitors, Fail> {
    let mut visitors = Visitors::new(rt.alloc());
    for conn in 1..=count {
        visitors.join(conn, now)?;
    }
    Ok(visitors)
}

#[test]
fn the_first_stranger_makes_way(rt: HostRuntime) -> Result<(), Fail> {
    let mut visitors = crowd(rt, 32, 100)?;
    assert_eq!(rt; visitors.place_for_one_more(349), Place::Later);
    assert_eq!(rt; visitors.place_for_one_more(350), Place::Of(1));
    visitors.leave(1);
    assert_eq!(rt; visitors.place_for_one_more(350), Place::Free);
    assert_eq!(rt; visitors.place_of_first(350), Place::Of(2));
    assert_eq!(rt; visitors.overdue(10_099), None);
    assert_eq!(rt; visitors.overdue(10_100), Some(2));
    Ok(())
}

#[test]
fn who_is_let_in_is_no_stranger(rt: HostRuntime) -> Result<(), Fail> {
    let mut visitors = crowd(rt, 2, 0)?;
    visitors.follow(1, 10, FRONT)?;
    assert_eq!(rt; visitors.place_of_first(250), Place::Of(1));
    visitors.follow(1, 20, REST)?;
    assert_eq!(rt; visitors.place_of_first(250), Place::Of(2));
    visitors.follow(1, 30, DIE)?;
    assert_eq!(rt; visitors.lingering(129, 100), None);
    assert_eq!(rt; visitors.lingering(130, 100), Some(1));
    Ok(())
}
