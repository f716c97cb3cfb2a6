//! The talk alone.

use crate::keepers::windows;
use program_keeper::{Move, UserTalk};
use std::alloc::Alloc;
use std::test::Fail;

#[test]
fn a_talk_asks_waits_and_agrees(rt: HostRuntime) -> Result<(), Fail> {
    let alloc = rt.alloc();
    let one = windows(alloc, "1m")?;
    let none = windows(alloc, "")?;
    let mut talk = UserTalk::new(alloc);
    if talk.has_asked() {
        return Err("asked before it began".into());
    }
    if talk.take_turn(alloc, one.as_slice())? != Move::Close(1) || !talk.has_asked() {
        return Err("not asked".into());
    }
    if talk.ping(one.as_slice(), 1_000) != Some(1) {
        return Err("not pinged".into());
    }
    talk.pass(one.as_slice(), 1_000, true);
    talk.disturb();
    if talk.take_turn(alloc, one.as_slice())? != Move::Wait {
        return Err("not waited".into());
    }
    if talk.take_turn(alloc, none.as_slice())? != Move::Agree {
        return Err("not agreed".into());
    }
    Ok(())
}
