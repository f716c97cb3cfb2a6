use crate::links::{Paths, dial, goes, is_at_end, joins, open, room, sends};
use std::os::unix::net::UnixStream;
use std::process::Abort;
use std::test::Fail;
use unix_links::SocketLinks;

/// What a client is sent that is let in: ByteOrder, and ConnectionReply without names.
const LET_IN: &[u8] = b"\0\x01\0\0\0\0\0\0\0\x06\0\0\0\0\0\0";

/// So many peers of whom nobody was let in, and who have the numbers from 1 on.
fn crowd(
    rt: HostRuntime,
    test: &impl Abort,
    paths: &Paths,
    links: &mut SocketLinks,
    count: u32,
) -> Result<Vec<UnixStream>, Fail> {
    let mut strangers = Vec::new(rt.alloc());
    for number in 1..=count {
        strangers.push(dial(rt, paths.socket.as_str())?)?;
        assert!(test; joins(links, number));
    }
    Ok(strangers)
}

fn make_way(
    rt: HostRuntime,
    test: &impl Abort,
    paths: &Paths,
    links: &mut SocketLinks,
) -> Result<(), Fail> {
    let mut strangers = crowd(rt, test, paths, links, 32)?;
    assert!(test; sends(links, 1, LET_IN));
    let _one_more = dial(rt, paths.socket.as_str())?;
    assert!(test; joins(links, 33));
    let _another = dial(rt, paths.socket.as_str())?;
    assert!(test; goes(links, 2));
    assert!(test; joins(links, 34));
    if let Some(second) = strangers.get_mut(1) {
        assert!(test; is_at_end(second)?);
    }
    Ok(())
}

#[test]
fn the_oldest_stranger_makes_way(rt: HostRuntime) -> Result<(), Fail> {
    let paths = room(rt, "crowd")?;
    let mut links = open(rt, &paths)?;
    make_way(rt, &rt, &paths, &mut links)?;
    links.close();
    Ok(())
}

/// So many peers who are let in.
fn insiders(
    rt: HostRuntime,
    test: &impl Abort,
    paths: &Paths,
    links: &mut SocketLinks,
    count: u32,
) -> Result<Vec<UnixStream>, Fail> {
    let mut insiders = Vec::new(rt.alloc());
    for number in 1..=count {
        insiders.push(dial(rt, paths.socket.as_str())?)?;
        assert!(test; joins(links, number));
        assert!(test; sends(links, number, LET_IN));
    }
    Ok(insiders)
}

fn stay(
    rt: HostRuntime,
    test: &impl Abort,
    paths: &Paths,
    links: &mut SocketLinks,
) -> Result<(), Fail> {
    let _insiders = insiders(rt, test, paths, links, 64)?;
    let _stranger = dial(rt, paths.socket.as_str())?;
    assert!(test; joins(links, 65));
    let _another = dial(rt, paths.socket.as_str())?;
    assert!(test; goes(links, 65));
    assert!(test; joins(links, 66));
    Ok(())
}

#[test]
fn who_was_let_in_makes_way_for_nobody(rt: HostRuntime) -> Result<(), Fail> {
    let paths = room(rt, "inside")?;
    let mut links = open(rt, &paths)?;
    stay(rt, &rt, &paths, &mut links)?;
    links.close();
    Ok(())
}

#[test]
fn a_stranger_is_dropped_in_the_end(rt: HostRuntime) -> Result<(), Fail> {
    let paths = room(rt, "strange")?;
    let mut links = open(rt, &paths)?;
    let mut strangers = crowd(rt, &rt, &paths, &mut links, 3)?;
    assert!(rt; sends(&mut links, 2, LET_IN));
    assert!(rt; goes(&mut links, 1));
    assert!(rt; goes(&mut links, 3));
    if let Some(first) = strangers.get_mut(0) {
        assert!(rt; is_at_end(first)?);
    }
    links.close();
    Ok(())
}
