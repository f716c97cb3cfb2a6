use crate::links::{
    Paths, dial, goes, is_at_end, joins, open, reads, room, says, sends, shuts, ticks,
};
use sm_world::Failure;
use std::fs;
use std::io::Write;
use std::os::unix::net::{UnixListener, UnixStream};
use std::process::Abort;
use std::test::Fail;
use std::time::Duration;
use unix_links::SocketLinks;

/// The end of an outer manager, to which the links have connected.
fn connected(
    rt: HostRuntime,
    test: &impl Abort,
    paths: &Paths,
    links: &mut SocketLinks,
) -> Result<UnixStream, Fail> {
    let path = format!(in rt.alloc(); "{}-outer", paths.socket)?;
    let listener = UnixListener::bind(&rt, path.as_str())?;
    assert!(test; links.open_outer(path.as_str()) == Ok(()));
    fs::remove_file(&rt, path.as_str())?;
    let (outer, _) = listener.accept()?;
    outer.set_read_timeout(Some(Duration::from_secs(10)))?;
    Ok(outer)
}

fn speak_and_go(
    rt: HostRuntime,
    test: &impl Abort,
    paths: &Paths,
    links: &mut SocketLinks,
) -> Result<(), Fail> {
    let mut outer = connected(rt, test, paths, links)?;
    outer.write_all(b"hello")?;
    assert!(test; says(links, 0, b"hello"));
    assert!(test; sends(links, 0, b"good day"));
    assert!(test; ticks(links));
    assert!(test; reads(&mut outer, b"good day")?);
    let _client = dial(rt, paths.socket.as_str())?;
    assert!(test; joins(links, 1));
    outer.write_all(b"bye")?;
    drop(outer);
    assert!(test; says(links, 0, b"bye"));
    assert!(test; goes(links, 0));
    // Its end is told once.
    assert!(test; ticks(links));
    assert!(test; ticks(links));
    Ok(())
}

#[test]
fn an_outer_manager_speaks_and_goes(rt: HostRuntime) -> Result<(), Fail> {
    let paths = room(rt, "outer")?;
    let mut links = open(rt, &paths)?;
    speak_and_go(rt, &rt, &paths, &mut links)?;
    links.close();
    Ok(())
}

fn shut_out(
    rt: HostRuntime,
    test: &impl Abort,
    paths: &Paths,
    links: &mut SocketLinks,
) -> Result<(), Fail> {
    let mut outer = connected(rt, test, paths, links)?;
    assert!(test; sends(links, 0, b"why"));
    assert!(test; shuts(links, 0));
    assert!(test; reads(&mut outer, b"why")?);
    assert!(test; is_at_end(&mut outer)?);
    outer.write_all(b"never heard")?;
    assert!(test; ticks(links));
    Ok(())
}

#[test]
fn an_outer_manager_that_is_shut_is_heard_no_more(rt: HostRuntime) -> Result<(), Fail> {
    let paths = room(rt, "shut")?;
    let mut links = open(rt, &paths)?;
    shut_out(rt, &rt, &paths, &mut links)?;
    links.close();
    Ok(())
}

fn count_clients(
    rt: HostRuntime,
    test: &impl Abort,
    paths: &Paths,
    links: &mut SocketLinks,
) -> Result<(), Fail> {
    let _outer = connected(rt, test, paths, links)?;
    let mut operator = dial(rt, paths.control.as_str())?;
    operator.write_all(b"clients\n")?;
    assert!(test; ticks(links));
    assert!(test; reads(&mut operator, b"clients 0\n")?);
    Ok(())
}

#[test]
fn an_outer_manager_is_no_client(rt: HostRuntime) -> Result<(), Fail> {
    let paths = room(rt, "counted")?;
    let mut links = open(rt, &paths)?;
    count_clients(rt, &rt, &paths, &mut links)?;
    links.close();
    Ok(())
}

#[test]
fn what_was_sent_reaches_an_outer_manager_at_the_end(rt: HostRuntime) -> Result<(), Fail> {
    let paths = room(rt, "ending")?;
    let mut links = open(rt, &paths)?;
    let mut outer = connected(rt, &rt, &paths, &mut links)?;
    assert!(rt; sends(&mut links, 0, b"good bye"));
    outer.write_all(b"never heard")?;
    links.close();
    assert!(rt; reads(&mut outer, b"good bye")?);
    assert!(rt; is_at_end(&mut outer)?);
    Ok(())
}

#[test]
fn nobody_is_there(rt: HostRuntime) -> Result<(), Fail> {
    let paths = room(rt, "nobody")?;
    let nowhere = "/no such folder/s";
    let mut links = SocketLinks::new(rt);
    assert!(rt; links.open_outer(nowhere) == Err(Failure::Failed));
    let mut links = open(rt, &paths)?;
    assert!(rt; links.open_outer(nowhere) == Err(Failure::Failed));
    assert!(rt; ticks(&mut links));
    links.close();
    Ok(())
}
