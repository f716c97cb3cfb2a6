use crate::links::{Paths, dial, joins, open, room, sends, ticks};
use sm_world::{Event, Links};
use std::io::Write;
use std::os::unix::net::UnixStream;
use std::process::Abort;
use std::test::Fail;
use std::thread;
use std::time::{Duration, Instant};
use unix_links::{LinkOptions, SocketLinks};
use world_time::Ticking;

/// What a client is told that is let in and asked to save itself: ByteOrder, ConnectionReply without
/// names, ProtocolReply with the major opcode 2, and SaveYourself.
const ASKED: &[u8] = b"\0\x01\0\0\0\0\0\0\0\x06\0\0\0\0\0\0\
    \0\x08\0\x02\x01\0\0\0\0\0\0\0\0\0\0\0\
    \x02\x03\0\0\x01\0\0\0\0\x01\x02\0\0\0\0\0";

/// Links that listen there, at which a client has a patience of so many milliseconds.
fn patient(rt: HostRuntime, paths: &Paths, patience: u64) -> Result<SocketLinks, Fail> {
    let mut options = LinkOptions::new();
    options.patience = patience;
    let mut links = SocketLinks::with_options(rt, options);
    match links.listen(paths.socket.as_str(), paths.control.as_str()) {
        Ok(()) => Ok(links),
        Err(_) => Err("nobody listens".into()),
    }
}

/// The first client, who is asked to save itself.
fn asked(
    rt: HostRuntime,
    test: &impl Abort,
    paths: &Paths,
    links: &mut SocketLinks,
) -> Result<UnixStream, Fail> {
    let client = dial(rt, paths.socket.as_str())?;
    assert!(test; joins(links, 1));
    assert!(test; sends(links, 1, ASKED));
    Ok(client)
}

/// Whether the first client is heard next, and no time is told before.
fn is_heard(links: &mut SocketLinks) -> bool {
    matches!(links.next(), Ok(Event::Piece(1, _)))
}

fn stand_still(rt: HostRuntime, milliseconds: u64) {
    thread::sleep(&rt, Duration::from_millis(milliseconds));
}

#[test]
fn time_is_told_while_a_client_is_waited_for(rt: HostRuntime) -> Result<(), Fail> {
    let paths = room(rt, "waited")?;
    let mut links = patient(rt, &paths, 60_000)?;
    let _client = asked(rt, &rt, &paths, &mut links)?;
    assert!(rt; ticks(&mut links));
    assert!(rt; ticks(&mut links));
    links.close();
    Ok(())
}

#[test]
fn nobody_is_told_the_time_who_does_not_wait(rt: HostRuntime) -> Result<(), Fail> {
    let paths = room(rt, "unwaited")?;
    let mut links = patient(rt, &paths, 0)?;
    stand_still(rt, 300);
    let mut client = asked(rt, &rt, &paths, &mut links)?;
    stand_still(rt, 300);
    client.write_all(b"x")?;
    assert!(rt; is_heard(&mut links));
    links.close();
    Ok(())
}

#[test]
fn who_has_spoken_is_heard_before_the_time(rt: HostRuntime) -> Result<(), Fail> {
    let paths = room(rt, "spoken")?;
    let mut links = patient(rt, &paths, 300)?;
    let mut client = asked(rt, &rt, &paths, &mut links)?;
    assert!(rt; ticks(&mut links));
    stand_still(rt, 400);
    client.write_all(b"x")?;
    assert!(rt; is_heard(&mut links));
    links.close();
    Ok(())
}

#[test]
fn a_tick_tells_half_a_second_at_most(rt: HostRuntime) -> Result<(), Fail> {
    let paths = room(rt, "half")?;
    let mut links = open(rt, &paths)?;
    stand_still(rt, 700);
    let _client = dial(rt, paths.socket.as_str())?;
    assert!(rt; matches!(links.next(), Ok(Event::Tick(500))));
    assert!(rt; matches!(links.next(), Ok(Event::Joined(1))));
    links.close();
    Ok(())
}

#[test]
fn what_went_by_before_a_question_is_not_told_behind_it(rt: HostRuntime) -> Result<(), Fail> {
    let paths = room(rt, "question")?;
    let mut links = open(rt, &paths)?;
    let _client = dial(rt, paths.socket.as_str())?;
    assert!(rt; joins(&mut links, 1));
    stand_still(rt, 400);
    let asked = Instant::now(&rt)?;
    assert!(rt; sends(&mut links, 1, ASKED));
    let Ok(Event::Tick(passed)) = links.next() else {
        return Err("no tick".into());
    };
    let now = Instant::now(&rt)?;
    assert!(rt; u128::from(passed) <= now.saturating_duration_since(asked).as_millis());
    links.keep_ticking(false);
    links.close();
    Ok(())
}
