use sm_world::{Event, Failure, Links, Order};
use std::io::{ErrorKind, Read, Write};
use std::os::unix::net::{UnixListener, UnixStream};
use std::process::{Abort, Child, Command, Stdio};
use std::test::Fail;
use std::time::Duration;
use std::{env, fs, io, process, thread};
use unix_links::SocketLinks;
use world_time::Ticking;

/// The paths of a test's sockets.
#[derive(Drop)]
pub struct Paths {
    pub socket: String,
    pub control: String,
}

pub fn room(rt: HostRuntime, name: &str) -> Result<Paths, Fail> {
    let folder = env::temp_dir(&rt)?;
    let folder = folder.as_path().as_str();
    let id = process::id(rt.process());
    let socket = format!(in rt.alloc(); "{folder}/{name}-{id}")?;
    Ok(paths_at(rt, socket)?)
}

/// This path, and that of the control socket beside it.
fn paths_at(rt: HostRuntime, socket: String) -> io::Result<Paths> {
    let control = format!(in rt.alloc(); "{socket}-orders")?;
    Ok(Paths { socket, control })
}

/// Links that listen there, of which somebody wants to be told the time.
pub fn open(rt: HostRuntime, paths: &Paths) -> io::Result<SocketLinks> {
    let mut links = SocketLinks::new(rt);
    links.keep_ticking(true);
    match links.listen(paths.socket.as_str(), paths.control.as_str()) {
        Ok(()) => Ok(links),
        Err(_) => Err(io::Error::from(ErrorKind::AddrInUse)),
    }
}

/// A peer, whose reads end after some seconds where nothing comes.
pub fn dial(rt: HostRuntime, path: &str) -> Result<UnixStream, Fail> {
    let stream = UnixStream::connect(&rt, path)?;
    stream.set_read_timeout(Some(Duration::from_secs(10)))?;
    Ok(stream)
}

/// Whether these bytes come to a peer next.
pub fn reads(peer: &mut UnixStream, want: &[u8]) -> io::Result<bool> {
    let mut came = [0u8; 32];
    let room = &mut came[..want.len().min(32)];
    peer.read_exact(room)?;
    Ok(&*room == want)
}

/// Whether a peer's stream is at its end.
pub fn is_at_end(peer: &mut UnixStream) -> io::Result<bool> {
    let mut came = [0u8; 1];
    Ok(peer.read(&mut came)? == 0)
}

/// The next event that isn't a tick, and the end where there is none.
fn next(links: &mut SocketLinks) -> Event {
    for _ in 0..100 {
        match links.next() {
            Ok(Event::Tick(_)) => {}
            Ok(event) => return event,
            Err(_) => break,
        }
    }
    Event::End
}

/// Whether this one joins next.
pub fn joins(links: &mut SocketLinks, number: u32) -> bool {
    matches!(next(links), Event::Joined(conn) if conn == number)
}

/// Whether this one is gone next.
pub fn goes(links: &mut SocketLinks, number: u32) -> bool {
    matches!(next(links), Event::Gone(conn) if conn == number)
}

/// Whether this one says these bytes next.
pub fn says(links: &mut SocketLinks, number: u32, text: &[u8]) -> bool {
    match &next(links) {
        Event::Piece(conn, bytes) => *conn == number && bytes.as_slice() == text,
        _ => false,
    }
}

/// Whether this one says something next.
fn speaks(links: &mut SocketLinks, number: u32) -> bool {
    matches!(next(links), Event::Piece(conn, _) if conn == number)
}

/// Whether an operator asks next how the session stands.
fn asks_status(links: &mut SocketLinks) -> bool {
    matches!(next(links), Event::Operator(Order::Status))
}

/// Whether an operator asks next that this connection is dropped.
fn asks_drop(links: &mut SocketLinks, number: u32) -> bool {
    matches!(next(links), Event::Operator(Order::DropConn(conn)) if conn == number)
}

/// How much time the next event tells.
fn passed(links: &mut SocketLinks) -> u64 {
    match links.next() {
        Ok(Event::Tick(passed)) => passed,
        _ => 0,
    }
}

/// Whether a quarter of a second is told now, and nothing else.
pub fn ticks(links: &mut SocketLinks) -> bool {
    let mut told = 0u64;
    for _ in 0..250 {
        match passed(links) {
            0 => return false,
            passed => told = told.saturating_add(passed),
        }
        if told >= 250 {
            return true;
        }
    }
    false
}

/// Whether this is sent.
pub fn sends(links: &mut SocketLinks, number: u32, bytes: &[u8]) -> bool {
    links.send(number, bytes) == Ok(())
}

/// Whether this one is shut.
pub fn shuts(links: &mut SocketLinks, number: u32) -> bool {
    links.shut(number) == Ok(())
}

fn refuses(rt: HostRuntime, socket: &str, control: &str) -> bool {
    SocketLinks::new(rt).listen(socket, control) == Err(Failure::Failed)
}

fn come_and_go(
    rt: HostRuntime,
    test: &impl Abort,
    paths: &Paths,
    links: &mut SocketLinks,
) -> Result<(), Fail> {
    let mut first = dial(rt, paths.socket.as_str())?;
    assert!(test; joins(links, 1));
    first.write_all(b"hello")?;
    assert!(test; says(links, 1, b"hello"));
    assert!(test; sends(links, 1, b"good "));
    assert!(test; sends(links, 1, b"day"));
    assert!(test; ticks(links));
    assert!(test; reads(&mut first, b"good day")?);
    first.write_all(b"bye")?;
    drop(first);
    assert!(test; says(links, 1, b"bye"));
    assert!(test; goes(links, 1));
    let mut second = dial(rt, paths.socket.as_str())?;
    assert!(test; joins(links, 2));
    assert!(test; shuts(links, 2));
    assert!(test; is_at_end(&mut second)?);
    Ok(())
}

#[test]
fn clients_come_speak_and_go(rt: HostRuntime) -> Result<(), Fail> {
    let paths = room(rt, "clients")?;
    let mut links = open(rt, &paths)?;
    come_and_go(rt, &rt, &paths, &mut links)?;
    links.close();
    assert_eq!(rt; fs::exists(&rt, paths.socket.as_str())?, false);
    assert_eq!(rt; fs::exists(&rt, paths.control.as_str())?, false);
    Ok(())
}

fn order(
    rt: HostRuntime,
    test: &impl Abort,
    paths: &Paths,
    links: &mut SocketLinks,
) -> Result<(), Fail> {
    let mut first = dial(rt, paths.control.as_str())?;
    let mut second = dial(rt, paths.control.as_str())?;
    first.write_all(b"nonsense\nclients\nstatus\nshut")?;
    assert!(test; asks_status(links));
    links.answer(b"idle\n");
    second.write_all(b"drop 7\n")?;
    assert!(test; asks_drop(links, 7));
    links.answer(b"no connection\n");
    assert!(test; reads(&mut first, b"bad order\nclients 0\nidle\n")?);
    assert!(test; reads(&mut second, b"no connection\n")?);
    Ok(())
}

#[test]
fn orders_are_answered_where_they_came_from(rt: HostRuntime) -> Result<(), Fail> {
    let paths = room(rt, "orders")?;
    let mut links = open(rt, &paths)?;
    order(rt, &rt, &paths, &mut links)?;
    links.close();
    Ok(())
}

#[test]
fn a_quarter_of_a_second_is_told(rt: HostRuntime) -> Result<(), Fail> {
    let paths = room(rt, "ticks")?;
    let mut links = open(rt, &paths)?;
    assert!(rt; ticks(&mut links));
    links.close();
    Ok(())
}

fn stay_deaf(
    rt: HostRuntime,
    test: &impl Abort,
    paths: &Paths,
    links: &mut SocketLinks,
) -> Result<(), Fail> {
    let _client = dial(rt, paths.socket.as_str())?;
    assert!(test; joins(links, 1));
    let bytes = vec![in rt.alloc(); 0u8; 65_536]?;
    for _ in 0..32 {
        assert!(test; sends(links, 1, bytes.as_slice()));
    }
    assert!(test; goes(links, 1));
    Ok(())
}

#[test]
fn who_does_not_read_is_dropped(rt: HostRuntime) -> Result<(), Fail> {
    let paths = room(rt, "deaf")?;
    let mut links = open(rt, &paths)?;
    stay_deaf(rt, &rt, &paths, &mut links)?;
    links.close();
    Ok(())
}

#[test]
fn bad_paths_are_refused(rt: HostRuntime) -> Result<(), Fail> {
    let paths = room(rt, "paths")?;
    let (socket, control) = (paths.socket.as_str(), paths.control.as_str());
    let long = format!(in rt.alloc(); "/run/{:0>103}", 0)?;
    for bad in [
        "",
        "sock",
        "/run/a:b",
        "/run/a,b",
        "/no such folder/s",
        long.as_str(),
    ] {
        assert!(rt; refuses(rt, bad, control));
    }
    assert!(rt; refuses(rt, socket, "/no such folder/c"));
    assert_eq!(rt; fs::exists(&rt, socket)?, false);
    Ok(())
}

#[test]
fn only_a_dead_socket_is_taken_over(rt: HostRuntime) -> Result<(), Fail> {
    let paths = room(rt, "taken")?;
    let (socket, control) = (paths.socket.as_str(), paths.control.as_str());
    fs::write(&rt, socket, "mine")?;
    assert!(rt; refuses(rt, socket, control));
    assert_eq!(rt; fs::read_to_string(&rt, socket)?.as_str(), "mine");
    fs::remove_file(&rt, socket)?;
    let other = UnixListener::bind(&rt, socket)?;
    assert!(rt; refuses(rt, socket, control));
    // A listener that is gone leaves its file.
    drop(other);
    let mut links = open(rt, &paths)?;
    assert!(rt; refuses(rt, socket, control));
    let _client = dial(rt, socket)?;
    assert!(rt; joins(&mut links, 1));
    links.close();
    Ok(())
}

fn speak_on(
    rt: HostRuntime,
    test: &impl Abort,
    paths: &Paths,
    links: &mut SocketLinks,
) -> Result<(), Fail> {
    let mut client = dial(rt, paths.socket.as_str())?;
    let mut told = 0u64;
    for _ in 0..10_000_000 {
        client.write_all(b"x")?;
        told = told.saturating_add(passed(links));
        if told >= 250 {
            break;
        }
    }
    assert!(test; told >= 250);
    Ok(())
}

#[test]
fn time_is_told_while_a_client_speaks(rt: HostRuntime) -> Result<(), Fail> {
    let paths = room(rt, "busy")?;
    let mut links = open(rt, &paths)?;
    speak_on(rt, &rt, &paths, &mut links)?;
    links.close();
    Ok(())
}

fn flood(
    rt: HostRuntime,
    test: &impl Abort,
    paths: &Paths,
    links: &mut SocketLinks,
) -> Result<(), Fail> {
    let mut first = dial(rt, paths.socket.as_str())?;
    let mut second = dial(rt, paths.socket.as_str())?;
    assert!(test; joins(links, 1));
    assert!(test; joins(links, 2));
    let many = vec![in rt.alloc(); b'a'; 100_000]?;
    first.write_all(many.as_slice())?;
    second.write_all(b"b")?;
    let whole = &many[..65_536];
    assert!(test; says(links, 1, whole));
    assert!(test; says(links, 2, b"b"));
    assert!(test; says(links, 1, &many[65_536..]));
    Ok(())
}

#[test]
fn a_client_with_much_to_say_lets_others_in(rt: HostRuntime) -> Result<(), Fail> {
    let paths = room(rt, "flood")?;
    let mut links = open(rt, &paths)?;
    flood(rt, &rt, &paths, &mut links)?;
    links.close();
    Ok(())
}

/// Bytes that all differ from their neighbours.
fn many(rt: HostRuntime, count: usize) -> io::Result<Vec<u8>> {
    let mut bytes = Vec::new(rt.alloc());
    for at in 0..count {
        bytes.push((at % 251) as u8)?;
    }
    Ok(bytes)
}

/// Reads what comes to a client until so many bytes are there, or the stream ends. It reads only
/// what is there, and lets the links go on for a moment then.
fn heard(
    rt: HostRuntime,
    links: &mut SocketLinks,
    client: &mut UnixStream,
    count: usize,
) -> io::Result<Vec<u8>> {
    client.set_nonblocking(true)?;
    let mut all = Vec::new(rt.alloc());
    // All that a socket holds is read at once: who is shut has a second to take what is left behind it.
    let mut chunk = vec![in rt.alloc(); 0u8; 1_000_000]?;
    for _ in 0..10_000 {
        if all.len() >= count {
            break;
        }
        match client.read(&mut chunk) {
            Ok(0) => break,
            Ok(length) => all.extend_from_slice(&chunk[..length.min(1_000_000)])?,
            Err(_) => drop(links.next()),
        }
    }
    client.set_nonblocking(false)?;
    Ok(all)
}

fn take_much(
    rt: HostRuntime,
    test: &impl Abort,
    paths: &Paths,
    links: &mut SocketLinks,
) -> Result<(), Fail> {
    let mut client = dial(rt, paths.socket.as_str())?;
    assert!(test; joins(links, 1));
    let half = many(rt, 450_000)?;
    assert!(test; sends(links, 1, half.as_slice()));
    assert!(test; sends(links, 1, half.as_slice()));
    let all = heard(rt, links, &mut client, 900_000)?;
    assert_eq!(test; all.len(), 900_000);
    assert!(test; all.starts_with(half.as_slice()) && all.ends_with(half.as_slice()));
    Ok(())
}

#[test]
fn more_than_a_socket_holds_is_delivered(rt: HostRuntime) -> Result<(), Fail> {
    let paths = room(rt, "much")?;
    let mut links = open(rt, &paths)?;
    take_much(rt, &rt, &paths, &mut links)?;
    links.close();
    Ok(())
}

fn take_what_was_sent(
    rt: HostRuntime,
    test: &impl Abort,
    paths: &Paths,
    links: &mut SocketLinks,
) -> Result<(), Fail> {
    let mut client = dial(rt, paths.socket.as_str())?;
    assert!(test; joins(links, 1));
    let bytes = many(rt, 300_000)?;
    assert!(test; sends(links, 1, bytes.as_slice()));
    assert!(test; shuts(links, 1));
    let all = heard(rt, links, &mut client, 300_001)?;
    assert!(test; all == bytes);
    Ok(())
}

#[test]
fn who_is_shut_gets_what_was_sent(rt: HostRuntime) -> Result<(), Fail> {
    let paths = room(rt, "shut")?;
    let mut links = open(rt, &paths)?;
    take_what_was_sent(rt, &rt, &paths, &mut links)?;
    links.close();
    Ok(())
}

/// Writes again and again, while the links go on, until so many milliseconds are told.
fn write_on(links: &mut SocketLinks, client: &mut UnixStream, time: u64) -> io::Result<()> {
    let mut told = 0u64;
    while told < time {
        client.write_all(&[7; 10_000])?;
        told = told.saturating_add(passed(links));
    }
    Ok(())
}

fn read_why(
    rt: HostRuntime,
    test: &impl Abort,
    paths: &Paths,
    links: &mut SocketLinks,
) -> Result<(), Fail> {
    let mut client = dial(rt, paths.socket.as_str())?;
    assert!(test; joins(links, 1));
    client.write_all(&[7; 70_000])?;
    assert!(test; speaks(links, 1));
    assert!(test; sends(links, 1, b"why"));
    assert!(test; shuts(links, 1));
    write_on(links, &mut client, 500)?;
    let mut why = [0u8; 3];
    client.read_exact(&mut why)?;
    assert_eq!(test; &why, b"why");
    assert_eq!(test; client.read(&mut why)?, 0);
    // A second later it is closed.
    assert!(test; write_on(links, &mut client, 2_000).is_err());
    Ok(())
}

#[test]
fn who_is_shut_while_writing_reads_why(rt: HostRuntime) -> Result<(), Fail> {
    let paths = room(rt, "writing")?;
    let mut links = open(rt, &paths)?;
    read_why(rt, &rt, &paths, &mut links)?;
    links.close();
    Ok(())
}

#[test]
fn who_is_shut_may_be_let_go_at_the_end(rt: HostRuntime) -> Result<(), Fail> {
    let paths = room(rt, "last")?;
    let mut links = open(rt, &paths)?;
    let mut client = dial(rt, paths.socket.as_str())?;
    assert!(rt; joins(&mut links, 1));
    client.write_all(b"never heard")?;
    assert!(rt; sends(&mut links, 1, b"why"));
    assert!(rt; shuts(&mut links, 1));
    links.close();
    let mut why = [0u8; 4];
    assert_eq!(rt; client.read(&mut why)?, 3);
    // Nothing was left unread, so this is the end and no reset.
    assert_eq!(rt; client.read(&mut why)?, 0);
    Ok(())
}

#[test]
fn who_is_shut_and_leaves_does_not_hold_up_the_end(rt: HostRuntime) -> Result<(), Fail> {
    let paths = room(rt, "left")?;
    let mut links = open(rt, &paths)?;
    let client = dial(rt, paths.socket.as_str())?;
    assert!(rt; joins(&mut links, 1));
    assert!(rt; shuts(&mut links, 1));
    drop(client);
    links.close();
    assert_eq!(rt; fs::exists(&rt, paths.control.as_str())?, false);
    Ok(())
}

/// The variable that tells a started test at which path it is to listen.
const HELD: &str = "UNIX_LINKS_HELD";

/// No test by itself: another starts it, so that it listens for a second. It leaves its files.
#[test]
fn as_holder(rt: HostRuntime) -> Result<(), Fail> {
    let Ok(socket) = env::var(&rt, HELD) else {
        return Ok(());
    };
    let paths = paths_at(rt, socket)?;
    let _links = open(rt, &paths)?;
    thread::sleep(&rt, Duration::from_secs(1));
    Ok(())
}

/// Starts this program, and waits until it listens.
fn holder(rt: HostRuntime, paths: &Paths) -> io::Result<Child> {
    let mut command = Command::new(rt.alloc(), env::current_exe(&rt)?.as_str())?;
    command.arg("links_tests::links::as_holder")?;
    command.env(HELD, paths.socket.as_str())?;
    command.stdout(Stdio::null());
    let child = command.spawn(&rt)?;
    for _ in 0..500 {
        if fs::exists(&rt, paths.control.as_str())? {
            break;
        }
        thread::sleep(&rt, Duration::from_millis(20));
    }
    Ok(child)
}

#[test]
fn a_path_that_is_let_go_is_taken(rt: HostRuntime) -> Result<(), Fail> {
    let paths = room(rt, "held")?;
    let mut child = holder(rt, &paths)?;
    let mut links = open(rt, &paths)?;
    assert!(rt; child.wait()?.success());
    links.close();
    Ok(())
}
