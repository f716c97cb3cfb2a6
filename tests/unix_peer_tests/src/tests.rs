//! A client over a pair of sockets, and over files of the test's own.

use client_peer::{FILE_LIMIT, Peer};
use sm_world::{Console, Failure};
use std::alloc::{Alloc, Global};
use std::io::{Read, Write};
use std::os::unix::net::{UnixListener, UnixStream};
use std::process::{Abort, Child, Command, Stdio};
use std::test::Fail;
use std::time::Duration;
use std::{env, fs, io, process, thread};
use unix_peer::UnixPeer;

/// The next bytes of the stream.
fn gives<P: Peer>(
    rt: &(impl Abort + Alloc<A = Global>),
    peer: &mut P,
    want: &[u8],
) -> Result<(), Fail> {
    let mut room = [0; 16];
    let count = peer.receive(&mut room)?;
    assert_eq!(rt; &room[..count], want);
    Ok(())
}

#[test]
fn bytes_go_both_ways(rt: HostRuntime) -> Result<(), Fail> {
    let (near, mut far) = UnixStream::pair(&rt)?;
    let mut peer = UnixPeer::over(rt, near);
    far.write_all(b"abc")?;
    gives(&rt, &mut peer, b"abc")?;
    peer.deliver(b"de")?;
    let mut heard = [0; 2];
    far.read_exact(&mut heard)?;
    assert_eq!(rt; &heard[..], b"de".as_slice());
    Ok(())
}

#[test]
fn a_stream_ends(rt: HostRuntime) -> Result<(), Fail> {
    let (near, far) = UnixStream::pair(&rt)?;
    let mut peer = UnixPeer::over(rt, near);
    drop(far);
    gives(&rt, &mut peer, b"")?;
    assert_eq!(rt; peer.deliver(b"x").err(), Some(Failure::Failed));
    Ok(())
}

#[test]
fn a_stream_that_is_reset_has_ended(rt: HostRuntime) -> Result<(), Fail> {
    let (near, mut far) = UnixStream::pair(&rt)?;
    let mut peer = UnixPeer::over(rt, near);
    peer.deliver(b"never read")?;
    far.write_all(b"last")?;
    drop(far);
    gives(&rt, &mut peer, b"last")?;
    gives(&rt, &mut peer, b"")
}

/// The variable that tells a started test where it is to read.
const READER: &str = "UNIX_PEER_READER";

/// More than a socket holds.
const MUCH: usize = 2_000_000;

/// Reads what comes, after a while, to its end or to so many bytes, and tells how many came.
fn read_late(rt: HostRuntime, stream: &mut UnixStream) -> io::Result<usize> {
    thread::sleep(&rt, Duration::from_millis(1_500));
    let mut chunk = [0u8; 65_536];
    let mut count: usize = 0;
    for _ in 0..MUCH {
        let length = stream.read(&mut chunk)?;
        count = count.saturating_add(length);
        if length == 0 || count >= MUCH {
            break;
        }
    }
    Ok(count)
}

/// No test by itself: another starts it as a reader, which says `all` where all has come.
#[test]
fn as_late_reader(rt: HostRuntime) -> Result<(), Fail> {
    let Ok(path) = env::var(&rt, READER) else {
        return Ok(());
    };
    let listener = UnixListener::bind(&rt, path.as_str())?;
    let (mut stream, _) = listener.accept()?;
    if read_late(rt, &mut stream)? == MUCH {
        stream.write_all(b"all")?;
    }
    Ok(())
}

/// Starts this program, and waits until it can be connected to.
fn reader(rt: HostRuntime, path: &str) -> io::Result<Child> {
    let mut command = Command::new(rt.alloc(), env::current_exe(&rt)?.as_str())?;
    command.arg("unix_peer_tests::tests::as_late_reader")?;
    command.env(READER, path)?;
    command.stdout(Stdio::null());
    let child = command.spawn(&rt)?;
    for _ in 0..500 {
        if fs::exists(&rt, path)? {
            break;
        }
        thread::sleep(&rt, Duration::from_millis(20));
    }
    // The socket stands before its process listens.
    thread::sleep(&rt, Duration::from_millis(100));
    Ok(child)
}

#[test]
fn more_than_a_socket_holds_is_delivered(rt: HostRuntime) -> Result<(), Fail> {
    let folder = env::temp_dir(&rt)?;
    let id = process::id(rt.process());
    let path = format!(in rt.alloc(); "{}/reader-{id}", folder.as_path().as_str())?;
    let mut child = reader(rt, path.as_str())?;
    let stream = UnixStream::connect(&rt, path.as_str())?;
    // A write that waited for a second takes a part: the rest is for the next one.
    stream.set_write_timeout(Some(Duration::from_secs(1)))?;
    let mut peer = UnixPeer::over(rt, stream);
    let much = vec![in rt.alloc(); b'x'; MUCH]?;
    peer.deliver(much.as_slice())?;
    gives(&rt, &mut peer, b"all")?;
    fs::remove_file(&rt, path.as_str())?;
    assert!(rt; child.wait()?.success());
    Ok(())
}

#[test]
fn a_client_connects_by_its_path(rt: HostRuntime) -> Result<(), Fail> {
    let listener = UnixListener::bind(&rt, "socket")?;
    let mut peer = UnixPeer::new(rt);
    peer.connect("socket")?;
    let (mut far, _) = listener.accept()?;
    far.write_all(b"x")?;
    gives(&rt, &mut peer, b"x")
}

#[test]
fn nobody_is_at_another_path(rt: HostRuntime) -> Result<(), Fail> {
    let mut peer = UnixPeer::new(rt);
    assert_eq!(rt; peer.connect("nobody").err(), Some(Failure::Failed));
    let mut room = [0; 1];
    assert_eq!(rt; peer.receive(&mut room).err(), Some(Failure::Failed));
    assert_eq!(rt; peer.deliver(b"x").err(), Some(Failure::Failed));
    Ok(())
}

#[test]
fn a_file_is_fetched_if_it_is_not_too_long(rt: HostRuntime) -> Result<(), Fail> {
    let full = vec![in rt.alloc(); b'x'; FILE_LIMIT]?;
    let long = vec![in rt.alloc(); b'x'; FILE_LIMIT + 1]?;
    fs::write(&rt, "small", b"bytes")?;
    fs::write(&rt, "full", full.as_slice())?;
    fs::write(&rt, "long", long.as_slice())?;
    let mut peer = UnixPeer::new(rt);
    assert_eq!(rt; peer.fetch("small")?.as_slice(), b"bytes".as_slice());
    assert_eq!(rt; peer.fetch("full")?.len(), FILE_LIMIT);
    assert_eq!(rt; peer.fetch("long").err(), Some(Failure::Failed));
    assert_eq!(rt; peer.fetch("absent").err(), Some(Failure::Failed));
    Ok(())
}

#[test]
fn the_console_is_the_standard_one(rt: HostRuntime) -> Result<(), Fail> {
    let mut peer = UnixPeer::new(rt);
    assert_eq!(rt; peer.print(b"").is_ok(), true);
    assert_eq!(rt; peer.read(&mut [])?, 0);
    Ok(())
}
