use desktop_world::{DesktopWorld, host_name};
use ice_cookie::Cookie;
use owned_lists::NoMemory;
use session_engine::{ServeFault, config_of_default, serve};
use sm_world::{Disk, Failure, Links};
use std::io::{ErrorKind, Read, Write};
use std::os::unix::net::UnixStream;
use std::process::{Child, Command, Stdio};
use std::test::Fail;
use std::time::Duration;
use std::{env, fs, io, process, thread};
use unix_links::LinkOptions;

/// The variable that tells a started test which paths begin how.
const ROOM: &str = "DESKTOP_WORLD_ROOM";

/// For how many milliseconds a client may be silent that is waited for.
const PATIENCE: u64 = 3000;

/// What a client says as it joins with the cookie and registers: its byte order, the set-up, the
/// cookie, the set-up of XSMP, the cookie again, and that it has no ID yet.
const JOINING: &[u8] = b"\0\x01\0\0\0\0\0\0\
    \0\x02\x01\x01\x06\0\0\0\0\0\0\0\0\0\0\0\x03\0MIT\0\0\0\x03\01.0\0\0\0\
    \x12\0MIT-MAGIC-COOKIE-1\x01\0\0\0\
    \0\x04\0\0\x03\0\0\0\x10\0\0\0\0\0\0\0\
    \x07\x07\x07\x07\x07\x07\x07\x07\x07\x07\x07\x07\x07\x07\x07\x07\
    \0\x07\x01\x01\x07\0\0\0\x01\x01\0\0\0\0\0\0\x04\0XSMP\0\0\x03\0MIT\0\0\0\
    \x03\01.0\0\0\0\x12\0MIT-MAGIC-COOKIE-1\x01\0\0\0\
    \0\x04\0\0\x03\0\0\0\x10\0\0\0\0\0\0\0\
    \x07\x07\x07\x07\x07\x07\x07\x07\x07\x07\x07\x07\x07\x07\x07\x07\
    \x01\x01\0\0\x01\0\0\0\0\0\0\0\0\0\0\0";

/// How many bytes it is sent then, of which the last ask it to save.
const JOINED_LEN: usize = 144;

const SAVE_DONE: &[u8] = b"\x01\x08\x01\0\0\0\0\0";

const SAVE_COMPLETE: &[u8] = b"\x01\x12\0\0\0\0\0\0";

const GET_PROPERTIES: &[u8] = b"\x01\x0e\0\0\0\0\0\0";

/// The paths of a test's session.
#[derive(Drop)]
struct Room {
    start: String,
    store: String,
    authority: String,
    socket: String,
    control: String,
}

fn room_at(rt: HostRuntime, start: &str) -> io::Result<Room> {
    let alloc = rt.alloc();
    Ok(Room {
        start: start.to_string(alloc)?,
        store: format!(in alloc; "{start}-store")?,
        authority: format!(in alloc; "{start}-authority")?,
        socket: format!(in alloc; "{start}-clients")?,
        control: format!(in alloc; "{start}-orders")?,
    })
}

fn new_room(rt: HostRuntime, name: &str) -> io::Result<Room> {
    let folder = env::temp_dir(&rt)?;
    let id = process::id(rt.process());
    let start = format!(in rt.alloc(); "{}/{name}-{id}", folder.as_path().as_str())?;
    room_at(rt, start.as_str())
}

fn open(world: &mut DesktopWorld, room: &Room) -> Result<(), Failure> {
    world.attach(room.store.as_str())?;
    world.publish(room.authority.as_str(), b"who may join")?;
    world.listen(room.socket.as_str(), room.control.as_str())
}

/// Runs a session there to its end.
fn run(rt: HostRuntime, room: &Room) -> io::Result<Option<ServeFault>> {
    let mut options = LinkOptions::new();
    options.patience = PATIENCE;
    let mut world = DesktopWorld::with_options(rt, host_name(&rt)?, options);
    if open(&mut world, room).is_err() {
        return Err(io::Error::from(ErrorKind::AddrInUse));
    }
    let config = match config_of_default(rt.alloc(), Cookie([7; 16]), PATIENCE) {
        Ok(config) => config,
        Err(NoMemory) => return Err(io::Error::from(ErrorKind::OutOfMemory)),
    };
    let ended = serve(rt.alloc(), &mut world, config, u64::MAX);
    world.close();
    Ok(ended.err())
}

/// Starts this program with a session there.
fn start(rt: HostRuntime, room: &Room) -> io::Result<Child> {
    let mut command = Command::new(rt.alloc(), env::current_exe(&rt)?.as_str())?;
    command.arg("desktop_sessions::tests::as_manager")?;
    command.env(ROOM, room.start.as_str())?;
    command.stdout(Stdio::null());
    command.spawn(&rt)
}

/// A peer of a manager that may not listen yet. Its reads end after some seconds.
fn dial(rt: HostRuntime, path: &str) -> io::Result<UnixStream> {
    for _ in 0..500 {
        if let Ok(stream) = UnixStream::connect(&rt, path) {
            stream.set_read_timeout(Some(Duration::from_secs(20)))?;
            return Ok(stream);
        }
        thread::sleep(&rt, Duration::from_millis(20));
    }
    Err(io::Error::from(ErrorKind::NotFound))
}

/// Says something and gives what comes back, which has so many bytes.
fn ask(rt: HostRuntime, peer: &mut UnixStream, said: &[u8], count: usize) -> io::Result<Vec<u8>> {
    peer.write_all(said)?;
    let mut answer = vec![in rt.alloc(); 0u8; count]?;
    peer.read_exact(answer.as_mut_slice())?;
    Ok(answer)
}

/// The line that the next manager there answers to these orders.
fn orders(rt: HostRuntime, room: &Room, said: &[u8], count: usize) -> io::Result<Vec<u8>> {
    let mut operator = dial(rt, room.control.as_str())?;
    ask(rt, &mut operator, said, count)
}

/// A client that has joined, and has saved for the first time.
fn join(rt: HostRuntime, room: &Room) -> io::Result<UnixStream> {
    let mut client = dial(rt, room.socket.as_str())?;
    let _ = ask(rt, &mut client, JOINING, JOINED_LEN)?;
    let _ = ask(rt, &mut client, SAVE_DONE, SAVE_COMPLETE.len())?;
    Ok(client)
}

/// Asks for properties four times a second, so often.
fn talk(rt: HostRuntime, client: &mut UnixStream, times: u32) -> io::Result<()> {
    for _ in 0..times {
        thread::sleep(&rt, Duration::from_millis(250));
        let _ = ask(rt, client, GET_PROPERTIES, 16)?;
    }
    Ok(())
}

fn clear(rt: HostRuntime, room: &Room) {
    let _ = fs::remove_file(&rt, room.store.as_str());
    let _ = fs::remove_file(&rt, room.authority.as_str());
}

/// No test by itself: the others start it as their session.
#[test]
fn as_manager(rt: HostRuntime) -> Result<(), Fail> {
    let Ok(start) = env::var(&rt, ROOM) else {
        return Ok(());
    };
    let room = room_at(rt, start.as_str())?;
    assert_eq!(rt; run(rt, &room)?, None);
    Ok(())
}

#[test]
fn a_session_goes_on_after_a_kill(rt: HostRuntime) -> Result<(), Fail> {
    let room = new_room(rt, "killed")?;
    let mut first = start(rt, &room)?;
    let mut client = dial(rt, room.socket.as_str())?;
    // ByteOrder and Ping are answered by ByteOrder and PingReply.
    let asked = b"\0\x01\0\0\0\0\0\0\0\x09\0\0\0\0\0\0";
    let answer = ask(rt, &mut client, asked.as_slice(), 16)?;
    assert_eq!(rt;
        answer.as_slice(),
        b"\0\x01\0\0\0\0\0\0\0\x0a\0\0\0\0\0\0".as_slice()
    );
    let line = b"connections 1, records 0, pending 0, epoch 1, idle\n";
    assert_eq!(rt;
        orders(rt, &room, b"status\n", line.len())?.as_slice(),
        line.as_slice()
    );
    first.kill()?;
    let _ = first.wait()?;
    // What the dead one left is taken over.
    let mut second = start(rt, &room)?;
    let lines = b"bad order\nconnections 0, records 0, pending 0, epoch 2, idle\nok\n";
    let said = b"nonsense\nstatus\nshutdown\n";
    assert_eq!(rt;
        orders(rt, &room, said, lines.len())?.as_slice(),
        lines.as_slice()
    );
    assert!(rt; second.wait()?.success());
    assert_eq!(rt; fs::exists(&rt, room.socket.as_str())?, false);
    assert_eq!(rt; fs::exists(&rt, room.control.as_str())?, false);
    clear(rt, &room);
    Ok(())
}

#[test]
fn one_that_is_silent_is_shut_and_one_that_talks_is_not(rt: HostRuntime) -> Result<(), Fail> {
    let room = new_room(rt, "silent")?;
    let mut manager = start(rt, &room)?;
    let mut silent = join(rt, &room)?;
    let mut talking = join(rt, &room)?;
    assert_eq!(rt;
        orders(rt, &room, b"checkpoint\n", 3)?.as_slice(),
        b"ok\n".as_slice()
    );
    // Both are asked to save.
    let _ = ask(rt, &mut silent, b"", 16)?;
    talk(rt, &mut talking, 16)?;
    let _ = ask(rt, &mut talking, b"", 16)?;
    assert!(rt; ask(rt, &mut silent, b"", 1).is_err());
    assert_eq!(rt;
        ask(rt, &mut talking, SAVE_DONE, SAVE_COMPLETE.len())?.as_slice(),
        SAVE_COMPLETE
    );
    let lines = b"connections 1, records 0, pending 0, epoch 1, idle\nok\nok\n";
    assert_eq!(rt;
        orders(rt, &room, b"status\ndrop 2\nshutdown\n", lines.len())?.as_slice(),
        lines.as_slice()
    );
    assert!(rt; manager.wait()?.success());
    clear(rt, &room);
    Ok(())
}

#[test]
fn a_second_manager_is_refused(rt: HostRuntime) -> Result<(), Fail> {
    let room = new_room(rt, "second")?;
    let mut first = start(rt, &room)?;
    let line = b"connections 0, records 0, pending 0, epoch 1, idle\n";
    assert_eq!(rt;
        orders(rt, &room, b"status\n", line.len())?.as_slice(),
        line.as_slice()
    );
    assert!(rt; run(rt, &room).is_err());
    assert_eq!(rt;
        orders(rt, &room, b"status\nshutdown\n", line.len())?.as_slice(),
        line.as_slice()
    );
    assert!(rt; first.wait()?.success());
    clear(rt, &room);
    Ok(())
}

#[test]
fn a_store_of_another_size_is_refused_untouched(rt: HostRuntime) -> Result<(), Fail> {
    let room = new_room(rt, "small")?;
    fs::write(&rt, room.store.as_str(), "small")?;
    let ended = run(rt, &room)?;
    assert_eq!(rt; ended, Some(ServeFault::WrongSize { size: 5 }));
    assert_eq!(rt;
        fs::read_to_string(&rt, room.store.as_str())?.as_str(),
        "small"
    );
    clear(rt, &room);
    Ok(())
}
