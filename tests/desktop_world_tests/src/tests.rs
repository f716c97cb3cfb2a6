use desktop_world::{BadPlaces, DesktopWorld, Places, host_name, random_cookie};
use outer_world::Outer;
use owned_lists::{Command, Octets, OctetsList, PairList};
use sm_world::{Console, Disk, Event, Failure, Links, Spawner};
use std::alloc::Global;
use std::io::{Read, Write};
use std::os::unix::fs::symlink;
use std::os::unix::net::UnixStream;
use std::test::Fail;
use std::time::Duration;
use std::{env, fs, process, thread};
use world_time::Ticking;

fn path_of(rt: HostRuntime, name: &str) -> Result<String, Fail> {
    let folder = env::temp_dir(&rt)?;
    let id = process::id(rt.process());
    Ok(format!(in rt.alloc(); "{}/world-{name}-{id}", folder.as_path().as_str())?)
}

/// A shell that runs this script.
fn shell(alloc: Global, script: &str) -> Result<Command, Failure> {
    let mut words = OctetsList::new(alloc);
    for word in ["sh", "-c", script] {
        words.push(Octets::from_slice(alloc, word.as_bytes())?)?;
    }
    Ok(Command {
        words,
        directory: Octets::new(alloc),
        environment: PairList::new(alloc),
    })
}

/// Waits some seconds for a file with a whole line.
fn line_of(rt: HostRuntime, path: &str) -> Result<String, Fail> {
    for _ in 0..500 {
        match fs::read_to_string(&rt, path) {
            Ok(text) if text.ends_with("\n") => return Ok(text),
            _ => thread::sleep(&rt, Duration::from_millis(20)),
        }
    }
    Ok(String::new(rt.alloc()))
}

/// The next event that isn't a tick, and the end where there is none.
fn next(world: &mut DesktopWorld) -> Event {
    for _ in 0..100 {
        match world.next() {
            Ok(Event::Tick(_)) => {}
            Ok(event) => return event,
            Err(_) => break,
        }
    }
    Event::End
}

#[test]
fn programs_know_where_the_manager_is(rt: HostRuntime) -> Result<(), Fail> {
    let alloc = rt.alloc();
    let (store, authority) = (path_of(rt, "store")?, path_of(rt, "authority")?);
    let (socket, control) = (path_of(rt, "socket")?, path_of(rt, "control")?);
    let mut world = DesktopWorld::new(rt, "host".to_string(alloc)?);
    // Over a new store there is nobody to wait for, and the session goes on with this very store.
    assert_eq!(rt; world.plan_waves(store.as_str(), b"default"), Ok(()));
    assert_eq!(rt; world.attach(store.as_str()), Ok(()));
    assert_eq!(rt; world.size(), Ok(16_777_280));
    assert_eq!(rt; world.publish(authority.as_str(), b"x"), Ok(()));
    assert_eq!(rt; world.listen(socket.as_str(), control.as_str()), Ok(()));
    let said = path_of(rt, "said")?;
    // None of our descriptors is the program's.
    let ours = format!(in alloc; "$(ls -l /proc/$$/fd | grep -c -e eventpoll -e {store})")?;
    let script = format!(in alloc; "echo $SESSION_MANAGER $ICEAUTHORITY {ours} >{said}")?;
    let started = match shell(alloc, script.as_str()) {
        Ok(command) => world.start(&command).ok(),
        Err(_) => None,
    };
    assert_eq!(rt; started, Some(true));
    let wanted = format!(in alloc; "local/host:{socket} {authority} 0\n")?;
    assert_eq!(rt; line_of(rt, said.as_str())?.as_str(), wanted.as_str());
    world.close();
    let lock = format!(in alloc; "{authority}.lock")?;
    for path in [&store, &authority, &lock, &said] {
        fs::remove_file(&rt, path.as_str())?;
    }
    assert_eq!(rt; fs::exists(&rt, socket.as_str())?, false);
    Ok(())
}

#[test]
fn a_line_goes_to_the_operator_who_asked(rt: HostRuntime) -> Result<(), Fail> {
    let (socket, control) = (path_of(rt, "clients")?, path_of(rt, "orders")?);
    let mut world = DesktopWorld::new(rt, host_name(&rt)?);
    assert_eq!(rt; world.listen(socket.as_str(), control.as_str()), Ok(()));
    assert_eq!(rt; world.print(b"before\n"), Ok(()));
    let mut operator = UnixStream::connect(&rt, control.as_str())?;
    operator.set_read_timeout(Some(Duration::from_secs(10)))?;
    operator.write_all(b"status\n")?;
    assert!(rt; matches!(next(&mut world), Event::Operator(_)));
    assert_eq!(rt; world.print(b"idle\n"), Ok(()));
    world.keep_ticking(true);
    assert!(rt; matches!(world.next(), Ok(Event::Tick(_))));
    assert_eq!(rt; world.print(b"later\n"), Ok(()));
    world.close();
    let mut answer = String::new(rt.alloc());
    let _count = operator.read_to_string(&mut answer)?;
    assert_eq!(rt; answer.as_str(), "idle\n");
    Ok(())
}

#[test]
fn the_file_of_the_outer_cookie_is_fetched(rt: HostRuntime) -> Result<(), Fail> {
    let path = path_of(rt, "cookies")?;
    let mut world = DesktopWorld::new(rt, host_name(&rt)?);
    fs::write(&rt, path.as_str(), b"bytes")?;
    assert_eq!(rt;
        world.fetch(rt.alloc(), path.as_str())?.as_slice(),
        b"bytes".as_slice()
    );
    fs::remove_file(&rt, path.as_str())?;
    assert_eq!(rt;
        world.fetch(rt.alloc(), path.as_str()).err(),
        Some(Failure::Failed)
    );
    // Nobody is listened to yet.
    assert_eq!(rt; world.open_outer(path.as_str()), Err(Failure::Failed));
    Ok(())
}

#[test]
fn each_cookie_is_another(rt: HostRuntime) -> Result<(), Fail> {
    assert!(rt; random_cookie(&rt)? != random_cookie(&rt)?);
    Ok(())
}

/// What can't be had at these places: the socket, the control socket, the store, the authority file.
fn fault_at(rt: HostRuntime, paths: [&str; 4]) -> Option<BadPlaces> {
    let [socket, control, store, authority] = paths;
    let places = Places {
        program: "smd",
        socket,
        control,
        store,
        authority,
        record: None,
    };
    places.fault(&rt)
}

/// What can't be had where a session is recorded that has this store.
fn fault_of_record(rt: HostRuntime, store: &str, record: &str) -> Option<BadPlaces> {
    let places = Places {
        program: "smd",
        socket: "/a",
        control: "/b",
        store,
        authority: "/d",
        record: Some(record),
    };
    places.fault(&rt)
}

#[test]
fn the_places_are_four(rt: HostRuntime) -> Result<(), Fail> {
    let files = Some(BadPlaces::Files);
    let sockets = Some(BadPlaces::Sockets);
    assert_eq!(rt; fault_at(rt, ["/a", "/b", "/c", "/d"]), None);
    assert_eq!(rt; fault_at(rt, ["/a", "b", "c", "d"]), None);
    assert_eq!(rt; fault_at(rt, ["/a", "/b", "/c", "/c"]), files);
    assert_eq!(rt; fault_at(rt, ["/a", "/b", "c", "./c"]), files);
    assert_eq!(rt; fault_at(rt, ["/a", "/a", "/c", "/d"]), sockets);
    assert_eq!(rt; fault_at(rt, ["/a", "/b", "//a", "/d"]), sockets);
    assert_eq!(rt; fault_at(rt, ["/a", "/b", "/c", "/b"]), sockets);
    assert_eq!(rt; fault_at(rt, ["/a", "/b", "/no/c", "/none/c"]), None);
    assert_eq!(rt; fault_at(rt, ["a", "/b", "/c", "/d"]), sockets);
    Ok(())
}

#[test]
fn the_record_is_none_of_the_others(rt: HostRuntime) -> Result<(), Fail> {
    let files = Some(BadPlaces::Files);
    let sockets = Some(BadPlaces::Sockets);
    assert_eq!(rt; fault_of_record(rt, "/c", "/e"), None);
    assert_eq!(rt; fault_of_record(rt, "/c", "/a"), sockets);
    assert_eq!(rt; fault_of_record(rt, "/c", "/./b"), sockets);
    assert_eq!(rt; fault_of_record(rt, "/c", "//c"), files);
    assert_eq!(rt; fault_of_record(rt, "c", "./c"), files);
    assert_eq!(rt; fault_of_record(rt, "/c", "/d"), files);
    assert_eq!(rt; fault_of_record(rt, "/c", "/d.lock"), files);
    Ok(())
}

#[test]
fn a_link_leads_to_a_store_that_is_not_there_yet(rt: HostRuntime) -> Result<(), Fail> {
    let (store, link) = (path_of(rt, "coming")?, path_of(rt, "leading")?);
    let (store, link) = (store.as_str(), link.as_str());
    symlink(&rt, store, link)?;
    let pointed = fault_of_record(rt, store, link);
    fs::remove_file(&rt, link)?;
    assert_eq!(rt; pointed, Some(BadPlaces::Files));
    Ok(())
}

#[test]
fn the_store_is_taken_once(rt: HostRuntime) -> Result<(), Fail> {
    let store = path_of(rt, "taken")?;
    let mut world = DesktopWorld::new(rt, host_name(&rt)?);
    assert_eq!(rt;
        world.take_store(store.as_str())?.as_slice().len(),
        16_777_280
    );
    // The session's own attach goes on with it.
    assert_eq!(rt; world.attach(store.as_str()), Ok(()));
    assert_eq!(rt; world.size(), Ok(16_777_280));
    let mut second = DesktopWorld::new(rt, host_name(&rt)?);
    assert_eq!(rt;
        second.take_store(store.as_str()).err(),
        Some(Failure::Failed)
    );
    fs::write(&rt, store.as_str(), b"three")?;
    drop(world);
    assert_eq!(rt; second.take_store(store.as_str())?.as_slice().len(), 0);
    fs::remove_file(&rt, store.as_str())?;
    Ok(())
}

#[test]
fn links_lead_to_one_file(rt: HostRuntime) -> Result<(), Fail> {
    let (store, other) = (path_of(rt, "one")?, path_of(rt, "other")?);
    let (store, other) = (store.as_str(), other.as_str());
    fs::write(&rt, store, "x")?;
    fs::hard_link(&rt, store, other)?;
    let linked = fault_at(rt, ["/a", "/b", store, other]);
    fs::remove_file(&rt, other)?;
    symlink(&rt, store, other)?;
    let pointed = fault_at(rt, ["/a", "/b", other, store]);
    fs::remove_file(&rt, other)?;
    fs::remove_file(&rt, store)?;
    assert_eq!(rt; linked, Some(BadPlaces::Files));
    assert_eq!(rt; pointed, Some(BadPlaces::Files));
    Ok(())
}
