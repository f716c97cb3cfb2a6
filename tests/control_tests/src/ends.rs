//! What becomes of each task, and of a logout that is waited for, over a manager that has given its answers
//! in advance, and then goes.

use owned_lists::{NumberList, Octets};
use sm_world::{Effect, EventList, MemWorld};
use smctl_app::{ControlConnection, Fault, Task, carry_out, wait_for_end};
use std::alloc::{Alloc, Global};
use std::io::{Read, Write};
use std::net::Shutdown;
use std::os::unix::net::{UnixListener, UnixStream};
use std::process::Abort;
use std::test::Fail;
use std::{env, fs, process};
use test_tables::expect_rows;

/// An answer by its name: to the order, to the question who is there, or what the session is at.
fn answer(name: &str) -> &str {
    match name {
        "ok" => "ok\n",
        "busy" => "busy\n",
        "none" => "clients 0\n",
        "one" =>
            "clients 1\nconn=1 holds=no stage=idle logout=no silent=0 asked=none answered=none id=- program=a\n",
        "owing" =>
            "clients 1\nconn=1 holds=yes stage=saving logout=no silent=0 asked=none answered=none id=- program=a\n",
        "leaving" =>
            "clients 1\nconn=1 holds=yes stage=saving logout=yes silent=0 asked=none answered=none id=- program=a\n",
        "idle" => "connections 1, records 1, pending 0, epoch 1, idle\n",
        "saving" => "connections 1, records 1, pending 0, epoch 1, saving\n",
        "ending" => "connections 1, records 1, pending 0, epoch 1, ending\n",
        _ => "what is that\n",
    }
}

/// Gives all answers at once, and ends the stream behind them.
fn answer_all(mut manager: &UnixStream, names: &str) -> Result<(), Fail> {
    for name in names.split(' ') {
        manager.write_all(answer(name).as_bytes())?;
    }
    manager.shutdown(Shutdown::Write)?;
    Ok(())
}

/// A console that keeps what is printed.
fn console(alloc: Global) -> Result<MemWorld, Fail> {
    let nothing = Octets::new(alloc);
    let store = Octets::new(alloc);
    let failing = NumberList::new(alloc);
    Ok(MemWorld::new(alloc, EventList::new(alloc), nothing, store, failing)?)
}

/// All that was printed, with a bar for each end of a line.
fn printed(alloc: Global, console: &MemWorld) -> Result<String, Fail> {
    let mut text = String::new(alloc);
    for effect in console.effects() {
        if let Effect::Printed(bytes) = effect {
            text.push_str(str::from_utf8(bytes.as_slice())?)?;
        }
    }
    Ok(text.replace(alloc, "\n", "|")?)
}

/// A path for the manager's socket.
fn path_of(rt: HostRuntime) -> Result<String, Fail> {
    let folder = env::temp_dir(&rt)?;
    let id = process::id(rt.process());
    Ok(format!(in rt.alloc(); "{}/smctl-end-{id}", folder.as_path().as_str())?)
}

/// A connection to a manager at this path, and the manager's end, which has given these answers.
fn met(rt: HostRuntime, path: &str, names: &str) -> Result<(ControlConnection, UnixStream), Fail> {
    let listener = UnixListener::bind(&rt, path)?;
    let connection = ControlConnection::open(rt, path)?;
    let (manager, _address) = listener.accept()?;
    answer_all(&manager, names)?;
    Ok((connection, manager))
}

/// How a call has ended, what was sent and what was printed.
fn told(
    alloc: Global,
    end: Result<(), Fault>,
    mut manager: UnixStream,
    console: &MemWorld,
) -> Result<String, Fail> {
    let mut sent = String::new(alloc);
    let _count = manager.read_to_string(&mut sent)?;
    let sent = sent.replace(alloc, "\n", "|")?;
    let shown = printed(alloc, console)?;
    Ok(format!(in alloc; "{end:?} {sent} {shown}")?)
}

/// How the waiting ends, what was sent and what was printed, where these are the answers. The manager's
/// socket is left where the names end in a `!`.
fn ended(rt: HostRuntime, input: &str) -> Result<String, Fail> {
    let alloc = rt.alloc();
    let path = path_of(rt)?;
    let is_left = input.ends_with('!');
    let (mut connection, manager) = met(rt, path.as_str(), input.trim_end_matches('!'))?;
    if !is_left {
        fs::remove_file(&rt, path.as_str())?;
    }
    let mut console = console(alloc)?;
    let end = wait_for_end(alloc, &mut connection, &mut console, false);
    if is_left {
        fs::remove_file(&rt, path.as_str())?;
    }
    drop(connection);
    told(alloc, end, manager, &console)
}

const ENDS: &str = "\
ok leaving => Ok(()) shutdown|clients| ok|waiting for a (its save)|
ok leaving! => Err(Gone) shutdown|clients| ok|waiting for a (its save)|
ok one ending => Ok(()) shutdown|clients|status| ok|waiting for the end of the session|
ok leaving none => Ok(()) shutdown|clients|clients|status| ok|waiting for a (its save)|
ok leaving one idle => Err(Cancelled) shutdown|clients|clients|status| ok|waiting for a (its save)|
ok leaving one saving => Err(Cancelled) shutdown|clients|clients|status| ok|waiting for a (its save)|
ok none idle => Err(Cancelled) shutdown|clients|status| ok|
ok owing idle leaving => Ok(()) shutdown|clients|status|clients| ok|waiting for a (its save)|
ok what => Err(Unreadable) shutdown|clients| ok|
busy => Err(Unordered) shutdown| busy|";

#[test]
fn a_logout_ends_as_its_looks_show(rt: HostRuntime) -> Result<(), Fail> {
    expect_rows(&rt, ENDS, |_alloc, input| ended(rt, input))
}

/// A task by its name, or the order with this line.
fn task_of(alloc: Global, name: &str) -> Result<Task, Fail> {
    match name {
        "table" => Ok(Task::Table),
        "plain" => Ok(Task::Plain),
        "logout" => Ok(Task::Logout),
        _ => {
            let mut line = Octets::from_slice(alloc, name.as_bytes())?;
            line.append(b"\n")?;
            Ok(Task::Order(line))
        }
    }
}

/// How a task ends, what was sent and what was printed, where these are the answers.
fn carried_out(rt: HostRuntime, input: &str) -> Result<String, Fail> {
    let alloc = rt.alloc();
    let (name, answers) = input.split_once(": ").ok_or("a task without answers")?;
    let path = path_of(rt)?;
    let (mut connection, manager) = met(rt, path.as_str(), answers)?;
    fs::remove_file(&rt, path.as_str())?;
    let mut console = console(alloc)?;
    let task = task_of(alloc, name)?;
    let end = carry_out(alloc, &task, &mut connection, &mut console, false);
    drop(connection);
    told(alloc, end, manager, &console)
}

const TASKS: &str = "\
drop 3: ok => Ok(()) drop 3| ok|
checkpoint: busy => Ok(()) checkpoint| busy|
plain: one => Ok(()) clients| conn=1 holds=no stage=idle logout=no silent=0 asked=none answered=none id=- program=a|
table: one => Ok(()) clients|    CONN  PROGRAM  STAGE  SILENT  ASKED  ANSWERED  WAITED FOR  ID|   1     a        idle   0.0 s   none   none                  -|
logout: ok leaving => Ok(()) shutdown|clients| ok|waiting for a (its save)|";

#[test]
fn each_task_is_carried_out(rt: HostRuntime) -> Result<(), Fail> {
    expect_rows(&rt, TASKS, |_alloc, input| carried_out(rt, input))
}
