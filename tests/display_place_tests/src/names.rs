//! Texts of DISPLAY against what they name, written down by hand.

use display_place::{DisplayName, Place, read_display, socket_names};
use std::alloc::Global;
use std::test::Fail;
use test_tables::{expect_rows, text_of};

fn place_shown(alloc: Global, place: &Place) -> Result<String, Fail> {
    match place {
        Place::Local => Ok("local".to_string(alloc)?),
        Place::Path(path) => {
            let path = str::from_utf8(path.as_slice())?;
            Ok(format!(in alloc; "path {path}")?)
        }
        Place::Host { host, port } => {
            let host = str::from_utf8(host.as_slice())?;
            Ok(format!(in alloc; "port {port} of {host}")?)
        }
    }
}

fn name_shown(alloc: Global, name: &DisplayName) -> Result<String, Fail> {
    let place = place_shown(alloc, &name.place)?;
    let (number, screen) = (name.number, name.screen);
    Ok(format!(in alloc; "{number}.{screen} {place}")?)
}

/// What a text names, or why it names nothing.
fn named_by(alloc: Global, text: &str) -> Result<String, Fail> {
    match read_display(alloc, text.as_bytes()) {
        Ok(name) => name_shown(alloc, &name),
        Err(refusal) => text_of(alloc, &refusal),
    }
}

const NAMES: &str = "\
:0 => 0.0 local
:79 => 79.0 local
unix:1.2 => 1.2 local
unix/:3 => 3.0 local
unix/h:3 => 3.0 local
localhost:10.0 => 10.0 port 6010 of localhost
tcp/h:1 => 1.0 port 6001 of h
inet/h:1.1 => 1.1 port 6001 of h
tcp:1 => 1.0 port 6001 of tcp
::1:0 => 0.0 port 6000 of ::1
h::0 => 0.0 port 6000 of h:
/run/x:0 => 0.0 path /run/x:0
/run/x => 0.0 path /run/x
/ => 0.0 path /
:59535 => 59535.0 local
h:59535 => 59535.0 port 65535 of h
:0.255 => 0.255 local";

#[test]
fn texts_name_displays(rt: HostRuntime) -> Result<(), Fail> {
    expect_rows(&rt, NAMES, named_by)
}

const REFUSALS: &str = "\
h => NoNumber
 => NoNumber
unix => NoNumber
tcp/h.0 => NoNumber
host/unix:0 => BadProtocol
local/:0 => BadProtocol
tcp6/h:0 => BadProtocol
a/tcp/h:0 => BadProtocol
h/:0 => BadProtocol
tcp/:0 => BadHost
inet/unix:0 => BadHost
: => BadNumber
h: => BadNumber
:x => BadNumber
:00 => BadNumber
:-1 => BadNumber
:+1 => BadNumber
: 1 => BadNumber
:.0 => BadNumber
:59536 => BadNumber
:18446744073709551616 => BadNumber
:0. => BadScreen
:0.00 => BadScreen
:0.x => BadScreen
:0.0.0 => BadScreen
:0.256 => BadScreen";

#[test]
fn other_texts_are_refused(rt: HostRuntime) -> Result<(), Fail> {
    expect_rows(&rt, REFUSALS, named_by)
}

/// The names of the sockets of a display, each with a bar behind it, and `@` for a NUL.
fn sockets_shown(alloc: Global, text: &str) -> Result<String, Fail> {
    let display = match read_display(alloc, text.as_bytes()) {
        Ok(display) => display,
        Err(refusal) => return text_of(alloc, &refusal),
    };
    let mut shown = String::new(alloc);
    for name in socket_names(alloc, &display)?.as_slice() {
        let name = str::from_utf8(name.as_slice())?;
        match name.strip_prefix('\0') {
            Some(path) => {
                shown.push('@')?;
                shown.push_str(path)?;
            }
            None => shown.push_str(name)?,
        }
        shown.push('|')?;
    }
    Ok(shown)
}

const SOCKETS: &str = "\
:0 => @/tmp/.X11-unix/X0|/tmp/.X11-unix/X0|
unix:79.1 => @/tmp/.X11-unix/X79|/tmp/.X11-unix/X79|
/run/x:0 => /run/x:0|
h:0 => ";

#[test]
fn sockets_are_tried_in_their_order(rt: HostRuntime) -> Result<(), Fail> {
    expect_rows(&rt, SOCKETS, sockets_shown)
}
