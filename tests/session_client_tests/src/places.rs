//! What SESSION_MANAGER, ICEAUTHORITY and HOME say, written down by hand.

use ice_cookie::{AuthorityEntry, AuthorityList, authority_bytes};
use owned_lists::Octets;
use session_places::{SessionPlace, SocketName, authority_path, session_cookie, session_places};
use std::alloc::{Alloc, Global};
use std::process::Abort;
use std::test::Fail;
use test_tables::{expect_rows, text_of};

fn place_shown(alloc: Global, place: &SessionPlace) -> Result<String, Fail> {
    let host = str::from_utf8(place.host.as_slice())?;
    match &place.socket {
        SocketName::Abstract(name) => {
            let name = str::from_utf8(name.as_slice())?;
            Ok(format!(in alloc; "{host} abstract {name};")?)
        }
        SocketName::Path(path) => {
            let path = str::from_utf8(path.as_slice())?;
            Ok(format!(in alloc; "{host} path {path};")?)
        }
    }
}

fn places_shown(alloc: Global, text: &str) -> Result<String, Fail> {
    let places = session_places(alloc, text.as_bytes())?;
    let mut shown = String::new(alloc);
    for place in places.as_slice() {
        shown.push_str(place_shown(alloc, place)?.as_str())?;
    }
    Ok(shown)
}

const PLACES: &str = "\
local/h:@/tmp/.ICE-unix/7,unix/h:/tmp/.ICE-unix/7 => h abstract /tmp/.ICE-unix/7;h path /tmp/.ICE-unix/7;
local/h:/run/s => h abstract /run/s;h path /run/s;
unix/h:7 => h path /tmp/.ICE-unix/7;
tcp/h:4711,unix/h:/s => h path /s;
local/a:b:/s => a:b abstract /s;a:b path /s;
unix/:/s =>  path /s;
h:0 => 
,,unix/h:/s, => h path /s;";

#[test]
fn addresses_have_sockets(rt: HostRuntime) -> Result<(), Fail> {
    expect_rows(&rt, PLACES, places_shown)
}

fn path_shown(alloc: Global, named: Option<&[u8]>, home: Option<&[u8]>) -> Result<String, Fail> {
    match authority_path(alloc, named, home)? {
        Some(path) => Ok(str::from_utf8(path.as_slice())?.to_string(alloc)?),
        None => Ok("none".to_string(alloc)?),
    }
}

#[test]
fn the_authority_file_is_found(rt: HostRuntime) -> Result<(), Fail> {
    let alloc = rt.alloc();
    let named = path_shown(alloc, Some(b"/a".as_slice()), Some(b"/h".as_slice()))?;
    assert!(rt; named.as_str() == "/a");
    let home = path_shown(alloc, None, Some(b"/u".as_slice()))?;
    assert!(rt; home.as_str() == "/u/.ICEauthority");
    let root = path_shown(alloc, None, Some(b"/".as_slice()))?;
    assert!(rt; root.as_str() == "/.ICEauthority");
    let none = path_shown(alloc, None, None)?;
    assert!(rt; none.as_str() == "none");
    Ok(())
}

fn entry_of(alloc: Global, protocol: &str, network: &str) -> Result<AuthorityEntry, Fail> {
    Ok(AuthorityEntry {
        protocol: Octets::from_slice(alloc, protocol.as_bytes())?,
        details: Octets::new(alloc),
        network: Octets::from_slice(alloc, network.as_bytes())?,
        name: Octets::from_slice(alloc, b"MIT-MAGIC-COOKIE-1")?,
        proof: Octets::from_slice(alloc, b"0123456789abcdef")?,
    })
}

#[test]
fn the_cookie_of_an_address_is_found(rt: HostRuntime) -> Result<(), Fail> {
    let alloc = rt.alloc();
    let mut entries = AuthorityList::new(alloc);
    entries.push(entry_of(alloc, "XSMP", "unix/h:/x")?)?;
    entries.push(entry_of(alloc, "ICE", "unix/h:/s")?)?;
    let bytes = authority_bytes(alloc, &entries)?;
    let found = session_cookie(alloc, bytes.as_slice(), b"unix/h:/s")?;
    assert!(rt; &found.0 == b"0123456789abcdef");
    let other = session_cookie(alloc, bytes.as_slice(), b"unix/h:/x");
    assert!(rt; text_of(alloc, &other)?.as_str() == "Err(NoEntry)");
    let short = session_cookie(alloc, &bytes.as_slice()[1..], b"unix/h:/s");
    assert!(rt; text_of(alloc, &short)?.as_str() == "Err(BadFile)");
    Ok(())
}
