//! Which cookie is taken.

use display_place::{DisplayEntry, DisplayEntryList, Family, IpAddress, entry_for};
use owned_lists::Octets;
use std::alloc::Global;
use std::test::Fail;
use test_tables::{expect_rows, words_of};

fn family_of(word: &str) -> Family {
    if word == "internet" {
        return Family::Internet;
    }
    if word == "internet6" {
        return Family::InternetV6;
    }
    if word == "local" {
        return Family::Local;
    }
    if word == "any" {
        return Family::Any;
    }
    Family::Other(254)
}

/// The name of the authorization protocol of a cookie, for `c`, and else the word itself.
fn protocol_of(word: &str) -> &[u8] {
    if word == "c" {
        return b"MIT-MAGIC-COOKIE-1";
    }
    word.as_bytes()
}

/// An entry whose five fields are written with colons between.
fn entry_of(alloc: Global, word: &str) -> Result<DisplayEntry, Fail> {
    let mut fields = word.split(':');
    let family = family_of(fields.next().unwrap_or(""));
    let address = fields.next().unwrap_or("");
    let number = fields.next().unwrap_or("");
    let name = protocol_of(fields.next().unwrap_or(""));
    let proof = fields.next().unwrap_or("");
    Ok(DisplayEntry {
        family,
        address: Octets::from_slice(alloc, address.as_bytes())?,
        number: Octets::from_slice(alloc, number.as_bytes())?,
        name: Octets::from_slice(alloc, name)?,
        proof: Octets::from_slice(alloc, proof.as_bytes())?,
    })
}

fn reached_at(word: &str) -> Option<IpAddress> {
    if word == "v4" {
        return Some(IpAddress::V4(*b"four"));
    }
    if word == "v6" {
        return Some(IpAddress::V6(*b"sixteen-bytes-in"));
    }
    if word == "loop4" {
        return Some(IpAddress::V4([127, 0, 0, 1]));
    }
    if word == "loop6" {
        return Some(IpAddress::V6([0, 0, 0, 0, 0, 0, 0, 0, 0, 0, 0, 0, 0, 0, 0, 1]));
    }
    None
}

/// The data of the entry for display 7, on the machine `vm`, where it was reached at the address that
/// the first word says.
fn chosen(alloc: Global, row: &str) -> Result<String, Fail> {
    let words = words_of(alloc, row)?;
    let mut entries = DisplayEntryList::new(alloc);
    let mut reached = None;
    for (at, word) in words.iter().enumerate() {
        if at == 0 {
            reached = reached_at(word.as_str());
        } else {
            entries.push(entry_of(alloc, word.as_str())?)?;
        }
    }
    let shown = match entry_for(alloc, entries.as_slice(), 7, b"vm", reached)? {
        Some(entry) => str::from_utf8(entry.proof.as_slice())?.to_string(alloc)?,
        None => "none".to_string(alloc)?,
    };
    Ok(shown)
}

const ROWS: &str = "\
here local:vm:7:c:one => one
here => none
here local:vm:8:c:one => none
here local:vm:7:c:one local:vm:7:c:two => one
here local:vm:8:c:one local:vm:7:c:two => two
here local:vm::c:one local:vm:7:c:two => one
here local:v:7:c:one local:vmm:7:c:two local:vm:77:c:three => none
here local:vm:07:c:one => none
here local:vm:7:XDM-AUTHORIZATION-1:one local:vm:7:c:two => two
here local:vm:7:MIT-MAGIC-COOKIE-:one => none
here local:vm:7:c: =>\u{20}
here any::7:c:one => one
here any:other:7:c:one => one
here any::8:c:one => none
here other:vm:7:c:one => none
here internet:vm:7:c:one internet:four:7:c:two => none
here internet6:sixteen-bytes-in:7:c:one => none
v4 internet:four:7:c:one => one
v4 internet:five:7:c:one any::7:c:two => two
v4 local:vm:7:c:one => none
loop4 local:vm:7:c:one => one
loop4 local:v:7:c:one => none
v4 internet6:four:7:c:one => none
v6 internet6:sixteen-bytes-in:7:c:one => one
v6 local:vm:7:c:one => none
loop6 local:vm:7:c:one => one
v6 internet:sixteen-bytes-in:7:c:one => none
v6 internet6:sixteen-bytes-on:7:c:one any:::c:two => two";

#[test]
fn the_first_entry_for_a_display_is_taken(rt: HostRuntime) -> Result<(), Fail> {
    expect_rows(&rt, ROWS, chosen)
}
