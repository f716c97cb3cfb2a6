//! Authority files against bytes written down by hand.

use hex_rows::{bytes_of, digits_of};
use ice_cookie::{AuthorityEntry, AuthorityList, authority_bytes, read_authority};
use owned_lists::{NoMemory, Octets};
use std::alloc::{Alloc, Global};
use std::process::Abort;
use std::test::Fail;
use test_tables::{expect_rows, text_of};

/// The entry by which a protocol lets a client in at the socket `/s` of the host `h`.
fn entry(alloc: Global, protocol: &[u8], proof: &[u8]) -> Result<AuthorityEntry, NoMemory> {
    Ok(AuthorityEntry {
        protocol: Octets::from_slice(alloc, protocol)?,
        details: Octets::new(alloc),
        network: Octets::from_slice(alloc, b"local/h:/s")?,
        name: Octets::from_slice(alloc, b"MIT-MAGIC-COOKIE-1")?,
        proof: Octets::from_slice(alloc, proof)?,
    })
}

/// The bytes of a file with such an entry for each of these protocols.
fn file_spelled(alloc: Global, protocols: &str) -> Result<String, Fail> {
    let proof = bytes_of(alloc, "000102030405060708090a0b0c0d0e0f")?;
    let mut list = AuthorityList::new(alloc);
    for protocol in protocols.split(' ') {
        if !protocol.is_empty() {
            list.push(entry(alloc, protocol.as_bytes(), proof.as_slice())?)?;
        }
    }
    digits_of(alloc, authority_bytes(alloc, &list)?.as_slice())
}

/// The five fields of an entry, each with a bar behind it, and the last in digits.
fn entry_shown(alloc: Global, entry: &AuthorityEntry) -> Result<String, Fail> {
    let protocol = str::from_utf8(entry.protocol.as_slice())?;
    let details = str::from_utf8(entry.details.as_slice())?;
    let network = str::from_utf8(entry.network.as_slice())?;
    let name = str::from_utf8(entry.name.as_slice())?;
    let proof = digits_of(alloc, entry.proof.as_slice())?;
    Ok(format!(in alloc; "{protocol}|{details}|{network}|{name}|{proof}|")?)
}

fn entries_shown(alloc: Global, list: &AuthorityList) -> Result<String, Fail> {
    let mut text = String::new(alloc);
    for entry in list.as_slice() {
        text.push_str(entry_shown(alloc, entry)?.as_str())?;
    }
    Ok(text)
}

/// The entries of a file, or why it is none.
fn file_shown(alloc: Global, digits: &str) -> Result<String, Fail> {
    match read_authority(alloc, bytes_of(alloc, digits)?.as_slice()) {
        Ok(list) => entries_shown(alloc, &list),
        Err(refusal) => text_of(alloc, &refusal),
    }
}

/// The entry of ICE, then that of XSMP.
const SPELLED: &str = "\
ICE => 00034943450000000a6c6f63616c2f683a2f7300124d49542d4d414749432d434f4f4b49452d310010000102030405060708090a0b0c0d0e0f
ICE XSMP => 00034943450000000a6c6f63616c2f683a2f7300124d49542d4d414749432d434f4f4b49452d310010000102030405060708090a0b0c0d0e0f000458534d500000000a6c6f63616c2f683a2f7300124d49542d4d414749432d434f4f4b49452d310010000102030405060708090a0b0c0d0e0f
 => ";

/// The same, and files with a byte more or fewer.
const FILES: &str = "\
00034943450000000a6c6f63616c2f683a2f7300124d49542d4d414749432d434f4f4b49452d310010000102030405060708090a0b0c0d0e0f => ICE||local/h:/s|MIT-MAGIC-COOKIE-1|000102030405060708090a0b0c0d0e0f|
00034943450000000a6c6f63616c2f683a2f7300124d49542d4d414749432d434f4f4b49452d310010000102030405060708090a0b0c0d0e0f000458534d500000000a6c6f63616c2f683a2f7300124d49542d4d414749432d434f4f4b49452d310010000102030405060708090a0b0c0d0e0f => ICE||local/h:/s|MIT-MAGIC-COOKIE-1|000102030405060708090a0b0c0d0e0f|XSMP||local/h:/s|MIT-MAGIC-COOKIE-1|000102030405060708090a0b0c0d0e0f|
 => 
00034943450000000a6c6f63616c2f683a2f7300124d49542d4d414749432d434f4f4b49452d310010000102030405060708090a0b0c0d0e => Short { at: 0 }
00034943450000000a6c6f63616c2f683a2f7300124d49542d4d414749432d434f4f4b49452d310010000102030405060708090a0b0c0d0e0f00034943450000000a6c6f63616c2f683a2f7300124d49542d4d414749432d434f4f4b49452d310010000102030405060708090a0b0c0d0e => Short { at: 57 }
00034943450000000a6c6f63616c2f683a2f7300124d49542d4d414749432d434f4f4b49452d310010000102030405060708090a0b0c0d0e0f00 => Short { at: 57 }
00 => Short { at: 0 }
00034943450000000a6c6f63616c2f683a2f7300124d49542d4d414749432d434f4f4b49452d310010000102030405060708090a0b0c0d0e0f000458534d500000000a6c6f63616c2f683a2f7300124d49542d4d414749432d434f4f4b49452d310010000102030405060708090a0b0c0d0e0f000000000000000000 => Short { at: 115 }";

#[test]
fn a_file_is_the_fields_of_its_entries(rt: HostRuntime) -> Result<(), Fail> {
    expect_rows(&rt, SPELLED, file_spelled)?;
    expect_rows(&rt, FILES, file_shown)
}

/// An entry whose fields are empty but for so many bytes of data.
fn with_proof_of(alloc: Global, count: usize) -> Result<AuthorityList, NoMemory> {
    let mut list = AuthorityList::new(alloc);
    list.push(AuthorityEntry {
        protocol: Octets::new(alloc),
        details: Octets::new(alloc),
        network: Octets::new(alloc),
        name: Octets::new(alloc),
        proof: Octets::from_vec(vec![in alloc; b'x'; count]?),
    })?;
    Ok(list)
}

/// Whether the bytes are read as one entry with so many bytes of data.
fn reads_back(alloc: Global, bytes: &[u8], count: usize) -> Result<bool, Fail> {
    let found = read_authority(alloc, bytes)?;
    let wanted = with_proof_of(alloc, count)?;
    Ok(entries_shown(alloc, &found)?.as_str() == entries_shown(alloc, &wanted)?.as_str())
}

/// How many bytes a file has whose one field has so many, the first eleven, and whether it is read
/// back; or why there is none.
fn long_shown(alloc: Global, count: &str) -> Result<String, Fail> {
    let count = count.parse::<usize>()?;
    match authority_bytes(alloc, &with_proof_of(alloc, count)?) {
        Ok(bytes) => {
            let is_read = reads_back(alloc, bytes.as_slice(), count)?;
            let (front, _) = bytes.as_slice().split_at(bytes.len().min(11));
            let front = digits_of(alloc, front)?;
            Ok(format!(in alloc; "{} {front} {is_read}", bytes.len())?)
        }
        Err(refusal) => text_of(alloc, &refusal),
    }
}

const LONG: &str = "\
65535 => 65545 0000000000000000ffff78 true
65536 => TooLong";

#[test]
fn a_field_may_have_65535_bytes(rt: HostRuntime) -> Result<(), Fail> {
    expect_rows(&rt, LONG, long_shown)
}
