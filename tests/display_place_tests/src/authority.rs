//! X authority files against bytes written down by hand.

use display_place::{DisplayEntry, read_entries};
use hex_rows::{bytes_of, digits_of};
use std::alloc::Global;
use std::test::Fail;
use test_tables::expect_rows;

/// The fields of an entry, each with a bar behind it, and the last in digits.
fn entry_shown(alloc: Global, entry: &DisplayEntry) -> Result<String, Fail> {
    let family = entry.family;
    let address = digits_of(alloc, entry.address.as_slice())?;
    let number = str::from_utf8(entry.number.as_slice())?;
    let name = str::from_utf8(entry.name.as_slice())?;
    let proof = digits_of(alloc, entry.proof.as_slice())?;
    Ok(format!(in alloc; "{family:?}|{address}|{number}|{name}|{proof}|")?)
}

/// The entries of a file whose bytes are written in digits, with a blank wherever it reads better.
fn file_shown(alloc: Global, written: &str) -> Result<String, Fail> {
    let mut digits = String::new(alloc);
    for part in written.split(' ') {
        digits.push_str(part)?;
    }
    let bytes = bytes_of(alloc, digits.as_str())?;
    let mut text = String::new(alloc);
    for entry in read_entries(alloc, bytes.as_slice())?.as_slice() {
        text.push_str(entry_shown(alloc, entry)?.as_str())?;
    }
    Ok(text)
}

const WHOLE: &str = "\
0100 0002 766d 0002 3739 0012 4d49542d4d414749432d434f4f4b49452d31 0010 000102030405060708090a0b0c0d0e0f => Local|766d|79|MIT-MAGIC-COOKIE-1|000102030405060708090a0b0c0d0e0f|
 =>\u{20}
0000 0004 7f000001 0001 30 0001 61 0000 => Internet|7f000001|0|a||
0006 0001 01 0000 0000 0000 => InternetV6|01||||
ffff 0000 0000 0000 0000 => Any|||||
00fe 0000 0000 0000 0000 => Other(254)|||||
0001 0000 0000 0000 0000 0100 0001 68 0001 30 0001 61 0001 ff => Other(1)|||||Local|68|0|a|ff|";

#[test]
fn whole_entries_are_read(rt: HostRuntime) -> Result<(), Fail> {
    expect_rows(&rt, WHOLE, file_shown)
}

const CUT: &str = "\
01 =>\u{20}
0100 =>\u{20}
0100 00 =>\u{20}
0100 0002 76 =>\u{20}
0100 0002 766d 0001 30 0001 61 =>\u{20}
0100 0002 766d 0001 30 0001 61 0002 ff =>\u{20}
0100 0001 68 0001 30 0001 61 0001 ff 01 => Local|68|0|a|ff|
0100 0001 68 0001 30 0001 61 0001 ff 0100 0001 68 0001 30 0001 61 0001 => Local|68|0|a|ff|
0100 0001 68 0001 30 0001 61 0001 ff ffff ffff ffff => Local|68|0|a|ff|";

#[test]
fn a_file_that_is_cut_has_the_entries_before(rt: HostRuntime) -> Result<(), Fail> {
    expect_rows(&rt, CUT, file_shown)
}
