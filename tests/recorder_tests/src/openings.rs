use ice_cookie::Cookie;
use owned_lists::{NoMemory, Octets};
use session_recorder::opening_of;
use std::alloc::{Alloc, Global};
use std::process::Abort;
use std::test::Fail;
use test_tables::expect_rows;

/// So many bytes 0.
fn zeros(alloc: Global, count: usize) -> Result<Octets, NoMemory> {
    Ok(Octets::from_vec(vec![in alloc; 0; count]?))
}

/// The lines with which a record opens, over so many bytes 0, with this patience and this session.
fn opened(alloc: Global, input: &str) -> Result<String, Fail> {
    let (count, rest) = input.split_once(' ').ok_or("two numbers")?;
    let (patience, session) = rest.split_once(' ').ok_or("a name")?;
    let patience = patience.parse::<u64>()?;
    let store = zeros(alloc, count.parse::<usize>()?)?;
    let text = opening_of(alloc, store, &Cookie([1; 16]), patience, session.as_bytes())?;
    let mut line = String::new(alloc);
    for part in str::from_utf8(text.as_slice())?.lines() {
        line.push_str(part)?;
        line.push_str("/")?;
    }
    Ok(line)
}

/// A store that nothing was written to has the empty book: format 2 and three times 0.
const OPENINGS: &str = "\
0 0 default => cookie 01010101010101010101010101010101/
0 0 work => cookie 01010101010101010101010101010101/session work/
0 7 default => cookie 01010101010101010101010101010101/patience 7/
16777280 120000 defaults => cookie 01010101010101010101010101010101/book 02000000000000000000000000000000/patience 120000/session defaults/";

#[test]
fn records_open(rt: HostRuntime) -> Result<(), Fail> {
    expect_rows(&rt, OPENINGS, opened)
}
