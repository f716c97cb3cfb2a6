use ice_cookie::Cookie;
use std::alloc::{Alloc, Global};
use std::process::Abort;
use std::test::Fail;
use test_tables::{expect_rows, text_of};

const COOKIE: Cookie = Cookie(*b"0123456789abcdef");

fn matches(alloc: Global, bytes: &str) -> Result<String, Fail> {
    text_of(alloc, &COOKIE.matches(bytes.as_bytes()))
}

/// Whether it is the cookie of the test, and how it shows itself.
fn cookie_shown(alloc: Global, bytes: &str) -> Result<String, Fail> {
    let Some(bytes) = bytes.as_bytes().first_chunk::<16>() else {
        return Err("no cookie".into());
    };
    let cookie = Cookie(*bytes);
    Ok(format!(in alloc; "{} {cookie:?}", cookie == COOKIE)?)
}

const MATCHES: &str = "\
0123456789abcdef => true
0123456789abcdeF => false
0123456789abcde => false
0123456789abcdef0 => false
 => false";

#[test]
fn a_cookie_is_shown_by_its_16_bytes(rt: HostRuntime) -> Result<(), Fail> {
    expect_rows(&rt, MATCHES, matches)
}

#[test]
fn its_bytes_are_hidden(rt: HostRuntime) -> Result<(), Fail> {
    expect_rows(&rt, "0123456789abcdef => true Cookie(..)", cookie_shown)
}
