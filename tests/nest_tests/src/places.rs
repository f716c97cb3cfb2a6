//! Which paths a nested session fetches, attaches, publishes, listens at and connects to, and how often. No
//! clause says so but of the authority files, since opening a thing adds no effect.

use crate::calls::{identity, split_words, world_of};
use asked_paths::Asked;
use owned_lists::Octets;
use smnest_app::smnest_main;
use std::alloc::{Alloc, Global};
use std::test::Fail;

/// An entry for the outer manager's socket `/x`.
const ENTRY: &[u8] = b"\0\x03ICE\0\0\0\x0alocal/h:/x\0\x12MIT-MAGIC-COOKIE-1\
\0\x10\0\x01\x02\x03\x04\x05\x06\x07\x08\x09\x0a\x0b\x0c\x0d\x0e\x0f";

/// The words of a session with six places.
const WORDS: &str =
    "serve --authority /a --control /c --outer-authority /y --outer /x --socket /s --store /f";

/// The status of a session by these words, whose store has no byte, and what it asked of its world.
fn asked_by(alloc: Global) -> Result<(u8, String), Fail> {
    let words = split_words(alloc, WORDS)?;
    let world = world_of(alloc, b"", 0)?;
    let mut asked = Asked::new(alloc, world, Octets::from_slice(alloc, ENTRY)?);
    let status = smnest_main(alloc, words.as_slice(), &mut asked, identity(alloc)?, 1_000);
    Ok((status, asked.paths))
}

#[test]
fn each_place_is_taken_once_and_as_the_words_say(rt: HostRuntime) -> Result<(), Fail> {
    let (status, paths) = asked_by(rt.alloc())?;
    assert_eq!(rt;
        (status, paths.as_str()),
        (
            3,
            "fetch /y\nattach /f\npublish /a\nlisten /s /c\nopen_outer /x\n"
        )
    );
    Ok(())
}
