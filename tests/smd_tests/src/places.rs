//! Which paths a session attaches, publishes and listens at, and how often. No clause says so, since opening
//! a thing adds no effect.

use crate::calls::identity;
use crate::worlds::world_of;
use asked_paths::Asked;
use owned_lists::Octets;
use smd_app::smd_main;
use std::alloc::{Alloc, Global};
use std::test::Fail;

/// The words of a session with four places.
const WORDS: [&str; 9] = [
    "serve",
    "--authority",
    "/a",
    "--control",
    "/c",
    "--socket",
    "/s",
    "--store",
    "/f",
];

/// The status of a session by these words, and what it asked of its world.
fn asked_by(alloc: Global) -> Result<(u8, String), Fail> {
    let mut words = Vec::new(alloc);
    for word in WORDS {
        words.push(word.to_string(alloc)?)?;
    }
    let world = world_of(alloc, false, "a session", "blank", 0)?;
    let mut asked = Asked::new(alloc, world, Octets::new(alloc));
    let status = smd_main(alloc, words.as_slice(), &mut asked, identity(alloc)?, 1_000);
    Ok((status, asked.paths))
}

#[test]
fn each_place_is_taken_once_and_as_the_words_say(rt: HostRuntime) -> Result<(), Fail> {
    let (status, paths) = asked_by(rt.alloc())?;
    assert_eq!(rt;
        (status, paths.as_str()),
        (0, "attach /f\npublish /a\nlisten /s /c\n")
    );
    Ok(())
}
