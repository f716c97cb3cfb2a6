//! What a row of a return says besides its books.

use owned_lists::Octets;
use session_return::Which;
use std::alloc::Global;
use std::test::Fail;

/// What comes back by this word: the session of this name, or all.
pub fn which_of(alloc: Global, name: &str) -> Result<Which, Fail> {
    match name {
        "--all" => Ok(Which::All),
        _ => Ok(Which::One(Octets::from_slice(alloc, name.as_bytes())?)),
    }
}

/// The kept book, what comes back of it, and the store's book.
pub fn parted(input: &str) -> Result<(&str, &str, &str), Fail> {
    let Some((kept, rest)) = input.split_once(" / ") else {
        return Err("no kept book".into());
    };
    match rest.split_once(" / ") {
        Some((name, present)) => Ok((kept, name, present)),
        None => Err("no present book".into()),
    }
}
