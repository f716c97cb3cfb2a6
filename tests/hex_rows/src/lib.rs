//! Bytes in the rows of tests, as hex digits.
#![tactic(auto)]

use std::alloc::Global;
use std::test::Fail;

/// The bytes that a row writes as hex digits.
pub fn bytes_of(alloc: Global, digits: &str) -> Result<Vec<u8>, Fail> {
    Ok(hex::decode(alloc, digits)?)
}

/// Bytes as hex digits.
pub fn digits_of(alloc: Global, bytes: &[u8]) -> Result<String, Fail> {
    Ok(hex::encode(alloc, bytes)?)
}
