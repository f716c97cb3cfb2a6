//! Bytes in words. What bytes are called stands in one table; a word that isn't there is hex digits.

use owned_lists::Octets;
use std::alloc::Global;
use std::test::Fail;

/// Messages as the standards spell them (ICE, chapter 7; XSMP, chapter 10), least significant byte
/// first, and parts of messages: ID goes up to the last digit of an ID of the first epoch, RESTART and
/// DISCARD up to the second letter of the one word, HINT up to the value. DEFAULT and WORK are names of
/// sessions.
const NAMES: &str = "\
ORDER 0001000000000000
CONNECT 0002010106000000000000000000000003004d49540000000300312e3000000012004d49542d4d414749432d434f4f4b49452d3101000000
PROOF 00040000030000001000000000000000000102030405060708090a0b0c0d0e0f
PROTOCOL 00070100070000000101000000000000040058534d50000003004d49540000000300312e3000000012004d49542d4d414749432d434f4f4b49452d3101000000
REGISTER 01010000010000000000000000000000
RETURN 0101000004000000
ID 15000000736d642d30303030303030312d30303030303030
ID_END 00000000000000
SET 010c0000080000000100000000000000
RESTART 0e00000052657374617274436f6d6d616e640000000000000c0000004c4953546f6641525241593801000000000000000200000063
DISCARD 0e00000044697363617264436f6d6d616e640000000000000c0000004c4953546f6641525241593801000000000000000200000064
HINT 10000000526573746172745374796c6548696e740000000005000000434152443800000000000000010000000000000001000000
SHUTDOWN 0f00000053687574646f776e436f6d6d616e6400000000000c0000004c4953546f66415252415938010000000000000002000000
DEFAULT 0700000064656661756c740000000000
WORK 04000000776f726b
SAVED 0108010000000000
CLOSE 010b0000010000000000000000000000";

/// Adds the digits of a word by a table of names.
fn put_word(names: &str, digits: &mut String, word: &str) -> Result<(), Fail> {
    for row in names.lines() {
        if let Some((name, meaning)) = row.split_once(' ') {
            if name == word {
                digits.push_str(meaning)?;
                return Ok(());
            }
        }
    }
    digits.push_str(word)?;
    Ok(())
}

/// The digits of some words in a row, by a table of names.
fn spelled(alloc: Global, names: &str, words: &str) -> Result<String, Fail> {
    let mut digits = String::new(alloc);
    for word in words.split(' ') {
        put_word(names, &mut digits, word)?;
    }
    Ok(digits)
}

/// The digits of some words in a row.
pub fn digits_of(alloc: Global, words: &str) -> Result<String, Fail> {
    spelled(alloc, NAMES, words)
}

/// The bytes of some words in a row.
pub fn bytes_of(alloc: Global, words: &str) -> Result<Octets, Fail> {
    let digits = digits_of(alloc, words)?;
    Ok(Octets::from_vec(hex::decode(alloc, digits.as_str())?))
}
