use crate::table::{bytes_of, piece_of};
use client_quirks::{Amender, Keeper};
use std::alloc::{Alloc, Global};
use std::process::Abort;
use std::test::Fail;
use test_tables::expect_rows;

/// A connection that is followed twice.
#[derive(Drop)]
struct Followed {
    amender: Amender,
    keeper: Keeper,
}

/// Says whether a piece needn't be taken by the amender, nor heard by the keeper, and has both hear it.
fn put_piece(
    alloc: Global,
    followed: &mut Followed,
    digits: &str,
    text: &mut String,
) -> Result<(), Fail> {
    let piece = piece_of(alloc, digits)?;
    let amender = followed.amender.lets_pass(piece.as_slice());
    let keeper = followed.keeper.lets_pass(piece.as_slice());
    text.push_str(if amender { "a" } else { "-" })?;
    text.push_str(if keeper { "k " } else { "- " })?;
    followed.keeper.hear(piece)?;
    followed.amender.take(piece_of(alloc, digits)?)?;
    Ok(())
}

/// What is said of the pieces of a client, `c`, among those of the manager, `s`.
fn passes_shown(alloc: Global, input: &str) -> Result<String, Fail> {
    let mut followed = Followed {
        amender: Amender::new(alloc),
        keeper: Keeper::new(alloc),
    };
    let mut text = String::new(alloc);
    for turn in input.split(' ') {
        match turn.split_once(':') {
            Some(("c", digits)) => put_piece(alloc, &mut followed, digits, &mut text)?,
            Some((_, digits)) => followed.keeper.tell(bytes_of(alloc, digits)?.as_slice())?,
            None => return Err("no turn".into()),
        }
    }
    Ok(text)
}

/// Pieces of whole frames and others, without a logout and in one.
const PIECES: &str = "\
c:0001000000000000 c:00070100040000000100000000000000040058534d50000000000000000000000100000000000000 c:0009000000000000 c:00090000000000000009000000000000 c:0108010000000000 c:010b0000010000000000000000000000 c:000900 c:0000000000 c:0009000000000000 => -- -- ak ak ak ak -- -- ak 
c:0001000000000000 c:00070100040000000100000000000000040058534d50000000000000000000000100000000000000 s:0001000000000000 s:00080002010000000000000000000000 s:02030000010000000201020000000000 c:0009000000000000 c:0108010000000000 c:0009000000000000 c:010b0000010000000000000000000000 c:0009000000000000 s:0209000000000000 c:0009000000000000 => -- -- ak a- ak a- a- ak 
c:0001000000000000 c:00070100040000000100000000000000040058534d50000000000000000000000100000000000000 c:0009000000000000010c000001200000 c:0009000000000000 => -- -- -- ak 
c:0001000000000000 c:00070100040000000100000000000000040058534d50000000000000000000000100000000000000 c:010c00000700000001000000000000000700000050726f6772616d00000000000600000041525241593800000000000001000000000000000300000074776d00 c:010c00000700000001000000000000000700000050726f6772616d00000000000600000041525241593800000000000001000000000000000400000074776d00 c:010c0000010000000900000000000000 c:0009000000000000 => -- -- ak -k -- ak 
c:0001000000000000 c:00070100040000000100000000000000040058534d50000000000000000000000100000000000000 s:0001000000000000 s:00080002010000000000000000000000 s:02030000010000000201020000000000 c:010c00000700000001000000000000000700000050726f6772616d00000000000600000041525241593800000000000001000000000000000300000074776d00 c:0108010000000000 c:010c00000700000001000000000000000700000050726f6772616d00000000000600000041525241593800000000000001000000000000000300000074776d00 => -- -- ak a- ak ";

#[test]
fn other_frames_are_passed_over(rt: HostRuntime) -> Result<(), Fail> {
    expect_rows(&rt, PIECES, passes_shown)
}
