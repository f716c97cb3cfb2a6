ghost use Rattle.std.specs.Prelude.{◌≤◌, IfOk};
ghost use Rattle.ice_framing.specs.Frames.{IsPartial, units, unit_limit};

use hex_rows::{bytes_of, digits_of};
use ice_framing::{FRAME_LIMIT, Remainder, Splitter, WholeFrameList, cut_pieces};
use ice_values::Endian;
use owned_lists::{NoMemory, Octets, OctetsList};
use std::alloc::{Alloc, Global};
use std::process::Abort;
use std::test::Fail;
use test_tables::{expect_rows, text_of};

/// The stream in pieces that end at two places.
fn three_pieces(
    alloc: Global,
    stream: &[u8],
    first: usize,
    second: usize,
) -> Result<OctetsList, NoMemory> {
    let mut pieces = OctetsList::new(alloc);
    let second = second.min(stream.len());
    let (front, last) = stream.split_at(second);
    let (front, middle) = front.split_at(first.min(second));
    pieces.push(Octets::from_slice(alloc, front)?)?;
    pieces.push(Octets::from_slice(alloc, middle)?)?;
    pieces.push(Octets::from_slice(alloc, last)?)?;
    Ok(pieces)
}

/// A frame: `M` or `L` for its order, its bytes, and a bar.
fn frame_shown(alloc: Global, endian: Endian, bytes: &[u8]) -> Result<String, Fail> {
    let order = match endian {
        Endian::Msb => "M",
        Endian::Lsb => "L",
    };
    Ok(format!(in alloc; "{order}{}|", digits_of(alloc, bytes)?)?)
}

/// The frames, and how many units the one has that ends the stream.
fn shown(alloc: Global, frames: &WholeFrameList, end: Option<u32>) -> Result<String, Fail> {
    let mut text = String::new(alloc);
    for frame in frames.as_slice() {
        text.push_str(frame_shown(alloc, frame.endian, frame.bytes.as_slice())?.as_str())?;
    }
    if let Some(units) = end {
        text.push_str(text_of(alloc, &units)?.as_str())?;
    }
    Ok(text)
}

fn shown_cut(alloc: Global, pieces: &[Octets]) -> Result<String, Fail> {
    let mut frames = WholeFrameList::new(alloc);
    let end = cut_pieces(alloc, pieces, &mut frames)?;
    shown(alloc, &frames, end.map(|oversize| oversize.units))
}

/// The same by a remainder, which doesn't say how many units the last frame has.
fn shown_by_remainder(alloc: Global, pieces: &[Octets]) -> Result<String, Fail> {
    let mut frames = WholeFrameList::new(alloc);
    let mut remainder = Remainder::new(alloc);
    for piece in pieces {
        match remainder.take(alloc, piece.as_slice(), &mut frames)? {
            Some(rest) => remainder = rest,
            None => return shown(alloc, &frames, Some(8_193)),
        }
    }
    shown(alloc, &frames, None)
}

/// What is cut of a stream in three pieces, which may be cut either way.
fn cut_at(alloc: Global, stream: &[u8], first: usize, second: usize) -> Result<String, Fail> {
    let pieces = three_pieces(alloc, stream, first, second)?;
    let text = shown_cut(alloc, pieces.as_slice())?;
    if shown_by_remainder(alloc, pieces.as_slice())?.as_str() != text.as_str() {
        return Err("a remainder cuts otherwise".into());
    }
    Ok(text)
}

/// What is cut of a stream wherever its pieces end.
fn cut_shown(alloc: Global, digits: &str) -> Result<String, Fail> {
    let stream = bytes_of(alloc, digits)?;
    let text = cut_at(alloc, stream.as_slice(), 0, 0)?;
    for second in 0..=stream.len() {
        for first in 0..=second {
            if cut_at(alloc, stream.as_slice(), first, second)?.as_str() != text.as_str() {
                return Err("the pieces make a difference".into());
            }
        }
    }
    Ok(text)
}

/// The digits of the second frame of a stream in two pieces, of which the first ends at this place; none
/// where there is no such frame.
fn second_of(alloc: Global, stream: &[u8], at: usize) -> Result<String, Fail> {
    let pieces = three_pieces(alloc, stream, 0, at)?;
    let mut frames = WholeFrameList::new(alloc);
    let _ = cut_pieces(alloc, pieces.as_slice(), &mut frames)?;
    match frames.as_slice().get(1) {
        Some(frame) => digits_of(alloc, frame.bytes.as_slice()),
        None => Ok(String::new(alloc)),
    }
}

/// A frame behind a byte order, which is whole wherever its two pieces meet; no part of it is.
fn cut_frame(alloc: Global, order: &str, digits: &str) -> Result<String, Fail> {
    let stream = bytes_of(alloc, format!(in alloc; "{order}{digits}")?.as_str())?;
    for at in 8..stream.len() {
        let (front, _) = stream.split_at(at);
        if !second_of(alloc, front, at)?.is_empty() {
            return Err("a part of a frame is whole".into());
        }
        if second_of(alloc, stream.as_slice(), at)?.as_str() != digits {
            return Err("the pieces make a difference".into());
        }
    }
    second_of(alloc, stream.as_slice(), 0)
}

/// The frames of a message in both orders, once each was cut.
pub fn cut_frames(alloc: Global, input: &str) -> Result<String, Fail> {
    let (lsb, msb) = input.split_once(' ').ok_or("one frame")?;
    let lsb = cut_frame(alloc, "0001000000000000", lsb)?;
    let msb = cut_frame(alloc, "0001010000000000", msb)?;
    Ok(format!(in alloc; "{lsb} {msb}")?)
}

/// One frame of one unit, and a byte behind it; the order byte of a later frame, which doesn't count;
/// 8,193 units, which end the list; nothing whole, twice.
const STREAMS: &str = "\
00010100000000070002050000000001616263646566676800 => M0001010000000007|M00020500000000016162636465666768|
0001000000000000000901000000000000020100010000006162636465666768 => L0001000000000000|L0009010000000000|L00020100010000006162636465666768|
0001010000000000000900000000000000020000000020010009000000000000 => M0001010000000000|M0009000000000000|8193
00010100000000 => 
0001000000000000000200000100000061626364656667 => L0001000000000000|";

#[test]
fn cut_anywhere(rt: HostRuntime) -> Result<(), Fail> {
    expect_rows(&rt, STREAMS, cut_shown)
}

/// A splitter that has taken this first frame.
fn behind(alloc: Global, first: &[u8]) -> Result<Splitter, Fail>
    ensures partial { IfOk result IsPartial }
    ensures units { IfOk result (λ splitter. units splitter ≤ unit_limit) }
{
    let mut splitter = Splitter::new(alloc)?;
    let _ = splitter.feed(first);
    let Some(_) = splitter.next_frame() else {
        return Err("no first frame".into());
    };
    splitter.take_frame();
    Ok(splitter)
}

/// What a splitter holds, which has room for a frame always.
fn held_shown(alloc: Global, splitter: &Splitter) -> Result<String, Fail> {
    let room = if splitter.capacity() >= FRAME_LIMIT {
        "held"
    } else {
        "without room"
    };
    Ok(format!(in alloc; "{} {room}", splitter.held())?)
}

/// Whether a splitter has a frame, and the header that it holds.
fn header_shown(alloc: Global, splitter: &Splitter) -> Result<String, Fail> {
    let frame = if splitter.next_frame().is_none() {
        "no frame"
    } else {
        "a frame"
    };
    let header = match splitter.header() {
        Some(header) => digits_of(alloc, &header)?,
        None => "no header".to_string(alloc)?,
    };
    Ok(format!(in alloc; "{frame}, {}, {header}", held_shown(alloc, splitter)?)?)
}

/// What a splitter answers to a header behind a first frame, and what it holds then, and after it
/// forgot it, twice.
fn limit_shown(alloc: Global, input: &str) -> Result<String, Fail> {
    let (first, header) = input.split_once(' ').ok_or("one frame")?;
    let mut splitter = behind(alloc, bytes_of(alloc, first)?.as_slice())?;
    let header = bytes_of(alloc, header)?;
    let answer = splitter.feed(header.as_slice());
    let held = header_shown(alloc, &splitter)?;
    splitter.forget();
    let once = held_shown(alloc, &splitter)?;
    splitter.forget();
    let twice = held_shown(alloc, &splitter)?;
    Ok(format!(in alloc; "{answer:?}; {held}; {once}; {twice}")?)
}

/// A ByteOrder that says MSB first and states 7 units that aren't there, or one whose order byte is
/// neither 0 nor 1; and behind it the header of a frame of 8,192 units, or more.
const LIMITS: &str = "\
0001010000000007 0002000000002000 => Ok(8); no frame, 8 held, 0002000000002000; 0 held; 0 held
0001010000000007 0002000000002001 => Err(Oversize { units: 8193 }); no frame, 8 held, 0002000000002001; 0 held; 0 held
0001020000010000 0002000000200000 => Ok(8); no frame, 8 held, 0002000000200000; 0 held; 0 held
0001020000010000 0002000001200000 => Err(Oversize { units: 8193 }); no frame, 8 held, 0002000001200000; 0 held; 0 held
0001020000010000 00020000ffffffff => Err(Oversize { units: 4294967295 }); no frame, 8 held, 00020000ffffffff; 0 held; 0 held";

#[test]
fn limit_of_units(rt: HostRuntime) -> Result<(), Fail> {
    expect_rows(&rt, LIMITS, limit_shown)
}

/// What lies in front of a piece that comes behind a first frame.
fn front_shown(alloc: Global, input: &str) -> Result<String, Fail> {
    let (first, piece) = input.split_once(' ').ok_or("one frame")?;
    let splitter = behind(alloc, bytes_of(alloc, first)?.as_slice())?;
    let piece = bytes_of(alloc, piece)?;
    match splitter.front(piece.as_slice()) {
        Some(frame) => frame_shown(alloc, frame.endian, frame.bytes),
        None => Ok("no frame".to_string(alloc)?),
    }
}

/// One frame of one unit, and a byte behind it; one without units, and nothing behind it; half of a frame;
/// half of a header; a header that states 8,193 units.
const FRONTS: &str = "\
0001010000000007 00020500000000016162636465666768ff => M00020500000000016162636465666768|
0001000000000000 0009000000000000 => L0009000000000000|
0001000000000000 000900000100000061626364 => no frame
0001000000000000 00090000 => no frame
0001010000000007 0002000000002001 => no frame";

#[test]
fn frames_in_front(rt: HostRuntime) -> Result<(), Fail> {
    expect_rows(&rt, FRONTS, front_shown)
}

/// The bytes of a frame of 8,192 units.
fn largest(alloc: Global) -> Result<Vec<u8>, NoMemory> {
    let mut largest = Vec::from_slice(alloc, &[0, 2, 0, 0, 0, 0, 0x20, 0])?;
    for at in 8..FRAME_LIMIT {
        largest.push((at % 251) as u8)?;
    }
    Ok(largest)
}

/// Each byte as a piece.
fn single_bytes(alloc: Global, bytes: &[u8], pieces: &mut OctetsList) -> Result<(), NoMemory> {
    for byte in bytes {
        pieces.push(Octets::from_slice(alloc, &[*byte])?)?;
    }
    Ok(())
}

/// How many frames there are, and whether the second has these bytes.
fn second_shown(alloc: Global, frames: &WholeFrameList, bytes: &[u8]) -> Result<String, Fail> {
    let Some(frame) = frames.as_slice().get(1) else {
        return Err("no second frame".into());
    };
    let whole = frame.bytes.as_slice();
    let count = frames.as_slice().len();
    Ok(format!(in alloc; "{count} {} {}", whole.len(), whole == bytes)?)
}

/// The largest frame behind a first one, byte by byte.
fn largest_shown(alloc: Global, first: &str) -> Result<String, Fail> {
    let largest = largest(alloc)?;
    let mut pieces = OctetsList::new(alloc);
    single_bytes(alloc, bytes_of(alloc, first)?.as_slice(), &mut pieces)?;
    single_bytes(alloc, largest.as_slice(), &mut pieces)?;
    let mut frames = WholeFrameList::new(alloc);
    if cut_pieces(alloc, pieces.as_slice(), &mut frames)?.is_some() {
        return Err("too large".into());
    }
    second_shown(alloc, &frames, largest.as_slice())
}

#[test]
fn largest_byte_by_byte(rt: HostRuntime) -> Result<(), Fail> {
    expect_rows(&rt, "0001010000000007 => 2 65544 true", largest_shown)
}
