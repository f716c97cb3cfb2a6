//! Frames by their names, by the bytes that the standards give (ICE, chapter 5; XSMP, chapter 10:
//! Messages), under major opcode 1.

ghost use Rattle.std.specs.Prelude.{IsTrue};
ghost use Rattle.ice_values.specs.Frames.{IsFrame};

use hex_rows::{bytes_of, digits_of};
use ice_values::{Endian, read_card32};
use std::alloc::Global;
use std::test::Fail;
use xsmp_messages::{XsmpMessage, decode_xsmp};

/// Each name is that of one frame, and each frame has one name. `connects`, `opens` and `sets` are what
/// smclient sends, and `sets-p` with the program `p`; `sets-3` and `properties` have one property `P` of
/// kind `CARD8` with the value 3; the registering ones have no ID, `smd-9` and `old-id`. `save` is a
/// local save of a checkpoint without dialogs, `save-any` with any, `save-errors` one of both kinds with
/// dialogs of errors, and `save-end` one with any dialog and a shutdown behind it. `fatal` is a BadState
/// about the client's first message that is fatal to the connection, and `refuses` the client's own about
/// the fifth frame, a token for which it hadn't asked; `bad-value` and `bad-state` can go on, and `ended`
/// is fatal to the protocol. `unknown` has no minor opcode.
const FRAMES: &str = "\
order 0001000000000000
connects 000201010700000000000000000000000800736d636c69656e7400000300312e3000000012004d49542d4d414749432d434f4f4b49452d310100000000000000
opens 00070100080000000101000000000000040058534d5000000800736d636c69656e7400000300312e3000000012004d49542d4d414749432d434f4f4b49452d310100000000000000
demand 00030000010000000000000000000000
cookie 00040000030000001000000000000000000102030405060708090a0b0c0d0e0f
connected 00060000020000000300736d640000000300312e30000000
opened 00080001020000000300736d640000000300312e30000000
registers 01010000010000000000000000000000
registers-9 010100000200000005000000736d642d3900000000000000
registers-old 0101000002000000060000006f6c642d6964000000000000
registered 010200000400000015000000736d642d30303030303030312d303030303030303100000000000000
save 01030000010000000100000000000000
save-any 01030000010000000100020000000000
asks 0105010000000000
token 0106000000000000
talked 0107000000000000
done 0108010000000000
failed 0108000000000000
die 0109000000000000
cancelled 010a000000000000
closes 010b0000010000000000000000000000
complete 0112000000000000
fatal 00000180010000000102000001000000
refuses 01000180010000000600000005000000
unknown 0163000000000000
sets 010c00001000000002000000000000000700000050726f6772616d000000000006000000415252415938000000000000010000000000000008000000736d636c69656e74000000000e00000052657374617274436f6d6d616e640000000000000c0000004c4953546f66415252415938010000000000000008000000736d636c69656e7400000000
sets-p 010c00000e00000002000000000000000700000050726f6772616d000000000006000000415252415938000000000000010000000000000001000000700000000e00000052657374617274436f6d6d616e640000000000000c0000004c4953546f6641525241593801000000000000000100000070000000
sets-3 010c000006000000010000000000000001000000500000000500000043415244380000000000000001000000000000000100000003000000
deletes 010d0000010000000000000000000000
gets 010e000000000000
waits 0110000000000000
two 0111000000000000
all-save 01040000010000000100020001000000
one-saves 01040000010000000100020000000000
id-1 010200000200000005000000736d642d3100000000000000
save-end 01030000010000000201020000000000
save-errors 01030000010000000200010000000000
bad-value 01000380010000000100000002000000
bad-state 01000180010000000100000002000000
ended 01000180010000000101000002000000
properties 010f000006000000010000000000000001000000500000000500000043415244380000000000000001000000000000000100000003000000";

/// The digits of the frame of a name.
fn digits_named(name: &str) -> Option<&'static str> {
    for row in FRAMES.lines() {
        if let Some((known, digits)) = row.split_once(' ') {
            if known == name {
                return Some(digits);
            }
        }
    }
    None
}

/// The name of the frame with these digits.
fn name_of(digits: &str) -> Option<&'static str> {
    for row in FRAMES.lines() {
        if let Some((name, known)) = row.split_once(' ') {
            if known == digits {
                return Some(name);
            }
        }
    }
    None
}

/// The bytes of the frame of a name.
pub fn frame_of(alloc: Global, name: &str) -> Result<Vec<u8>, Fail> {
    match digits_named(name) {
        Some(digits) => bytes_of(alloc, digits),
        None => Err("no frame of this name".into()),
    }
}

/// The name of the frame with these bytes, or their digits where there is none.
pub fn named(alloc: Global, bytes: &[u8]) -> Result<String, Fail> {
    let digits = digits_of(alloc, bytes)?;
    match name_of(digits.as_str()) {
        Some(name) => Ok(name.to_string(alloc)?),
        None => Ok(digits),
    }
}

/// The bytes of the frames of some names, one behind the other.
pub fn stream_of(alloc: Global, names: &str) -> Result<Vec<u8>, Fail> {
    let mut bytes = Vec::new(alloc);
    for name in names.split(' ') {
        if !name.is_empty() {
            bytes.extend_from_slice(frame_of(alloc, name)?.as_slice())?;
        }
    }
    Ok(bytes)
}

/// Whether a header has as many units behind it as it says.
fn is_frame(bytes: &[u8]) -> bool
    ensures { IsTrue result → IsFrame Endian.Lsb bytes.now }
{
    if bytes.len() < 8 {
        return false;
    }
    let (_, length) = bytes.split_at(4);
    bytes.len() == 8 + 8 * read_card32(Endian::Lsb, length) as usize
}

/// The message of XSMP that the frame of a name spells.
pub fn message_of(alloc: Global, name: &str) -> Result<XsmpMessage, Fail> {
    let frame = frame_of(alloc, name)?;
    if !is_frame(frame.as_slice()) {
        return Err("no frame".into());
    }
    Ok(decode_xsmp(alloc, Endian::Lsb, frame.as_slice())?)
}
