//! One way of a connection: what was said, and how much of it was taken.

use ice_values::ErrorClass;
use owned_lists::{NoMemory, Octets};
use std::alloc::{Alloc, Global};
use std::process::Abort;

/// The bytes of one end, little-endian as both say.
#[derive(Drop)]
pub(crate) struct Stream {
    bytes: Octets,
    taken: usize,
    /// Up to here its frames were looked at.
    seen: usize,
}

/// Of which message of XSMP a frame is, by its minor opcode.
pub(crate) const SAVE_YOURSELF: u8 = 3;

pub(crate) const SAVE_YOURSELF_DONE: u8 = 8;

/// The length of the frame with which these bytes begin, where they have all of it.
fn frame_len(bytes: &[u8]) -> Option<usize> {
    if bytes.len() < 8 {
        return None;
    }
    let low = bytes[4] as usize + 256 * (bytes[5] as usize);
    let high = bytes[6] as usize + 256 * (bytes[7] as usize);
    let len = 8 + 8 * (low + 65536 * high);
    if bytes.len() < len { None } else { Some(len) }
}

/// Whether a frame is an Error of either protocol that says BadState.
fn is_bad_state(frame: &[u8]) -> bool {
    let class = frame[2] as u16 + 256 * frame[3] as u16;
    frame[1] == 0 && class == ErrorClass::BadState.number()
}

impl Stream {
    pub(crate) fn new(alloc: Global) -> Stream {
        Stream {
            bytes: Octets::new(alloc),
            taken: 0,
            seen: 0,
        }
    }

    /// How many bytes were said.
    pub(crate) fn said(&self) -> usize {
        self.bytes.len()
    }

    /// How many bytes are under way.
    pub(crate) fn waits(&self) -> usize {
        self.bytes.len() - self.taken
    }

    /// The end says this too.
    pub(crate) fn say(&mut self, bytes: &[u8]) -> Result<(), NoMemory> {
        self.bytes.append(bytes)
    }

    /// So many of the bytes that are under way are taken.
    pub(crate) fn take(&mut self, alloc: Global, count: usize) -> Result<Octets, NoMemory> {
        let from = self.taken;
        self.taken = from + count;
        Octets::from_slice(alloc, &self.bytes.as_slice()[from..from + count])
    }

    /// Looks at the frames that are whole by now, none of which says BadState, and counts those of this
    /// message of XSMP.
    pub(crate) fn look(&mut self, rt: &(impl Abort + Alloc<A = Global>), minor: u8) -> u64 {
        let mut count: u64 = 0;
        let mut at = self.seen;
        while let Some(len) = frame_len(&self.bytes.as_slice()[at..]) {
            let frame = &self.bytes.as_slice()[at..at + len];
            assert!(rt; !is_bad_state(frame));
            if frame[0] != 0 && frame[1] == minor {
                count += 1;
            }
            at += len;
        }
        self.seen = at;
        count
    }
}
