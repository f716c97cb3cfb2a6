//! What the rows of the tables write: bytes in either order, and frames.

ghost use Rattle.std.specs.Prelude.{◌<◌, IfOk, IsTrue};
ghost use Rattle.ice_values.specs.Frames.{IsFrame};

use hex_rows::bytes_of;
use ice_values::{Endian, put_card32, read_card32};
use owned_lists::{NoMemory, Octets};
use std::alloc::Global;
use std::test::Fail;

/// The order and the bytes that an input names: `l` is for the least significant byte first, and `m`
/// for the most.
pub fn spelled(alloc: Global, input: &str) -> Result<(Endian, Vec<u8>), Fail> {
    let Some((order, digits)) = input.split_once(' ') else {
        return Err("bytes without an order".into());
    };
    let endian = if order == "l" {
        Endian::Lsb
    } else {
        Endian::Msb
    };
    Ok((endian, bytes_of(alloc, digits)?))
}

pub fn other(endian: Endian) -> Endian {
    match endian {
        Endian::Lsb => Endian::Msb,
        Endian::Msb => Endian::Lsb,
    }
}

/// One text for both, where they agree.
pub fn agreed(first: String, second: String) -> Result<String, Fail> {
    if first.as_str() != second.as_str() {
        return Err("the orders of bytes differ".into());
    }
    Ok(first)
}

/// Whether a header has as many units behind it as it says.
pub fn is_frame(endian: Endian, bytes: &[u8]) -> bool
    ensures { IsTrue result → IsFrame endian bytes.now }
{
    if bytes.len() < 8 {
        return false;
    }
    let (_, length) = bytes.split_at(4);
    bytes.len() == 8 + 8 * read_card32(endian, length) as usize
}

/// How many units a frame has behind its header.
pub fn units_of(frame: &[u8]) -> Result<u32, Fail>
    ensures { IfOk result (λ units. units < 1000) }
{
    if frame.len() < 8 || frame.len() >= 1000 {
        return Err("no frame of this length".into());
    }
    Ok(((frame.len() - 8) / 8) as u32)
}

/// The same frame with so many units, cut or filled up with zeros.
pub fn with_units(
    alloc: Global,
    endian: Endian,
    frame: &[u8],
    units: u32,
) -> Result<Octets, NoMemory> {
    let size = 8 * units as usize;
    let mut changed = Octets::new(alloc);
    let (head, rest) = frame.split_at(frame.len().min(4));
    changed.append(head)?;
    put_card32(endian, units, &mut changed)?;
    let (_, body) = rest.split_at(rest.len().min(4));
    let (body, _) = body.split_at(body.len().min(size));
    changed.append(body)?;
    for _ in body.len()..size {
        changed.append(&[0])?;
    }
    Ok(changed)
}
