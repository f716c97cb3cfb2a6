//! What the rows of tables write.

use client_quirks::{PieceList, StreamPiece};
use owned_lists::{NoMemory, Octets};
use std::alloc::Global;
use std::test::Fail;

/// The bytes that a row writes as hex digits.
pub fn bytes_of(alloc: Global, digits: &str) -> Result<Vec<u8>, Fail> {
    Ok(hex::decode(alloc, digits)?)
}

/// The piece that a row writes as hex digits.
pub fn piece_of(alloc: Global, digits: &str) -> Result<StreamPiece, Fail> {
    let bytes = Octets::from_vec(bytes_of(alloc, digits)?);
    if bytes.len() == 0 || bytes.len() > 65_536 {
        return Err("no piece".into());
    }
    Ok(StreamPiece::new(bytes))
}

/// Adds pieces in hex digits with a stroke behind each, or a dash where there are none.
pub fn put_pieces(alloc: Global, pieces: &PieceList, text: &mut String) -> Result<(), Fail> {
    if pieces.as_slice().is_empty() {
        text.push_str("-")?;
    }
    for piece in pieces.as_slice() {
        text.push_str(hex::encode(alloc, piece.as_slice())?.as_str())?;
        text.push_str("/")?;
    }
    Ok(())
}
