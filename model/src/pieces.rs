//! A text that comes in pieces, cut anywhere and some with no bytes [02, R-9]: at the end it has the answer and the
//! table of the joined text.

use crate::refusals::Refusal;
use crate::texts::write_table;

/// The table of the text that these pieces are, for an output of `room` bytes.
pub fn write_pieces(pieces: &[&[u8]], room: usize) -> Result<Vec<u8>, Refusal> {
    write_table(&pieces.concat(), room)
}
