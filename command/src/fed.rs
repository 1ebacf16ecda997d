//! A page from standard input: each part goes to the library as it comes, and its answer is that of these pieces. The
//! start of the page is kept for messages alone.

use umarekoza::{Pieces, TEXT_MOST};

pub struct Fed {
    pub pieces: Pieces,
    /// The start of the page: all of it, unless it is too long.
    pub start: Vec<u8>,
    /// The bytes of all parts.
    pub length: u64,
}

impl Fed {
    /// A page of no parts.
    pub fn new() -> Self {
        Fed { pieces: Pieces::new(), start: Vec::new(), length: 0 }
    }

    pub fn take(&mut self, part: &[u8]) {
        self.pieces.piece(part);
        self.length += part.len() as u64;
        let room = TEXT_MOST - self.start.len();
        self.start.extend_from_slice(&part[..part.len().min(room)]);
    }
}
