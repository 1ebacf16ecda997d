use crate::{calls, written, Refusal, STATE_BYTES, TABLE_MOST};
use std::{fmt, io};

/// Leaves in a state what is kept of a text of no bytes: the same bytes, whatever it held.
///
/// It takes the first [`STATE_BYTES`] bytes of the state; a shorter one stays as it is.
///
/// ```
/// use umarekoza::{text_end, text_piece, text_start, Refusal, STATE_BYTES};
/// let mut state = vec![0; STATE_BYTES];
/// text_start(&mut state);
/// text_piece(&mut state, b"A Tag is form");
/// text_piece(&mut state, b"");
/// text_piece(&mut state, b"atted as follows:\n");
/// // A text that ends there has a second line missing.
/// assert_eq!(text_end(&state, &mut []), Err(Refusal { number: 3, place: 2 }));
/// assert_eq!(text_end(&state[1..], &mut []), Err(Refusal { number: 11, place: 0 }));
/// ```
pub fn text_start(state: &mut [u8]) {
    calls::text_start(state);
}

/// Takes the next bytes of a text, any number of them, none too: the state then holds what is kept of the longer text.
///
/// A state of fewer than [`STATE_BYTES`] bytes stays as it is.
pub fn text_piece(state: &mut [u8], piece: &[u8]) {
    calls::text_piece(state, piece);
}

/// Ends a text: writes its table to the start of `out` and answers its length, as [`crate::write_table`] does for the
/// joined text. The state stays as it is, so that further pieces may follow.
///
/// Refuses by 1 to 11, and by 11 too if the state has fewer than [`STATE_BYTES`] bytes. A refusal leaves `out` as it
/// was. A state that no pieces left may get any answer.
pub fn text_end(state: &[u8], out: &mut [u8]) -> Result<usize, Refusal> {
    calls::text_end(state, out).settled().map(|length| length as usize)
}

/// A page text that comes in pieces, cut anywhere, some with no bytes. Its table is that of the joined text, which is
/// not kept.
///
/// ```
/// let page = include_bytes!("../../examples/pages/blade-report.txt");
/// let mut pieces = umarekoza::Pieces::new();
/// for piece in page.chunks(7) {
///     pieces.piece(piece);
/// }
/// assert_eq!(pieces.table(), umarekoza::table_of(page));
///
/// // A second text, with the same room.
/// pieces.start();
/// pieces.piece(b"A Tag");
/// assert_eq!(pieces.table(), Err(umarekoza::Refusal { number: 3, place: 1 }));
/// ```
///
/// As a writer it takes every piece that is written:
///
/// ```
/// let page = include_bytes!("../../examples/pages/blade-report.txt");
/// let mut pieces = umarekoza::Pieces::new();
/// std::io::copy(&mut &page[..], &mut pieces)?;
/// assert!(pieces.table().is_ok());
/// # Ok::<(), std::io::Error>(())
/// ```
#[derive(Clone)]
pub struct Pieces {
    state: Box<[u8]>,
}

impl Pieces {
    /// A text of no bytes.
    pub fn new() -> Self {
        let mut pieces = Pieces { state: vec![0; STATE_BYTES].into_boxed_slice() };
        pieces.start();
        pieces
    }

    /// A text whose pieces left this state, which was stored or sent: its first [`STATE_BYTES`] bytes. None if there
    /// are fewer.
    ///
    /// ```
    /// use umarekoza::Pieces;
    /// # let page = include_bytes!("../../examples/pages/blade-report.txt");
    /// let mut pieces = Pieces::new();
    /// pieces.piece(&page[..100]);
    /// let stored = pieces.state().to_vec();
    ///
    /// let mut later = Pieces::from_state(&stored).unwrap();
    /// later.piece(&page[100..]);
    /// assert_eq!(later.table(), umarekoza::table_of(page));
    /// ```
    pub fn from_state(state: &[u8]) -> Option<Self> {
        state.get(..STATE_BYTES).map(|state| Pieces { state: state.into() })
    }

    /// What is kept between pieces, the same bytes on every machine.
    pub fn state(&self) -> &[u8] {
        &self.state
    }

    /// Begins a text anew.
    pub fn start(&mut self) {
        text_start(&mut self.state);
    }

    /// Takes the next bytes of the text, any number of them, none too.
    pub fn piece(&mut self, piece: &[u8]) {
        text_piece(&mut self.state, piece);
    }

    /// Writes the table of the text so far to the start of `out` and answers its length. Refuses by 1 to 11. More
    /// pieces may follow.
    pub fn end(&self, out: &mut [u8]) -> Result<usize, Refusal> {
        text_end(&self.state, out)
    }

    /// The table of the text so far. Refuses by 1 to 10.
    pub fn table(&self) -> Result<Vec<u8>, Refusal> {
        written(TABLE_MOST, |out| self.end(out))
    }
}

impl Default for Pieces {
    fn default() -> Self {
        Pieces::new()
    }
}

impl fmt::Debug for Pieces {
    fn fmt(&self, to: &mut fmt::Formatter<'_>) -> fmt::Result {
        to.debug_struct("Pieces").finish_non_exhaustive()
    }
}

impl io::Write for Pieces {
    fn write(&mut self, piece: &[u8]) -> io::Result<usize> {
        self.piece(piece);
        Ok(piece.len())
    }

    fn flush(&mut self) -> io::Result<()> {
        Ok(())
    }
}
