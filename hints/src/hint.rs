//! What is said of a refusal.

use crate::lines::line_of;
use crate::shown::shown;
use std::ops::Range;

/// A refusal of the library: its number, and its place as document 01 has it.
#[derive(Clone, Copy, Debug, PartialEq, Eq)]
pub struct Verdict {
    pub number: u32,
    pub place: u32,
}

/// A page's mistake. Lines and columns count from 1, columns in bytes.
#[derive(Clone, Debug, Default, PartialEq, Eq)]
pub struct Hint {
    /// The refusal's number.
    pub number: u32,
    /// The line; 0 where the mistake is in none.
    pub line: usize,
    /// The column; 0 where only the number's meaning is told, or the mistake is in no line.
    pub column: usize,
    /// So many bytes are meant, from the column on; at least 1 where there is a column.
    pub width: usize,
    /// What was expected, and what was found.
    pub message: String,
    /// The same in short, for the caret.
    pub label: String,
    /// How to mend it.
    pub notes: Vec<String>,
    /// Further mistakes of the page, in the order of lines, [`ALSO_MOST`] at most.
    pub also: Vec<Also>,
}

/// So many bytes of a line are shown on each side of the place.
const AROUND: usize = 80;

impl Hint {
    /// The line as it may be shown, and the bytes in it that are meant: empty at its end, and none where there is no
    /// column. Of a long line the part round the place is shown. What is not from 0x20 to 0x7E is a question mark, a
    /// character for each byte.
    pub fn shown_line(&self, page: &[u8]) -> (String, Option<Range<usize>>) {
        let line = line_of(page, self.line);
        let at = self.column.saturating_sub(1).min(line.len());
        let most = line.len().saturating_sub(AROUND);
        let start = if line.len() <= 2 * AROUND { 0 } else { at.saturating_sub(AROUND).min(most) };
        let end = line.len().min(start + 2 * AROUND);
        let (before, behind) = (if start > 0 { ".." } else { "" }, if end < line.len() { ".." } else { "" });
        let part = format!("{before}{}{behind}", shown(&line[start..end]));
        let from = at - start + before.len();
        let meant = from..(from + self.width).min(part.len());
        (part, (self.column > 0).then_some(meant))
    }
}

/// So many further mistakes are told.
pub const ALSO_MOST: usize = 10;

/// A further mistake.
#[derive(Clone, Debug, PartialEq, Eq)]
pub struct Also {
    pub number: u32,
    pub line: usize,
    pub column: usize,
    pub message: String,
}
