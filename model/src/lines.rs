//! The lines of a text, one after another, and the refusals 3 that they give: a line is of at most 1,024 bytes, its LF
//! not counted [01, The lines of a text] [02, R-9].

use crate::refusals::{refused, Refusal};

/// The most bytes of a line, without its LF.
pub const LONGEST_LINE: usize = 1_024;
const WRONG_LINE: u32 = 3;

pub struct Lines<'a> {
    /// The most bytes of a line, without its LF.
    most: usize,
    /// What follows the lines taken so far.
    pub rest: &'a [u8],
    /// How many lines are taken.
    pub taken: u32,
}

impl<'a> Lines<'a> {
    /// The lines of a text, by a limit of so many bytes to a line.
    pub fn new(text: &'a [u8], most: usize) -> Self {
        Lines { most, rest: text, taken: 0 }
    }

    /// The next line that ends in LF, without it; it is not taken.
    pub fn peek(&self) -> Option<&'a [u8]> {
        let length = self.rest.iter().position(|byte| *byte == b'\n')?;
        Some(&self.rest[..length])
    }

    /// The next line that ends in LF, without it, if there is one; a line that is too long is wrong.
    pub fn next(&mut self) -> Result<Option<&'a [u8]>, Refusal> {
        let Some(line) = self.peek() else { return Ok(None) };
        self.rest = &self.rest[line.len() + 1..];
        self.taken += 1;
        if line.len() > self.most {
            return self.wrong();
        }
        Ok(Some(line))
    }

    /// The next line, or the refusal of a text that ends early.
    pub fn required(&mut self) -> Result<&'a [u8], Refusal> {
        self.next()?.map_or_else(|| self.ends_early(), Ok)
    }

    /// Takes a line that has to be `line`.
    pub fn exactly(&mut self, line: &[u8]) -> Result<(), Refusal> {
        if self.required()? == line {
            Ok(())
        } else {
            self.wrong()
        }
    }

    /// The line taken last is wrong.
    pub fn wrong<T>(&self) -> Result<T, Refusal> {
        refused(WRONG_LINE, self.taken)
    }

    /// No whole line is left where one is due, or bytes are left after the last LF.
    pub fn ends_early<T>(&self) -> Result<T, Refusal> {
        refused(WRONG_LINE, self.taken + 1)
    }
}
