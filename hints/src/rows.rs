//! Rows of a diagram, and their cells.

use crate::faults::Fault;
use crate::limits::ROW_LINES;
use crate::row_faults::{cell_fault, first_line, is_row_like};
use std::ops::Range;

/// A cell, and where it stands.
#[derive(Clone, Debug)]
pub struct Cell {
    /// The first and the last line of its row, from 1.
    pub lines: (usize, usize),
    /// What it shows, with where each part of it stands.
    pub text: Vec<u8>,
    pub parts: Vec<Part>,
    /// Its width; none in a long row.
    pub bits: Option<usize>,
}

/// A part of a cell's text: its line, from 1, and its bytes there.
#[derive(Clone, Debug)]
pub struct Part {
    pub line: usize,
    pub spot: Range<usize>,
    /// Where it begins in the text.
    pub at: usize,
}

/// A row: the columns of its bars, and its lines so far with their numbers.
pub struct Row<'a> {
    pub bars: Vec<usize>,
    pub lines: Vec<(usize, &'a [u8])>,
    /// A line of it is wrong, and those behind that are taken as they are.
    pub is_spoiled: bool,
    /// So many of its lines were judged when a cell of it was told.
    pub told: usize,
}

impl<'a> Row<'a> {
    /// The row for so many bits that begins with this line, or what is wrong with that.
    pub fn start(line: &'a [u8], number: usize, row_bits: usize) -> Result<Self, Fault> {
        let bars = first_line(line, row_bits)?;
        Ok(Row { bars, lines: vec![(number, line)], is_spoiled: false, told: 0 })
    }

    pub fn is_long(&self) -> bool {
        self.lines[0].1[0] == b':'
    }

    pub fn first(&self) -> usize {
        self.lines[0].0
    }

    pub fn last(&self) -> usize {
        self.lines[self.lines.len() - 1].0
    }

    /// Whether a line has the row's length and bars.
    pub fn has_bars(&self, line: &[u8]) -> bool {
        !self.is_long() && line.len() == self.lines[0].1.len() && columns(line) == self.bars
    }

    /// Whether a line below is one of its lines.
    pub fn takes(&self, line: &[u8]) -> bool {
        (self.is_spoiled && is_row_like(line)) || (self.lines.len() < ROW_LINES && self.has_bars(line))
    }

    /// The cells of its lines so far, or what is wrong with one; the fault is in the last line.
    pub fn cells(&self) -> Result<Vec<Cell>, Fault> {
        let cells = self.bars.windows(2).map(|pair| {
            let cell = self.cell(pair[0], pair[1]);
            cell_fault(self, &cell, pair[0] + 1..pair[1]).map_or(Ok(cell), Err)
        });
        cells.collect()
    }

    fn cell(&self, bar: usize, next: usize) -> Cell {
        let is_bit = next - bar == 2;
        let (mut text, mut parts) = (Vec::new(), Vec::new());
        for (number, line) in &self.lines {
            let spot = trimmed(line, bar + 1..next);
            if spot.is_empty() {
                continue;
            }
            text.extend(if text.is_empty() || is_bit { &b""[..] } else { b" " });
            parts.push(Part { line: *number, spot: spot.clone(), at: text.len() });
            text.extend(&line[spot]);
        }
        let bits = (!self.is_long()).then_some((next - bar) / 2);
        Cell { lines: (self.first(), self.last()), text, parts, bits }
    }
}

/// The columns of the bars `|` in a line.
pub fn columns(line: &[u8]) -> Vec<usize> {
    (0..line.len()).filter(|at| line[*at] == b'|').collect()
}

/// A part of a line without the spaces at its ends; where there is nothing else, the empty part at its start.
pub fn trimmed(line: &[u8], part: Range<usize>) -> Range<usize> {
    let bytes = &line[part.clone()];
    let Some(first) = bytes.iter().position(|byte| *byte != b' ') else {
        return part.start..part.start;
    };
    let behind = bytes.iter().rev().take_while(|byte| **byte == b' ').count();
    part.start + first..part.end - behind
}
