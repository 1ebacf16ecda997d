//! Rows of a diagram and their cells: a bit row is of one or more lines with the same bars, a long row of one line
//! [01, The lines of a text] [02, R-1].

use crate::lines::Lines;
use crate::names::is_label;
use crate::refusals::Refusal;

/// The most lines of a bit row.
pub const ROW_LINES: usize = 4;

/// A cell: its text, and its bits, none in a long row.
pub struct Cell {
    pub text: Vec<u8>,
    pub bits: Option<u32>,
}

/// The row whose first line is `first`, the line taken last: takes its other lines, `most` in all, and gives its cells.
pub fn take_row(lines: &mut Lines, first: &[u8], row_bits: u32, most: usize) -> Result<Vec<Cell>, Refusal> {
    let Some(bars) = bars(first, row_bits) else { return lines.wrong() };
    let mut row = vec![first];
    let is_long = first[0] == b':';
    while !is_long && row.len() < most {
        let Some(line) = lines.peek().filter(|line| has_bars(line, &bars)) else { break };
        row.push(line);
        lines.next()?;
    }
    let cells: Option<Vec<Cell>> =
        bars.windows(2).map(|pair| cell(&row, pair[0], pair[1], is_long)).collect();
    cells.map_or_else(|| lines.wrong(), Ok)
}

/// The columns of the bars of a row's first line: for a bit row all at even columns, for a long row its two ends.
pub fn bars(line: &[u8], row_bits: u32) -> Option<Vec<usize>> {
    let last = 2 * row_bits as usize;
    if line.len() != last + 1 {
        return None;
    }
    match (line[0], line[last]) {
        (b':', b':') => Some(vec![0, last]),
        (b'|', b'|') => Some(columns(line)).filter(|bars| bars.iter().all(|bar| bar % 2 == 0)),
        _ => None,
    }
}

/// Whether a line is as long as a row's first and has its bars, no others.
pub fn has_bars(line: &[u8], bars: &[usize]) -> bool {
    Some(&(line.len().wrapping_sub(1))) == bars.last() && columns(line) == bars
}

fn columns(line: &[u8]) -> Vec<usize> {
    (0..line.len()).filter(|column| line[*column] == b'|').collect()
}

/// The cell between two bars of a row, if its text is a label.
fn cell(row: &[&[u8]], bar: usize, next: usize, is_long: bool) -> Option<Cell> {
    let parts: Vec<&[u8]> = row.iter().map(|line| &line[bar + 1..next]).collect();
    let text = if next - bar == 2 { downwards(&parts) } else { joined(&parts) };
    let bits = (!is_long).then_some((next - bar) as u32 / 2);
    is_label(&text).then_some(Cell { text, bits })
}

/// The characters of a one-bit cell from top to bottom, blanks dropped.
pub fn downwards(parts: &[&[u8]]) -> Vec<u8> {
    parts.concat().into_iter().filter(|byte| *byte != b' ').collect()
}

/// The trimmed lines of a wider cell that are not empty, joined by one space.
pub fn joined(parts: &[&[u8]]) -> Vec<u8> {
    let lines: Vec<&[u8]> =
        parts.iter().map(|part| part.trim_ascii()).filter(|part| !part.is_empty()).collect();
    lines.join(&b' ')
}

#[cfg(test)]
mod tests {
    use super::*;

    #[test]
    fn texts_of_cells() {
        assert_eq!(downwards(&[b"S", b" ", b"Y", b"N"]), b"SYN");
        assert_eq!(joined(&[b"  Data  ", b"        ", b" Offset "]), b"Data Offset");
        assert_eq!(joined(&[b" ", b"   "]), b"");
    }

    #[test]
    fn bars_of_lines() {
        assert_eq!(bars(b"|A|B  |C  | D   |", 8), Some(vec![0, 2, 6, 10, 16]));
        assert_eq!(bars(b": A | B : C     :", 8), Some(vec![0, 16]));
        assert!(bars(b"|A  |B|  C      |", 8).is_some() && bars(b"|A |B  C         |", 8).is_none());
        assert!(bars(b"|A              :", 8).is_none() && bars(b"|A             |", 8).is_none());
        assert!(has_bars(b"|A|B  |", &[0, 2, 6]) && !has_bars(b"|A|B| |", &[0, 2, 6]));
        assert!(!has_bars(b"|A|B  | ", &[0, 2, 6]) && !has_bars(b"", &[0, 2, 6]));
    }
}
