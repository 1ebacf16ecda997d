//! The frame of a text: the opening, the rulers, the rows and the lines that follow [01, The lines of a text].
//! What is wrong here is a 3.

use crate::lines::{Lines, LONGEST_LINE};
use crate::names::is_label;
use crate::refusals::Refusal;
use crate::rows::{take_row, Cell, ROW_LINES};
use crate::rules::ROW_BITS;

pub const FORMATTED: &[u8] = b" is formatted as follows:";
pub const WHERE: &[u8] = b"where:";

pub struct Frame<'a> {
    pub name: &'a [u8],
    pub row_bits: u32,
    pub cells: Vec<Cell>,
    /// The number of the first field line, from 1.
    pub first_line: u32,
    pub field_lines: Vec<&'a [u8]>,
}

/// What the lines of a text are held to.
#[derive(Clone, Copy, Debug)]
pub struct Limits {
    /// The most lines of a bit row.
    pub row_lines: usize,
    /// The most bytes of a line, without its LF.
    pub line_bytes: usize,
}

impl Limits {
    /// Those in force.
    pub const CURRENT: Limits = Limits { row_lines: ROW_LINES, line_bytes: LONGEST_LINE };
}

/// The frame of a text, by these limits.
pub fn frame(text: &[u8], limits: Limits) -> Result<Frame<'_>, Refusal> {
    let mut lines = Lines::new(text, limits.line_bytes);
    let Some(name) = opening_name(lines.required()?) else { return lines.wrong() };
    lines.exactly(b"")?;
    let tens = lines.required()?;
    let Some(row_bits) = ROW_BITS.into_iter().find(|bits| tens_ruler(*bits) == tens) else {
        return lines.wrong();
    };
    lines.exactly(&units_ruler(row_bits))?;
    let border = border(row_bits);
    lines.exactly(&border)?;
    let cells = rows(&mut lines, row_bits, &border, limits.row_lines)?;
    lines.exactly(WHERE)?;
    lines.exactly(b"")?;
    let first_line = lines.taken + 1;
    let field_lines = remaining(&mut lines)?;
    Ok(Frame { name, row_bits, cells, first_line, field_lines })
}

/// NAME of the opening line.
fn opening_name(line: &[u8]) -> Option<&[u8]> {
    let named = line.strip_prefix(b"A ").or_else(|| line.strip_prefix(b"An "))?;
    named.strip_suffix(FORMATTED).filter(|name| is_label(name))
}

/// A space, then at column 2i+1 the digit i/10 for each i below W divisible by 10.
pub fn tens_ruler(row_bits: u32) -> Vec<u8> {
    let mut ruler = Vec::new();
    for tens in 0..row_bits.div_ceil(10) {
        ruler.resize(20 * tens as usize + 1, b' ');
        ruler.push(b'0' + tens as u8);
    }
    ruler
}

/// For each i below W a space and the digit i mod 10.
pub fn units_ruler(row_bits: u32) -> Vec<u8> {
    (0..row_bits).flat_map(|bit| [b' ', b'0' + (bit % 10) as u8]).collect()
}

pub fn border(row_bits: u32) -> Vec<u8> {
    let mut border = vec![b'+'];
    border.extend(b"-+".repeat(row_bits as usize));
    border
}

/// The cells of all rows, up to the empty line that ends them.
fn rows(lines: &mut Lines, row_bits: u32, border: &[u8], row_lines: usize) -> Result<Vec<Cell>, Refusal> {
    let mut cells = Vec::new();
    loop {
        let first = lines.required()?;
        if first.is_empty() && !cells.is_empty() {
            return Ok(cells);
        }
        cells.extend(take_row(lines, first, row_bits, row_lines)?);
        lines.exactly(border)?;
    }
}

/// One or more field lines, to the end of the text.
fn remaining<'a>(lines: &mut Lines<'a>) -> Result<Vec<&'a [u8]>, Refusal> {
    let mut field_lines = vec![lines.required()?];
    while let Some(line) = lines.next()? {
        field_lines.push(line);
    }
    if lines.rest.is_empty() {
        Ok(field_lines)
    } else {
        lines.ends_early()
    }
}

#[cfg(test)]
mod tests {
    use super::*;

    #[test]
    fn rulers() {
        assert_eq!(tens_ruler(8), b" 0");
        assert_eq!(tens_ruler(16), b" 0                   1");
        assert_eq!(tens_ruler(32).len(), 62);
        assert_eq!(units_ruler(8), b" 0 1 2 3 4 5 6 7");
        assert_eq!(border(8), b"+-+-+-+-+-+-+-+-+");
    }
}
