//! What is wrong with the lines of a row, and with its cells.

use crate::faults::Fault;
use crate::limits::ROW_LINES;
use crate::names::label_fault;
use crate::rows::{columns, Cell, Row};
use crate::shown::{counted, found};
use std::ops::Range;

/// The columns of the bars of a row's first line, or what is wrong with that line, its cells' texts apart.
pub fn first_line(line: &[u8], row_bits: usize) -> Result<Vec<usize>, Fault> {
    let bar = match line.first() {
        Some(bar @ (b'|' | b':')) => *bar,
        _ => return Err(no_row(line)),
    };
    row_length("row", line, 2 * row_bits + 1)?;
    row_end(line, bar)?;
    let last = line.len() - 1;
    if bar == b'|' {
        return odd_bar(line).map_or_else(|| Ok(columns(line)), Err);
    }
    match line[1..last].iter().position(|byte| matches!(byte, b'|' | b':')) {
        None => Ok(vec![0, last]),
        Some(at) => {
            let message = format!("a row between `:` is one cell, found {} within it", found(line, at + 1));
            Err(Fault::new(at + 1..at + 2, message, "no bars within a long row"))
        }
    }
}

fn no_row(line: &[u8]) -> Fault {
    let message = format!("expected a row, found {}", found(line, 0));
    Fault::new(0..1, message, "expected `|` or `:`").note(
        "a row begins and ends with `|`, or with `:` if its field's length differs from packet to packet",
    )
}

/// Whether a row, or a further line of one, is as long as is due.
fn row_length(what: &str, line: &[u8], due: usize) -> Result<(), Fault> {
    if line.len() == due {
        return Ok(());
    }
    let spot = if line.len() < due { line.len()..line.len() + 1 } else { due..line.len() };
    let message = format!("this {what} has {}, needs {due}", counted(line.len() as u64, "character"));
    let label = format!("{}, needs {due}", counted(line.len() as u64, "character"));
    Err(Fault::new(spot, message, label).note(format!(
        "a row is as long as its border: two characters a bit and one more, {} bits here",
        due / 2
    )))
}

fn row_end(line: &[u8], bar: u8) -> Result<(), Fault> {
    let last = line.len() - 1;
    if line[last] == bar {
        return Ok(());
    }
    let (first, end) = (char::from(bar), found(line, last));
    let message = format!("a row that begins with `{first}` ends with `{first}`; found {end}");
    Err(Fault::new(last..last + 1, message, format!("expected `{first}`")))
}

fn odd_bar(line: &[u8]) -> Option<Fault> {
    let at = columns(line).into_iter().find(|at| at % 2 == 1)?;
    let message = format!("bar at column {}: bars stand under a `+` of the border, at odd columns", at + 1);
    let fault = Fault::new(at..at + 1, message, "bars stand at odd columns");
    Some(fault.note("a bit takes two columns: a cell of n bits has 2n - 1 characters between its bars"))
}

/// What is wrong with a line behind a row that is none of its own; `border` says that the border is missing.
pub fn line_behind(row: &Row, line: &[u8], border: Fault) -> Fault {
    match line_fault(row, line) {
        Some(fault) => fault,
        None if is_row_like(line) && shares_bar(row, line) => {
            let other = other_bars(row, line).message;
            border.note(format!("or, if it is a further line of the row above: {other}"))
        }
        None => border,
    }
}

pub fn is_row_like(line: &[u8]) -> bool {
    matches!(line, [b'|' | b':', ..])
}

fn shares_bar(row: &Row, line: &[u8]) -> bool {
    let inner = &row.bars[1..row.bars.len() - 1];
    line.len() == row.lines[0].1.len() && inner.iter().any(|bar| line[*bar] == b'|')
}

/// What is wrong with a line that is not of the row, where it is to be one; none where it is better taken for the next
/// row.
pub fn line_fault(row: &Row, line: &[u8]) -> Option<Fault> {
    let first = row.lines[0].1;
    if !is_row_like(line) || is_next_row(row, line) {
        return None;
    }
    if row.is_long() {
        let message = format!("a row between `:` has one line, line {}", row.first());
        return Some(Fault::new(0..line.len(), message, "a second line").note(BORDER_BELOW));
    }
    if row.has_bars(line) {
        let message =
            format!("a row has at most {ROW_LINES} lines, and this one begins at line {}", row.first());
        return Some(Fault::new(0..line.len(), message, "the fifth line").note(BORDER_BELOW));
    }
    if line[0] != b'|' {
        return None;
    }
    let shape = row_length("line", line, first.len()).and_then(|()| row_end(line, b'|'));
    Some(shape.err().unwrap_or_else(|| other_bars(row, line)).note(SAME_BARS))
}

const BORDER_BELOW: &str = "below the last line of a row stands the border";
const SAME_BARS: &str =
    "all lines of a row have the bars of its first line; the border stands below the last";

/// The first column where a line of a row has another bar than the row's first line.
fn other_bars(row: &Row, line: &[u8]) -> Fault {
    let has = columns(line);
    let differs = |at: &usize| has.contains(at) != row.bars.contains(at);
    let at = (0..line.len()).find(differs).unwrap_or_default();
    let (column, first) = (at + 1, row.first());
    let (message, label) = if has.contains(&at) {
        (format!("bar at column {column}, where the row's first line, line {first}, has none"), "no bar here")
    } else {
        (
            format!("no bar at column {column}, where the row's first line, line {first}, has one"),
            "expected `|`",
        )
    };
    Fault::new(at..at + 1, message, label)
}

/// Whether a line below a row of one line is a whole row as that is.
fn is_next_row(row: &Row, line: &[u8]) -> bool {
    let next = Row::start(line, 0, row.lines[0].1.len() / 2);
    row.lines.len() == 1 && row.cells().is_ok() && next.is_ok_and(|next| next.cells().is_ok())
}

/// What is wrong with the text of a cell that has these columns; the fault is in the row's last line.
pub fn cell_fault(row: &Row, cell: &Cell, columns: Range<usize>) -> Option<Fault> {
    let (first, last) = cell.lines;
    let fault = match cell.parts.first() {
        Some(part) if first == last => label_fault(&cell.text, part.spot.start, "the cell"),
        None if first == last => label_fault(&cell.text, columns.start, "the cell"),
        _ => label_fault(&cell.text, 0, &format!("the cell on lines {first} to {last}")),
    }?;
    let fault = if first == last { fault } else { placed(row, cell, columns, fault) };
    let note = "each cell shows its field's label or short name; a reserved field needs one too";
    Some(if cell.text.is_empty() { fault.note(note) } else { fault })
}

/// A fault of a text that stands on several lines, whose spot is in the text: in the last line where it is there, else
/// at the cell, with a note of its line and column.
fn placed(row: &Row, cell: &Cell, columns: Range<usize>, fault: Fault) -> Fault {
    let Range { start, end } = fault.spot;
    let holds = |at: usize, length: usize| at <= start && end <= at + length;
    let part = cell.parts.iter().find(|part| holds(part.at, part.spot.len()));
    let made = if columns.len() == 1 {
        "a cell of one bit is read from top to bottom, blanks dropped"
    } else {
        "the lines of a cell are joined by one space"
    };
    let at = part.map(|part| (part.line, part.spot.start + start - part.at));
    let (spot, note) = match at {
        Some((line, column)) if line == row.last() => (column..column + end - start, None),
        Some((line, column)) => (columns, Some(format!("it is at line {line}, column {}", column + 1))),
        None => (columns, None),
    };
    Fault { spot, ..fault }.note_if(note).note(made)
}
