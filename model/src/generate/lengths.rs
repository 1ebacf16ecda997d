//! Texts with lines about as long as a line may be, right ones and longer ones [02, R-9], and texts about as long as a
//! text may be.

use super::{edits, Rng};
use crate::frames::WHERE;
use crate::lines::LONGEST_LINE;
use crate::texts::LONGEST_TEXT;

/// How much longer than the longest line, shifted by one: from one less to two more.
const LENGTHS: [usize; 8] = [0, 1, 1, 2, 2, 2, 3, 3];
/// The index of the first line of a row.
const FIRST_ROW: usize = 5;
/// Two of so many are longer than that.
const FAR: usize = 12;

/// A right text with remarks that make it as long as a text may be, or a little longer, if its lines can be that long.
pub fn padded(text: Vec<u8>, rng: &mut Rng) -> Vec<u8> {
    let length = LONGEST_TEXT + rng.pick([0, 0, 1, 2]);
    let mut missing = length.saturating_sub(text.len());
    let mut lines = lines(&text);
    let first = first_field(&lines);
    for line in lines.iter_mut().skip(first).rev().filter(|line| !line.is_empty()) {
        let most = LONGEST_LINE.saturating_sub(line.len()).min(missing);
        remark(rng, line, most);
        missing -= most;
    }
    lines.join(&b'\n')
}

/// A right text with a remark that makes one or two of its field lines as long as a line may be, or a byte less.
pub fn long_remarks(text: Vec<u8>, rng: &mut Rng) -> Vec<u8> {
    let mut lines = lines(&text);
    for _ in 0..rng.between(1, 2) {
        let at = field_at(rng, &lines);
        let more = (LONGEST_LINE - rng.below(2)).saturating_sub(lines[at].len());
        remark(rng, &mut lines[at], more);
    }
    lines.join(&b'\n')
}

/// A text with a line that is most often too long, at times with something else that is wrong.
pub fn long_line(text: Vec<u8>, rng: &mut Rng) -> Vec<u8> {
    let text = match rng.below(6) {
        0 => edits::edit_bytes(text, rng, &edits::TEXT_BYTES),
        1 => edits::edit_lines(text, rng),
        _ => text,
    };
    let mut lines = lines(&text);
    let at = match rng.below(8) {
        0 => 0,
        1 => FIRST_ROW.min(lines.len() - 1),
        2 => rng.below(first_field(&lines)),
        3 => lines.len().saturating_sub(2),
        _ => field_at(rng, &lines),
    };
    stretch(rng, &mut lines[at]);
    match rng.below(8) {
        0 => lines[at].push(rng.pick([b'\t', b'\r', 0x7F, 0xFF])),
        1 => lines.truncate(at + 1),
        2 => {
            let other = rng.below(lines.len());
            stretch(rng, &mut lines[other]);
        }
        _ => {}
    }
    lines.join(&b'\n')
}

/// The lines of a text, and what stands behind the last LF.
fn lines(text: &[u8]) -> Vec<Vec<u8>> {
    text.split(|byte| *byte == b'\n').map(<[u8]>::to_vec).collect()
}

/// The index of the first field line, or the number of lines.
fn first_field(lines: &[Vec<u8>]) -> usize {
    lines.iter().position(|line| line == WHERE).map_or(lines.len(), |at| (at + 2).min(lines.len()))
}

/// The index of a field line; of any line where there is none.
fn field_at(rng: &mut Rng, lines: &[Vec<u8>]) -> usize {
    let (first, last) = (first_field(lines), lines.len().saturating_sub(2));
    if first <= last {
        rng.between(first, last)
    } else {
        rng.below(lines.len())
    }
}

/// A line gets a remark of so many bytes, its space included.
fn remark(rng: &mut Rng, line: &mut Vec<u8>, bytes: usize) {
    if bytes > 0 {
        let end = line.len() + bytes;
        line.push(b' ');
        line.resize(end, rng.pick([b'.', b' ', b'|', b'x']));
    }
}

/// A line gets about as long as a line may be, or far longer; one that is longer is cut.
fn stretch(rng: &mut Rng, line: &mut Vec<u8>) {
    let length = match rng.below(FAR) {
        0 => rng.between(LONGEST_LINE + 1, LONGEST_TEXT),
        1 => LONGEST_TEXT - rng.below(3),
        _ => LONGEST_LINE - 1 + rng.pick(LENGTHS),
    };
    let more = length.saturating_sub(line.len());
    remark(rng, line, more);
    line.truncate(length);
}
