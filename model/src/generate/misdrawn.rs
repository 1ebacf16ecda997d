//! Texts with a row that is most often wrong: bars that differ, lines too many, cells that are no labels, lines that
//! may not follow, and texts that end there [02, R-1].

use super::Rng;
use crate::names::LONGEST_LABEL;
use crate::rows::ROW_LINES;
use std::ops::Range;

/// Bytes that may stand in a cell, or not.
const ODD: [u8; 8] = *b"--- A_.:";

/// A text with changes to one of its rows: to a cell, to what is drawn below the row's first line, or both.
pub fn misdraw(text: Vec<u8>, rng: &mut Rng) -> Vec<u8> {
    let mut lines: Vec<Vec<u8>> = text.split(|byte| *byte == b'\n').map(<[u8]>::to_vec).collect();
    let rows = rows(&lines);
    let tall: Vec<Range<usize>> = rows.iter().filter(|row| row.len() > 1).cloned().collect();
    let among = if tall.is_empty() || rng.one_in(4) { &rows } else { &tall };
    let Some(row) = among.get(rng.below(among.len())).cloned() else { return text };
    let both = rng.one_in(3);
    if both || rng.one_in(2) {
        spoil_cell(rng, &mut lines[row.clone()]);
        if !both {
            return lines.join(&b'\n');
        }
    }
    match rng.below(10) {
        0 | 1 => rebar(rng, &mut lines, &row),
        2 | 3 => lengthen(rng, &mut lines, &row),
        4 => unborder(rng, &mut lines, &row),
        5 => stretch(rng, &mut lines, &row),
        6 => swap(rng, &mut lines, &row),
        _ => return cut(rng, &lines, &row),
    }
    lines.join(&b'\n')
}

/// The lines of each row: those below a border that begin with a bar.
fn rows(lines: &[Vec<u8>]) -> Vec<Range<usize>> {
    let is_row = |line: &Vec<u8>| matches!(line.first(), Some(b'|' | b':'));
    let starts = (1..lines.len()).filter(|at| lines[at - 1].starts_with(b"+-") && is_row(&lines[*at]));
    starts.map(|start| start..start + lines[start..].iter().take_while(|line| is_row(line)).count()).collect()
}

/// A cell of a row becomes empty, on all its lines or on one, gets an odd byte, or is as long as a label or longer.
fn spoil_cell(rng: &mut Rng, row: &mut [Vec<u8>]) {
    let is_bar = |byte: &u8| matches!(byte, b'|' | b':');
    let bars: Vec<usize> = (0..row[0].len()).filter(|column| is_bar(&row[0][*column])).collect();
    let cell = rng.below(bars.len().saturating_sub(1));
    let &[bar, next, ..] = &bars[cell..] else { return };
    let line = if rng.one_in(2) { row.len() - 1 } else { rng.below(row.len()) };
    match rng.below(5) {
        0 => row.iter_mut().for_each(|line| blank(line, bar + 1..next)),
        1 => blank(&mut row[line], bar + 1..next),
        2 if next - bar > LONGEST_LABEL / ROW_LINES => fill(rng, row, bar + 1..next),
        kind => {
            let odd = rng.pick(ODD);
            let part = row[line].get_mut(bar + 1..next).unwrap_or_default();
            let last = part.iter().rposition(|byte| *byte != b' ').unwrap_or(0);
            let column = if kind == 3 { last } else { rng.below(part.len()) };
            part.iter_mut().skip(column).take(1).for_each(|byte| *byte = odd);
        }
    }
}

/// Letters on the lines of a cell, as many in all as a label may have, or more.
fn fill(rng: &mut Rng, row: &mut [Vec<u8>], part: Range<usize>) {
    let mut left = LONGEST_LABEL + rng.pick([0, 1, 1, 9]);
    let lines = row.len();
    for (above, line) in row.iter_mut().enumerate() {
        let most = left.min(part.len());
        let length = if above + 1 == lines { most } else { rng.between(most / 2, most) };
        blank(line, part.clone());
        line.iter_mut().skip(part.start).take(length).for_each(|byte| *byte = b'A');
        left = left.saturating_sub(length + 1);
    }
}

fn blank(line: &mut [u8], part: Range<usize>) {
    line.get_mut(part).unwrap_or_default().fill(b' ');
}

/// A line of the row, most often not its first; a line of blanks with its bars is added if there is no other.
fn further(rng: &mut Rng, lines: &mut Vec<Vec<u8>>, row: &Range<usize>) -> usize {
    if row.len() == 1 {
        lines.insert(row.end, blanked(&lines[row.start]));
        return row.end;
    }
    let above = usize::from(!rng.one_in(6));
    rng.between(row.start + above, row.end - 1)
}

/// A line with nothing but its bars.
fn blanked(line: &[u8]) -> Vec<u8> {
    line.iter().map(|byte| if *byte == b'|' { b'|' } else { b' ' }).collect()
}

/// A bar of a line is taken out, moved or added, or an end of the line is another.
fn rebar(rng: &mut Rng, lines: &mut Vec<Vec<u8>>, row: &Range<usize>) {
    let at = further(rng, lines, row);
    let line = &mut lines[at];
    let bars: Vec<usize> = (1..line.len().saturating_sub(1)).filter(|column| line[*column] == b'|').collect();
    let bar = bars.get(rng.below(bars.len())).copied();
    let column = rng.between(1, line.len().saturating_sub(2));
    match (rng.below(7), bar) {
        (0 | 5 | 6, Some(bar)) => line[bar] = rng.pick([b' ', b'A', b':']),
        (1, Some(bar)) => line.swap(bar, column),
        (2, _) => line[column] = b'|',
        (3, _) => line[column / 2 * 2] = b'|',
        _ => {
            let end = if rng.one_in(2) { 0 } else { line.len() - 1 };
            line[end] = rng.pick([b':', b' ', b'+', b'A']);
        }
    }
}

/// Lines are added to the row, up to one or two more than there may be: blank ones, its last or its first again, or
/// what may stand below a row of the other sort.
fn lengthen(rng: &mut Rng, lines: &mut Vec<Vec<u8>>, row: &Range<usize>) {
    let most = ROW_LINES + rng.pick([0, 1, 1, 1, 2]);
    let count = if rng.one_in(4) { 1 } else { most.saturating_sub(row.len()).max(1) };
    let (first, last) = (lines[row.start].clone(), lines[row.end - 1].clone());
    for _ in 0..count {
        let line = match rng.below(6) {
            0 => first.clone(),
            1 => last.clone(),
            2 if first.starts_with(b":") => [b":", &b" ".repeat(first.len() - 2)[..], b":"].concat(),
            3 if rng.one_in(4) => [b"|", &b" ".repeat(first.len() - 2)[..], b"|"].concat(),
            _ => blanked(&first),
        };
        let place = if rng.one_in(2) { row.end } else { rng.between(row.start, row.end) };
        lines.insert(place, line);
    }
}

/// The border below the row is missing, empty, too short or another row's line.
fn unborder(rng: &mut Rng, lines: &mut Vec<Vec<u8>>, row: &Range<usize>) {
    match rng.below(4) {
        0 => lines[row.end] = Vec::new(),
        1 => lines[row.end] = lines[row.start].clone(),
        2 => {
            lines[row.end].pop();
        }
        _ => {
            lines.remove(row.end);
        }
    }
}

/// A line of the row is a character longer or shorter.
fn stretch(rng: &mut Rng, lines: &mut Vec<Vec<u8>>, row: &Range<usize>) {
    let at = further(rng, lines, row);
    let column = rng.below(lines[at].len());
    match rng.below(4) {
        0 => lines[at].push(b' '),
        1 => lines[at].push(b'|'),
        2 => lines[at].insert(column, b' '),
        _ => {
            lines[at].pop();
        }
    }
}

/// Two lines of the row change places, or one is taken out.
fn swap(rng: &mut Rng, lines: &mut Vec<Vec<u8>>, row: &Range<usize>) {
    let (one, other) = (rng.between(row.start, row.end - 1), rng.between(row.start, row.end - 1));
    if one == other {
        lines.remove(one);
    } else {
        lines.swap(one, other);
    }
}

/// The text ends with a line of the row, with its LF, without it, or within the next line.
fn cut(rng: &mut Rng, lines: &[Vec<u8>], row: &Range<usize>) -> Vec<u8> {
    let last = rng.between(row.start, row.end - 1);
    let mut text = lines[..=last].join(&b'\n');
    match rng.below(4) {
        0 => return text,
        1 => {
            let next = &lines[last + 1];
            text.push(b'\n');
            text.extend(&next[..rng.between(0, next.len())]);
        }
        2 => {
            text.push(b'\n');
            text.extend(blanked(&lines[row.start]));
        }
        _ => text.push(b'\n'),
    }
    text
}
