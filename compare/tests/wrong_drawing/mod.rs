//! The model's `rows` with one rule wrong, or none, as is set for the thread.

#[allow(dead_code)]
#[path = "../../../model/src/rows.rs"]
mod right;

use crate::frames::border;
use crate::lines::Lines;
use crate::names::{is_label, LONGEST_LABEL};
use crate::refusals::{refused, Refusal};
use crate::rules::MOST_FIELDS;
pub use right::{Cell, ROW_LINES};
use std::cell::Cell as Set;
use Rule::*;

/// A wrong rule.
#[derive(Clone, Copy, Debug, PartialEq, Eq)]
pub enum Rule {
    /// What the text of a cell is.
    LinesAreAppended,
    EmptyLinesCount,
    LinesAreNotTrimmed,
    FirstLineAlone,
    BlanksAreKept,
    BitIsJoined,
    EmptyIsLabel,
    LongIsLabel,
    /// Which lines a row has.
    FourthLineIsWrong,
    FifthLineIsRight,
    LongRowsHaveLines,
    BarsAreNotCompared,
    BarsMayBeFewer,
    BarsMayBeMore,
    LengthIsNotCompared,
    UnendedLineCounts,
    /// When a cell is judged, by the lines so far or by each alone.
    EachLineIsJudged,
    EachLineIsLabel,
    /// Which line is wrong: that of a cell, or that behind the row.
    CellIsWrongAtFirst,
    CellIsWrongBehind,
    WrongLineGoesFirst,
    EndGoesFirst,
    LineBehindIsWrongAbove,
    /// How lines and cells are counted.
    FurtherLinesAreNotCounted,
    EachLineHasCells,
}

thread_local! {
    static RULE: Set<Option<Rule>> = const { Set::new(None) };
    /// The cells of a text so far, counted on each line.
    static COUNTED: Set<usize> = const { Set::new(0) };
}

/// What `answer` gives with this wrong rule or none.
pub fn by_rule<T>(rule: Option<Rule>, answer: impl FnOnce() -> T) -> T {
    RULE.set(rule);
    COUNTED.set(0);
    let answer = answer();
    RULE.set(None);
    answer
}

fn is(rule: Rule) -> bool {
    RULE.get() == Some(rule)
}

pub fn take_row(lines: &mut Lines, first: &[u8], row_bits: u32, most: usize) -> Result<Vec<Cell>, Refusal> {
    let Some(bars) = right::bars(first, row_bits) else { return lines.wrong() };
    let (top, mut row) = (lines.taken, vec![first.to_vec()]);
    let most = match RULE.get() {
        _ if first[0] == b':' && !is(LongRowsHaveLines) => 1,
        Some(FourthLineIsWrong) => most - 1,
        Some(FifthLineIsRight) => most + 1,
        _ => most,
    };
    while row.len() < most {
        if is(EachLineIsJudged) && cells(&row, &bars).is_none() {
            return lines.wrong();
        }
        if is(EachLineIsLabel) && !are_labels(&row[row.len() - 1], &bars) {
            return lines.wrong();
        }
        let Some(line) = lines.peek().or_else(|| unended(lines)) else { break };
        let Some(line) = further(line, first, &bars) else { break };
        row.push(line);
        if lines.next()?.is_none() {
            lines.rest = b"";
            return cells(&row, &bars).map_or_else(|| lines.ends_early(), Ok);
        }
    }
    let line_behind = lines.peek().filter(|line| *line != border(row_bits));
    match cells(&row, &bars) {
        Some(_) if is(LineBehindIsWrongAbove) && line_behind.is_some() => lines.wrong(),
        Some(cells) => counted(lines, cells, row.len()),
        None if is(CellIsWrongBehind) || is(WrongLineGoesFirst) && line_behind.is_some() => {
            lines.ends_early()
        }
        None if is(EndGoesFirst) && lines.peek().is_none() => lines.ends_early(),
        None if is(CellIsWrongAtFirst) => {
            lines.taken = top;
            lines.wrong()
        }
        None => lines.wrong(),
    }
}

/// The cells of a row of so many lines.
fn counted(lines: &mut Lines, cells: Vec<Cell>, count: usize) -> Result<Vec<Cell>, Refusal> {
    if is(FurtherLinesAreNotCounted) {
        lines.taken -= count as u32 - 1;
    }
    COUNTED.set(COUNTED.get() + count * cells.len());
    if is(EachLineHasCells) && COUNTED.get() > MOST_FIELDS {
        return refused(4, 0);
    }
    Ok(cells)
}

/// What stands behind the last LF, where that counts as a line.
fn unended<'a>(lines: &Lines<'a>) -> Option<&'a [u8]> {
    Some(lines.rest).filter(|rest| is(UnendedLineCounts) && !rest.is_empty())
}

/// A further line of a row, as it is read, if it is one.
fn further(line: &[u8], first: &[u8], bars: &[usize]) -> Option<Vec<u8>> {
    let mut line = line.to_vec();
    if is(LengthIsNotCompared) {
        line.resize(first.len(), b' ');
        let last = first.len() - 1;
        line[last] = first[last];
    }
    let ends = |line: &[u8]| [line.first().copied(), line.last().copied(), Some(first[0])];
    let is_row =
        line.len() == first.len() && ends(&line)[0] == ends(&line)[2] && ends(&line)[1] == ends(&line)[2];
    if first[0] == b':' {
        return is_row.then_some(line);
    }
    let has = |column: &usize| line.get(*column) == Some(&b'|');
    let (fewer, more) = (!bars.iter().all(has), (0..line.len()).any(|at| has(&at) && !bars.contains(&at)));
    let is_right = match RULE.get() {
        Some(BarsAreNotCompared) => is_row,
        Some(BarsMayBeFewer) => is_row && !more,
        Some(BarsMayBeMore) => is_row && !fewer,
        _ => is_row && !fewer && !more,
    };
    let within =
        |(column, byte): (usize, u8)| if byte == b'|' && !bars.contains(&column) { b' ' } else { byte };
    is_right.then(|| line.into_iter().enumerate().map(within).collect())
}

/// The cells, if each has a label.
fn cells(row: &[Vec<u8>], bars: &[usize]) -> Option<Vec<Cell>> {
    let is_long = row[0][0] == b':';
    let cell = |pair: &[usize]| {
        let parts: Vec<&[u8]> = row.iter().map(|line| &line[pair[0] + 1..pair[1]]).collect();
        let text = text(&parts, pair[1] - pair[0] == 2);
        let bits = (!is_long).then_some((pair[1] - pair[0]) as u32 / 2);
        let is_right = match RULE.get() {
            Some(EmptyIsLabel) if text.is_empty() => true,
            Some(LongIsLabel) if text.len() > LONGEST_LABEL => {
                text.windows(LONGEST_LABEL).all(has_label_bytes)
            }
            _ => is_label(&text),
        };
        is_right.then_some(Cell { text, bits })
    };
    bars.windows(2).map(cell).collect()
}

fn has_label_bytes(part: &[u8]) -> bool {
    part.iter().all(|byte| byte.is_ascii_alphanumeric() || matches!(byte, b' ' | b'-'))
}

fn are_labels(line: &[u8], bars: &[usize]) -> bool {
    let part = |pair: &[usize]| line[pair[0] + 1..pair[1]].trim_ascii().to_vec();
    bars.windows(2).map(part).all(|part| part.is_empty() || is_label(&part))
}

fn text(parts: &[&[u8]], is_bit: bool) -> Vec<u8> {
    let trimmed: Vec<&[u8]> = parts.iter().map(|part| part.trim_ascii()).collect();
    match (RULE.get(), is_bit) {
        (Some(BlanksAreKept), true) => parts.concat(),
        (Some(BitIsJoined), true) => right::joined(parts),
        (Some(LinesAreAppended), false) => trimmed.concat(),
        (Some(EmptyLinesCount), false) => trimmed.join(&b' ').trim_ascii().to_vec(),
        (Some(LinesAreNotTrimmed), false) => parts.join(&b' ').trim_ascii().to_vec(),
        (Some(FirstLineAlone), _) => {
            trimmed.into_iter().find(|part| !part.is_empty()).unwrap_or_default().to_vec()
        }
        (_, true) => right::downwards(parts),
        (_, false) => right::joined(parts),
    }
}
