//! A program for texts in pieces that keeps the joined text in its state and answers by the model, with one rule wrong
//! or none.

use crate::changed_model::{
    descriptions::Field,
    field_lines::field_line,
    frames::{frame, Limits},
    matching::first_mismatch,
    refusals::{refused, Refusal},
    rules::{first_after_rest, trees_small},
    texts::{write_table, write_table_by},
};
use crate::lines::LONGEST_LINE;
use crate::naming::first_repeat;
use Rule::*;

/// A wrong rule.
#[derive(Clone, Copy, Debug, PartialEq, Eq)]
pub enum Rule {
    /// What a piece's end is taken for.
    PieceEndsLine,
    UnfinishedIsWrong,
    EmptyPieceEnds,
    EmptyPieceEndsLine,
    /// What is lost between pieces.
    FirstLfIsLost,
    LastLfIsLost,
    UnfinishedIsLost,
    BlanksAreLost,
    EarlierByteIsForgotten,
    /// How long a line or text is.
    LengthOfPieceCounts,
    LineIsCut,
    TextIsCut,
    /// Which refusal is kept.
    LaterAndHigher,
    EarlierAndHigher,
    LastOfNumber,
    FirstLineIsKept,
    /// What is written, and when.
    RefusedIsWritten,
    RoomIsForgotten,
}

/// Where the text stands in a state: behind its length in two bytes and two marks.
const TEXT: usize = 4;
const MOST: usize = 16_385;
/// The marks: the text is over, and a piece had more bytes of one line than a line may have.
const OVER: usize = 2;
const LONG: usize = 3;

pub fn start(state: &mut [u8]) {
    state.fill(0);
}

fn text(state: &[u8]) -> &[u8] {
    let length = usize::from(u16::from_le_bytes([state[0], state[1]])).min(MOST);
    &state[TEXT..TEXT + length]
}

pub fn piece(rule: Option<Rule>, state: &mut [u8], piece: &[u8]) {
    if state[OVER] == 1 {
        return;
    }
    let is = |other: Rule| rule == Some(other);
    let mut kept = text(state).to_vec();
    let unfinished = kept.iter().rev().take_while(|byte| **byte != b'\n').count();
    if is(EarlierByteIsForgotten) && !piece.is_empty() {
        kept.iter_mut().filter(|byte| !matches!(byte, b' '..=b'~' | b'\n')).for_each(|byte| *byte = b'x');
    }
    if is(UnfinishedIsLost) && !piece.is_empty() && unfinished < kept.len() {
        kept.truncate(kept.len() - unfinished);
    }
    if is(BlanksAreLost) && !piece.is_empty() {
        kept.truncate(kept.trim_ascii_end().len().max(kept.len() - unfinished));
    }
    let lost = usize::from(is(FirstLfIsLost) && piece.first() == Some(&b'\n') && !kept.is_empty());
    kept.extend(&piece[lost..]);
    match piece {
        [] if is(EmptyPieceEnds) => state[OVER] = 1,
        [] if is(EmptyPieceEndsLine) => kept.push(b'\n'),
        [.., b'\n'] if is(LastLfIsLost) && piece.len() > 1 => drop(kept.pop()),
        [.., last] if is(PieceEndsLine) && *last != b'\n' && piece.len() > 1 => kept.push(b'\n'),
        _ => {}
    }
    if piece.split(|byte| *byte == b'\n').any(|part| part.len() > LONGEST_LINE) {
        state[LONG] = 1;
    }
    if is(UnfinishedIsWrong) && piece.len() > 1 && !piece.ends_with(b"\n") {
        state[OVER] = 1;
    }
    kept.truncate(if is(TextIsCut) { MOST - 1 } else { MOST });
    state[..2].copy_from_slice(&(kept.len() as u16).to_le_bytes());
    state[TEXT..TEXT + kept.len()].copy_from_slice(&kept);
}

/// The table of the text, and what is written though it is refused.
pub fn end(rule: Option<Rule>, state: &[u8], room: usize) -> (Result<Vec<u8>, Refusal>, usize) {
    let text = text(state);
    let any_length = Limits { line_bytes: usize::MAX, ..Limits::CURRENT };
    let table = match rule {
        Some(LengthOfPieceCounts) if state[LONG] == 0 => write_table_by(any_length, text, room),
        Some(LineIsCut) => write_table(&cut(text), room),
        Some(RoomIsForgotten) => {
            write_table(text, usize::MAX).map(|table| table[..table.len().min(room)].to_vec())
        }
        _ => write_table(text, room),
    };
    let written = usize::from(rule == Some(RefusedIsWritten) && table.is_err());
    (table.or_else(|right| kept(rule, text, right)), written)
}

/// A text without what is too long of its lines.
fn cut(text: &[u8]) -> Vec<u8> {
    let lines = text.split(|byte| *byte == b'\n').map(|line| &line[..line.len().min(LONGEST_LINE)]);
    lines.collect::<Vec<_>>().join(&b'\n')
}

/// The refusal that is kept, where another one is right.
fn kept(rule: Option<Rule>, text: &[u8], right: Refusal) -> Result<Vec<u8>, Refusal> {
    let others = if right.number >= 5 && right.place > 0 { refusals(text) } else { Vec::new() };
    let is_kept = |other: &&Refusal| {
        let (higher, later) = (other.number > right.number, other.place > right.place);
        match rule {
            Some(LaterAndHigher) => higher && later,
            Some(EarlierAndHigher) => higher && other.place < right.place,
            Some(LastOfNumber) => other.number == right.number && later,
            Some(FirstLineIsKept) => other.place < right.place,
            _ => false,
        }
    };
    let told =
        others.iter().filter(is_kept).max_by_key(|other| (other.number, other.place)).unwrap_or(&right);
    refused(told.number, told.place)
}

/// The refusals of field lines by 5 to 8 and 10, those from 7 on only where no line is a 5.
fn refusals(text: &[u8]) -> Vec<Refusal> {
    let Ok(frame) = frame(text, Limits::CURRENT) else { return Vec::new() };
    let forms: Vec<Option<Field<&[u8]>>> = frame.field_lines.iter().map(|line| field_line(line)).collect();
    let number = |form: &Option<Field<&[u8]>>| match form {
        None => Some(5),
        Some(field) => (!trees_small(field)).then_some(6),
    };
    let numbers = forms.iter().enumerate().filter_map(|(index, form)| Some((number(form)?, index)));
    let mut found: Vec<(u32, usize)> = numbers.collect();
    if let Some(fields) = forms.into_iter().collect::<Option<Vec<_>>>() {
        found.extend(first_mismatch(&frame.cells, &fields).map(|index| (7, index)));
        found.extend(first_repeat(&fields).map(|index| (8, index)));
        found.extend(first_after_rest(&fields).map(|index| (10, index)));
    }
    let refusal = |(number, index)| Refusal { number, place: frame.first_line + index as u32 };
    found.into_iter().map(refusal).collect()
}
