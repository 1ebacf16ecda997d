//! The hint for a page: its mistakes in the order of document 01's numbers.

use crate::cells::{disagreements, too_many};
use crate::characters;
use crate::faults::Mistake;
use crate::field_lines::Width;
use crate::fields::{Field, Fields};
use crate::frames;
use crate::hint::{Hint, Verdict, ALSO_MOST};
use crate::lengths::long_lines;
use crate::limits::TEXT_MOST;
use crate::lines::split;
use crate::meanings::meaning_of;
use crate::reads;
use crate::rows::Cell;
use crate::shown::{counted, is_plain, spelled};
use crate::sizes::{behind_rest, repeats, sizes};

/// Where the mistake of a refused page is. Where this reading of the page does not come to the verdict's number and
/// place, only the meaning of the number is told.
///
/// ```
/// use umarekoza_hints::{page_hint, plain, Verdict};
/// let page = b"\
/// A Tag is formatted as follows:
///
///  0
///  0 1 2 3 4 5 6 7
/// +-+-+-+-+-+-+-+-+
/// |       K       |
/// +-+-+-+-+-+-+-+-+
///
/// where:
///
/// Kind (K): 1 byte; K = 7.
/// ";
/// let hint = page_hint(page, Verdict { number: 5, place: 11 });
/// assert_eq!((hint.line, hint.column, hint.width), (11, 21, 1));
/// let due = "\
/// error[5]: `=` is no operator
///    --> tag.txt:11:21
///    |
/// 11 | Kind (K): 1 byte; K = 7.
///    |                     ^ no such operator
///    |
///    = note: did you mean `==`?
/// ";
/// assert_eq!(plain(&hint, "tag.txt", page), due);
///
/// let other = page_hint(page, Verdict { number: 7, place: 11 });
/// assert_eq!((other.line, other.column), (11, 0));
/// assert_eq!(other.message, "this field line and its cell disagree");
/// ```
pub fn page_hint(text: &[u8], verdict: Verdict) -> Hint {
    let mut found = mistakes(text);
    if found.is_empty() && verdict == (Verdict { number: 11, place: 0 }) {
        return output_hint(text);
    }
    found.sort_by_key(|mistake| (mistake.number, mistake.place, mistake.line, mistake.fault.spot.start));
    match found.first() {
        Some(first) if first.number == verdict.number && first.place == verdict.place as usize => {}
        _ => return meaning(verdict),
    }
    let first = found.remove(0);
    found.sort_by_key(|mistake| (mistake.line, mistake.fault.spot.start));
    let also = found.iter().take(ALSO_MOST).map(Mistake::also).collect();
    first.hint(also)
}

/// The hint for a page of so many bytes, more than a page may have.
///
/// ```
/// let hint = umarekoza_hints::length_hint(20_000);
/// assert_eq!((hint.number, hint.line), (1, 0));
/// assert_eq!(hint.message, "the page has 20,000 bytes, at most 16,384");
/// ```
pub fn length_hint(bytes: u64) -> Hint {
    too_long(bytes).hint(Vec::new())
}

/// Only what the number means.
fn meaning(verdict: Verdict) -> Hint {
    let (what, mend) = meaning_of(verdict.number);
    Hint {
        number: verdict.number,
        line: verdict.place as usize,
        message: what.to_string(),
        notes: vec![mend.to_string()],
        ..Hint::default()
    }
}

/// The mistakes of a page that can be told apart safely; none exactly if it is accepted, given room.
fn mistakes(text: &[u8]) -> Vec<Mistake> {
    if text.len() > TEXT_MOST {
        return vec![too_long(text.len() as u64)];
    }
    if text.iter().all(|byte| is_plain(*byte) || *byte == b'\n') {
        return mistakes_of_plain(text);
    }
    let mut found = characters::mistakes(text);
    if let Some((mended, marked)) = characters::mended(text) {
        for mut mistake in mistakes_of_plain(&mended) {
            if mistake.line == 1 {
                mistake.fault.spot = mistake.fault.spot.start + marked..mistake.fault.spot.end + marked;
            }
            found.push(mistake);
        }
    }
    found
}

fn too_long(length: u64) -> Mistake {
    let message = format!("the page has {} bytes, at most {}", spelled(length), spelled(TEXT_MOST as u64));
    let fault =
        crate::faults::Fault::new(0..0, message, "").note("shorten the remarks behind the full stops");
    fault.at(1, 0)
}

/// Those of a page whose characters are all allowed.
fn mistakes_of_plain(text: &[u8]) -> Vec<Mistake> {
    let lines = split(text);
    let frame = frames::read(&lines);
    let mut found = frame.mistakes;
    found.extend(long_lines(&lines, &found));
    let Some(from) = frame.fields_from else { return found };
    let (fields, wrong_forms) = Fields::read(&lines.ended[from..], from + 1);
    let right_forms = wrong_forms.is_empty();
    found.extend(wrong_forms);
    found.extend(sizes(&fields));
    if let Some(too_many) = too_many(&frame.cells, &fields) {
        found.push(too_many);
        return found;
    }
    found.extend(repeats(&fields));
    if right_forms {
        let compared = frame.whole && lines.tail.is_empty() && !fields.lines.is_empty();
        let cells = if compared { disagreements(&lines, &frame.cells, &fields) } else { Vec::new() };
        if is_told_apart(&cells, &frame.cells, &fields) {
            found.extend(reads::mistakes(&fields));
            found.extend(behind_rest(&fields));
        }
        found.extend(cells);
    }
    found
}

/// Whether names and types can be judged beside these disagreements: no field line is missing or too many, and none
/// that disagrees has a width that may have to be fixed.
fn is_told_apart(disagreements: &[Mistake], cells: &[Cell], fields: &Fields) -> bool {
    let disagrees = |field: &Field| disagreements.iter().any(|mistake| mistake.line == field.number);
    let measured = fields.right().any(|(field, form)| !form.is_fixed() && disagrees(field));
    disagreements.is_empty() || (cells.len() == fields.lines.len() && !measured)
}

/// The hint for a page whose table is longer than the output.
fn output_hint(text: &[u8]) -> Hint {
    let needed = counted(table_length(text) as u64, "byte");
    Hint {
        number: 11,
        message: format!("the output is too short: the page's table has {needed}"),
        notes: vec![format!("give it room for {needed}")],
        ..Hint::default()
    }
}

/// The length of an accepted page's table.
fn table_length(text: &[u8]) -> usize {
    let lines = split(text);
    let opening = lines.ended.first().map_or(0, |line| line.len());
    let article = if text.starts_with(b"An ") { 3 } else { 2 };
    let name = opening.saturating_sub(article + " is formatted as follows:".len());
    let from = frames::read(&lines).fields_from.unwrap_or(lines.ended.len());
    let (fields, _) = Fields::read(&lines.ended[from..], from + 1);
    let records = fields.right().map(|(_, form)| {
        let numbers = match form.width {
            Width::Fixed(_) => 16,
            Width::Measured { .. } => 18,
            Width::Rest => 14,
        };
        let expressions: usize = form.expressions().map(|(_, tree)| tree.stored()).sum();
        numbers + form.label.len() + form.short.as_ref().map_or(0, |short| short.len()) + expressions
    });
    10 + name + records.sum::<usize>() + 4
}
