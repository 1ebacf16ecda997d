//! Refusals explained on standard error: where, what and how to mend it. The words for pages and packets are those of
//! the hints.

use crate::draw::{draw, Mark, Told};
use crate::fields::{nearest, numbers_of, reading, Described};
use crate::inputs::Input;
use crate::names::shown;
use crate::outputs::complain;
use crate::packets::Name;
use crate::sources::Source;
use std::ffi::OsStr;
use umarekoza::{Field, Refusal};
use umarekoza_hints::{cut_hint, length_hint, packet_hint, page_hint, put_hint, EditHint, Hint, Verdict};

/// What is said of a table that is good no longer, and how to mend it.
pub const OLD: &str = "this is an old table: its records do not keep how often a field is read";
const CONVERT: &str = "`umarekoza convert OLD -o TABLE` makes a new one of it";

/// Explains the refusal of a page or of a table.
pub fn source(source: &Source, refusal: Refusal) {
    let place = source.input.to_string();
    draw(&match () {
        () if source.is_page() => page_of(source, &place, refusal),
        () if source.is_old() => bare(place, refusal, OLD, vec![CONVERT.to_string()]),
        () => meaning(place, refusal, source.doubt().into_iter().collect()),
    });
}

/// Explains why a table is not converted.
pub fn conversion(source: &Source, refusal: Refusal) {
    let why = match () {
        () if source.start().first() == Some(&b'A') => {
            "it begins as a page does: `umarekoza table PAGE -o TABLE` writes the table of a page"
        }
        () if source.table().is_ok() => "it is a good table as it is: there is nothing to convert",
        () => {
            "an old table has records of kinds 2 to 4, at most 64 fields, and neither `/` nor `%` nor `^`; what is \
             not good is written again from its page with `umarekoza table PAGE -o TABLE`"
        }
    };
    let place = source.input.to_string();
    draw(&bare(place, refusal, "this is not a good old table", vec![why.to_string()]));
}

/// What is said of a whole file.
fn bare(place: String, refusal: Refusal, message: &str, notes: Vec<String>) -> Told {
    let (number, message) = (refusal.number, message.to_string());
    Told { number, message, place, mark: None, notes, below: Vec::new() }
}

/// What is said of a refused page; of one that is not kept whole, that it is too long.
fn page_of(source: &Source, name: &str, refusal: Refusal) -> Told {
    let (start, length) = (source.start(), source.length());
    if refusal.number == 1 && length > start.len() as u64 {
        return hinted(name, start, length_hint(length));
    }
    page(name, start, refusal)
}

/// What is said of a refused page of these bytes.
fn page(name: &str, bytes: &[u8], refusal: Refusal) -> Told {
    hinted(name, bytes, page_hint(bytes, verdict(refusal)))
}

/// A hint, whose column is 0 where it has no more than the number's meaning.
fn hinted(name: &str, bytes: &[u8], hint: Hint) -> Told {
    let (text, meant) = hint.shown_line(bytes);
    let Hint { number, line, column, message, label, notes, also, .. } = hint;
    let place = if line == 0 { name.to_string() } else { format!("{name}:{line}") };
    let mark = meant.map(|meant| Mark { name: name.to_string(), line, column, text, meant, label });
    let below = also.iter().map(|also| {
        format!("also: {name}:{}:{}: error[{}]: {}", also.line, also.column, also.number, also.message)
    });
    Told { number, message, place, mark, notes, below: below.collect() }
}

/// Explains the refusal of a packet, and shows of these fields those that were read before it.
pub fn packet(name: &Name<'_>, table: &[u8], packet: &[u8], refusal: Refusal, shown: &[Described]) {
    let (_, before) = reading(table, packet);
    let numbers: Vec<[u32; 4]> = before.iter().map(numbers_of).collect();
    let hint = packet_hint(table, packet, &numbers, verdict(refusal));
    let place = match hint.field {
        0 => name.to_string(),
        field => format!("{name}, field {field}: {}", hint.label),
    };
    let lines = shown.iter().zip(&before).map(|(described, field)| format!("  {}", described.line(field)));
    let head = shown.iter().zip(&before).take(1).map(|_| "read before the refusal:".to_string());
    let below = head.chain(lines).collect();
    draw(&Told { number: hint.number, message: hint.message, place, mark: None, notes: hint.notes, below });
}

/// The label of the field that a packet's refusal names.
pub fn field_of(fields: &[Described], refusal: Refusal) -> Option<&str> {
    let index = (refusal.place as usize).checked_sub(1)?;
    fields.get(index).map(|field| field.label.as_str())
}

/// Explains that there is no such field, with the labels that there are.
pub fn field(input: &Input, fields: &[Described], field: &OsStr, refusal: Refusal) {
    draw(&no_field(input, fields, field, refusal));
}

/// The same, to be drawn.
pub fn no_field(input: &Input, fields: &[Described], field: &OsStr, refusal: Refusal) -> Told {
    let near = nearest(fields, &field.to_string_lossy()).map(|near| format!("did you mean `{near}`?"));
    let labels: Vec<&str> = fields.iter().map(|field| field.label.as_str()).collect();
    let labels = format!("the labels are: {}", labels.join(", "));
    let place = format!("{input}, field `{}`", shown(field.as_encoded_bytes()));
    meaning(place, refusal, near.into_iter().chain([labels]).collect())
}

/// What is said of fields that cannot be cut out.
pub fn cut(
    input: &Input,
    fields: &[Described],
    (first, last): (usize, usize),
    table: &[u8],
    refusal: Refusal,
) -> Told {
    let label = |index: usize| fields.get(index).map_or("", |field| field.label.as_str());
    let run = match first == last {
        true => label(first).to_string(),
        false => format!("{} to {}", label(first), label(last)),
    };
    if refusal.number == 30 && last < first {
        let (start, end) = (label(first), label(last));
        let note =
            format!("`{start}` has the index {first}, `{end}` {last}: give the first field, then the last");
        return bare(format!("{input}, {run}"), refusal, "the run ends before it begins", vec![note]);
    }
    let place = match field_of(fields, refusal) {
        Some(label) => format!("{input}, field {}: {label}", refusal.place),
        None => format!("{input}, without {run}"),
    };
    edited(place, cut_hint(table, first, last, verdict(refusal)))
}

/// What is said of fields that cannot be put in.
pub fn put(
    (into, from): (&Input, &Input),
    index: usize,
    table: &[u8],
    records: &[u8],
    refusal: Refusal,
) -> Told {
    let place = format!("{into}, with the fields of {from}");
    edited(place, put_hint(table, index, records, verdict(refusal)))
}

fn edited(place: String, hint: EditHint) -> Told {
    let EditHint { number, message, notes, .. } = hint;
    Told { number, message, place, mark: None, notes, below: Vec::new() }
}

/// Says why a field has no bytes to write.
pub fn no_bytes(name: &Name<'_>, described: &Described, field: &Field) {
    let why = match field {
        Field { present: false, .. } => "is absent",
        _ => "does not start on a byte or has not whole bytes; `read` shows where it is",
    };
    complain(&format!("{name}, field `{}`: it {why}", described.label));
}

/// What a number means, with these notes and how to mend it.
fn meaning(place: String, refusal: Refusal, mut notes: Vec<String>) -> Told {
    let message = refusal.meaning().map_or(refusal.to_string(), |meaning| meaning.what.to_string());
    notes.extend(refusal.meaning().map(|meaning| meaning.mend.to_string()));
    bare(place, refusal, &message, notes)
}

fn verdict(refusal: Refusal) -> Verdict {
    Verdict { number: refusal.number, place: refusal.place }
}

#[cfg(test)]
mod tests {
    use super::{page, verdict};
    use codespan_reporting::term::termcolor::Buffer;
    use umarekoza::Refusal;
    use umarekoza_hints::{page_hint, plain};
    use umarekoza_model::generate::{text, Rng};

    const BLADE: &str = include_str!("../../examples/pages/blade-report.txt");

    #[test]
    fn only_the_meaning_where_the_hint_comes_to_another_refusal() {
        let wrong = BLADE.replace("V == 1", "V = 1");
        for (number, place) in [(7, 19), (5, 18), (9, 17)] {
            let told = page("page", wrong.as_bytes(), Refusal { number, place });
            assert_eq!((told.number, told.place), (number, format!("page:{place}")));
            assert!(told.mark.is_none() && told.below.is_empty());
        }
        let told = page("page", wrong.as_bytes(), Refusal { number: 5, place: 17 });
        assert_eq!(told.mark.map(|mark| (mark.line, mark.column)), Some((17, 24)));
        assert_eq!(told.message, "`=` is no operator");
    }

    /// Whatever the page, it is drawn as the hints' plain text has it, and with colours nothing else is drawn.
    #[test]
    fn drawn_as_plain_text() {
        let mut rng = Rng::new(1);
        let cut = (0..BLADE.len()).map(|length| BLADE.as_bytes()[..length].to_vec());
        for bytes in cut.chain((0..3000).map(|_| text(&mut rng))) {
            let Err(refusal) = umarekoza::table_of(&bytes) else { continue };
            let told = page("page", &bytes, refusal);
            let due = plain(&page_hint(&bytes, verdict(refusal)), "page", &bytes);
            assert_eq!(told.drawn(Buffer::no_color()), due);
            let coloured = told.drawn(Buffer::ansi());
            let parts = coloured.split("\x1B[").enumerate();
            let bare: String = parts
                .map(
                    |(index, part)| {
                        if index == 0 {
                            part
                        } else {
                            part.split_once('m').map_or("", |(_, text)| text)
                        }
                    },
                )
                .collect();
            let trimmed: String = bare.lines().map(|line| format!("{}\n", line.trim_end())).collect();
            assert_eq!(trimmed, due);
        }
    }
}
