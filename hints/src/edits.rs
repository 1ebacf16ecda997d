//! The hint for a cut or a putting-in that is refused: which fields still read what is to be cut out, or which rule the
//! table would break.

mod alone;
mod readers;
mod together;

use crate::hint::Verdict;
use crate::meanings::meaning_of;
use crate::shown::{quoted, shown};
use crate::stored::{fields_in, fields_of, row_bits, StoredField};
use readers::{readers, Reader};
use together::broken;

/// What is said of a refused cut or putting-in.
#[derive(Clone, Debug, Default, PartialEq, Eq)]
pub struct EditHint {
    pub number: u32,
    /// The field that still reads what is to be cut out, from 1; 0 where it is none.
    pub field: usize,
    /// Its label; empty where it is none.
    pub label: String,
    pub message: String,
    pub notes: Vec<String>,
}

const UNTOLD: &str = "which rule that is cannot be told here";

/// Why the fields from `first` to `last`, by index, cannot be cut out of a good table.
pub fn cut_hint(table: &[u8], first: usize, last: usize, verdict: Verdict) -> EditHint {
    let fields = fields_of(table).unwrap_or_default();
    match verdict.number {
        31 => still_read(&fields, first, last, verdict),
        34 if first <= last && last < fields.len() => {
            let mut left = fields;
            left.drain(first..=last);
            let gone = last + 1 - first;
            let becomes = |index: usize| if index < first { index } else { index.saturating_sub(gone) };
            left.iter_mut().for_each(|field| field.renumber(becomes));
            not_together(row_bits(table), &left)
        }
        _ => meaning(verdict),
    }
}

/// Why the fields of these records cannot be put into a good table before the field of an index, or at the end.
pub fn put_hint(table: &[u8], index: usize, records: &[u8], verdict: Verdict) -> EditHint {
    let mut fields = fields_of(table).unwrap_or_default();
    if verdict.number != 34 || index > fields.len() {
        return meaning(verdict);
    }
    let new = match fields_in(records) {
        Ok(new) => new,
        Err(at) => return no_record(records, at),
    };
    let count = new.len();
    let becomes = |read: usize| if read < index { read } else { read + count };
    fields.iter_mut().for_each(|field| field.renumber(becomes));
    fields.splice(index..index, new);
    not_together(row_bits(table), &fields)
}

fn meaning(verdict: Verdict) -> EditHint {
    let (what, mend) = meaning_of(verdict.number);
    let (message, notes) = (what.to_string(), vec![mend.to_string()]);
    EditHint { number: verdict.number, field: verdict.place as usize, message, notes, ..EditHint::default() }
}

/// The field that the verdict names, with what it reads, and all others that read fields of the run.
fn still_read(fields: &[StoredField], first: usize, last: usize, verdict: Verdict) -> EditHint {
    let found = readers(fields, first, last);
    let place = verdict.place as usize;
    let [reader, others @ ..] = &found[..] else { return meaning(verdict) };
    if reader.index + 1 != place {
        return meaning(verdict);
    }
    let label = &fields[reader.index].label;
    let (name, what) = (quoted(label), reader.what());
    let are = if reader.read.len() == 1 { "is" } else { "are" };
    let message = format!("{name} reads {what}, which {are} to be cut out: {}", reader.places());
    let other = |other: &Reader| {
        let (name, what) = (quoted(&fields[other.index].label), other.what());
        format!("field {}, {name}, reads {what} too: {}", other.index + 1, other.places())
    };
    let mend = match others {
        [] => format!("cut out {name} too, or write it on the page without {what}"),
        _ => "cut these out too, or write them on the page without what is to be cut out".to_string(),
    };
    let notes = others.iter().map(other).chain([mend]).collect();
    EditHint { number: 31, field: place, label: shown(label), message, notes }
}

/// The rules that the fields would break, the first as the message.
fn not_together(row_bits: Option<u32>, fields: &[StoredField]) -> EditHint {
    let mut broken = row_bits.map_or(Vec::new(), |bits| broken(bits, fields)).into_iter();
    let Some(first) = broken.next() else {
        return EditHint { notes: vec![UNTOLD.to_string()], ..meaning(Verdict { number: 34, place: 0 }) };
    };
    let notes = first.notes.into_iter().chain(broken.map(|other| format!("also, {}", other.message)));
    EditHint { number: 34, message: first.message, notes: notes.collect(), ..EditHint::default() }
}

/// Records that are none from this byte on.
fn no_record(records: &[u8], at: usize) -> EditHint {
    let number = |from: usize| match records.get(from..from + 2) {
        Some(two) => usize::from(u16::from_le_bytes([two[0], two[1]])),
        None => 0,
    };
    let (length, kind, left) = (number(at), number(at + 2), records.len() - at);
    let why = match () {
        () if left < 4 || length > left => {
            format!("it has {length} bytes by its length, and {left} are there")
        }
        () if (2..=4).contains(&kind) => format!("its kind is {kind}, that of an old table"),
        () if !(12..=14).contains(&kind) => format!("its kind is {kind}, where 12, 13 and 14 are fields"),
        () => "its parts do not fill it, or an expression in it has not the stored form".to_string(),
    };
    let message = "the bytes to be put in are not whole records of fields".to_string();
    let notes = vec![format!("the record at byte {at} is none: {why}")];
    EditHint { number: 34, message, notes, ..EditHint::default() }
}
