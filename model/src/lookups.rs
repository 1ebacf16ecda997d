//! Fields of a table: how many, found by name, and by index with kind, readers, label and short name.

use crate::editions::{kind_of, CURRENT};
use crate::references::readers;
use crate::refusals::{refused, Refusal};
use crate::stored::sort;
use crate::tables::good_description;

/// The index of the field whose label or short name is `name`; 30, the number that document 02 gives where there is
/// no such field, if none has it.
pub fn find_field(table: &[u8], name: &[u8]) -> Result<usize, Refusal> {
    let fields = good_description(table)?.fields;
    match fields.iter().position(|field| field.is_called(name)) {
        Some(index) => Ok(index),
        None => refused(30, 0),
    }
}

/// How many fields a table has.
pub fn count_fields(table: &[u8]) -> Result<usize, Refusal> {
    good_description(table).map(|description| description.fields.len())
}

/// The kind of the record of a field: 12 fixed, 13 measured, 14 rest; 30 if there is no such field.
pub fn field_kind(table: &[u8], index: usize) -> Result<usize, Refusal> {
    match good_description(table)?.fields.get(index) {
        Some(field) => Ok(kind_of(&CURRENT, sort(&field.width))),
        None => refused(30, 0),
    }
}

/// How many references to a field other fields have; 30 if there is no such field [02, R-5].
pub fn count_readers(table: &[u8], index: usize) -> Result<usize, Refusal> {
    match readers(&good_description(table)?.fields).get(index) {
        Some(count) => Ok(*count),
        None => refused(30, 0),
    }
}

/// Start and length in the table of the label of a field; 0, 0 if the table is not good or has no such field.
pub fn field_label(table: &[u8], index: usize) -> (usize, usize) {
    let Ok(description) = good_description(table) else { return (0, 0) };
    let Some(field) = description.fields.get(index) else { return (0, 0) };
    // The head and the fields before; then length, kind, number and label length, two bytes each.
    let start = (0..=index).fold(0, |start, _| start + number_at(table, start));
    (start + 8, field.label.len())
}

/// The same of its short name; 0, 0 too if it has none.
pub fn field_short(table: &[u8], index: usize) -> (usize, usize) {
    let Ok(description) = good_description(table) else { return (0, 0) };
    let Some(short) = description.fields.get(index).and_then(|field| field.short) else { return (0, 0) };
    // Behind the label and two bytes of length.
    let (start, length) = field_label(table, index);
    (start + length + 2, short.len())
}

fn number_at(table: &[u8], at: usize) -> usize {
    match table.get(at..at + 2) {
        Some(&[low, high]) => usize::from(u16::from_le_bytes([low, high])),
        _ => 0,
    }
}
