//! Fields cut out of a table, and put in [02, R-4] [02, R-5].

use crate::descriptions::Description;
use crate::editions::CURRENT;
use crate::refusals::{refused, Refusal};
use crate::renumbering::{closed, first_reader, opened, renumber};
use crate::rules::within_limits;
use crate::stored::{decode_fields, encode};
use crate::tables::good_description;

/// The table without the fields from `first` to `last`, by index from 0, for an output of `room` bytes.
pub fn cut_fields(table: &[u8], first: usize, last: usize, room: usize) -> Result<Vec<u8>, Refusal> {
    let mut description = good_description(table)?;
    let fields = &mut description.fields;
    if first > last || last >= fields.len() {
        return refused(30, 0);
    }
    let run = first..last + 1;
    if let Some(reader) = first_reader(fields, &run) {
        return refused(31, reader as u32 + 1);
    }
    fields.drain(run.clone());
    fields.iter_mut().for_each(|field| renumber(field, |index| closed(&run, index)));
    written(&description, room)
}

/// The table with the fields of these records, whose references use the new numbering, before the field of an index or
/// at the end.
pub fn put_fields(table: &[u8], index: usize, records: &[u8], room: usize) -> Result<Vec<u8>, Refusal> {
    let mut description = good_description(table)?;
    let fields = &mut description.fields;
    if records.is_empty() || index > fields.len() {
        return refused(30, 0);
    }
    let Some(new) = decode_fields(&CURRENT, records) else { return refused(34, 0) };
    let run = index..index + new.len();
    fields.iter_mut().for_each(|field| renumber(field, |index| opened(&run, index)));
    fields.splice(index..index, new);
    written(&description, room)
}

/// The table of a description, with the right number of each field.
fn written(description: &Description, room: usize) -> Result<Vec<u8>, Refusal> {
    if !within_limits(&CURRENT, description) {
        return refused(34, 0);
    }
    let table = encode(description);
    if room < table.len() {
        return refused(11, 0);
    }
    Ok(table)
}
