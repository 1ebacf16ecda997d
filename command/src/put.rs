//! The verb `put`.

use crate::changes::{Changes, Way};
use crate::fields::{described, index_of};
use crate::records::{moved_records, row_bits};
use crate::requests::Delivery;
use crate::sources::SourceName;
use crate::{explain, Failure, Status};
use std::ffi::OsStr;
use umarekoza::with_fields;

/// Writes the table of a page or table with the fields of another one before a field, or at the end; it may take the
/// place of a table, not of a page.
pub fn run(
    into: &SourceName,
    from: &SourceName,
    before: Option<&OsStr>,
    to: &Delivery,
) -> Result<Status, Failure> {
    let (into, from) = (into.read()?, from.read()?);
    to.may_be(&[&into, &from])?;
    let (table, new) = match (into.table(), from.table()) {
        (Err(refusal), _) => return to.refuse_source(&into, refusal),
        (_, Err(refusal)) => return to.refuse_source(&from, refusal),
        (Ok(table), Ok(new)) => (table, new),
    };
    let (input, fields, count) = (&into.input, described(&table), described(&new).len());
    let index = match before.map_or(Ok(fields.len()), |field| index_of(&table, field)) {
        Ok(index) => index,
        Err(refusal) => {
            let field = before.unwrap_or_default();
            return to.refuse(input, (refusal, None), &explain::no_field(input, &fields, field, refusal));
        }
    };
    let records = moved_records(&new, index);
    match with_fields(&table, index, &records) {
        Ok(longer) => {
            let run = index..index + count;
            to.accept(input, &Changes { way: Way::Put, before: &table, after: &longer, run })
        }
        Err(refusal) => {
            let mut told = explain::put((input, &from.input), index, &table, &records, refusal);
            let (rows, other) = (row_bits(&table), row_bits(&new));
            let differ = format!("the rows of {input} have {rows} bits, those of {} {other}", from.input);
            told.notes.extend((rows != other).then_some(differ));
            to.refuse(input, (refusal, None), &told)
        }
    }
}
