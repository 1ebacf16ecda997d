//! The verb `cut`.

use crate::changes::{Changes, Way};
use crate::fields::{described, index_of};
use crate::requests::Delivery;
use crate::sources::SourceName;
use crate::{explain, Failure, Status};
use std::ffi::OsStr;
use umarekoza::without_fields;

/// Writes the table of a page or table without one field, or without those from the first to the last; it may take the
/// place of the table, not of the page.
pub fn run(
    source: &SourceName,
    first: &OsStr,
    last: Option<&OsStr>,
    to: &Delivery,
) -> Result<Status, Failure> {
    let source = source.read()?;
    to.may_be(&[&source])?;
    let table = match source.table() {
        Ok(table) => table,
        Err(refusal) => return to.refuse_source(&source, refusal),
    };
    let (input, fields) = (&source.input, described(&table));
    let mut run = Vec::new();
    for field in [first, last.unwrap_or(first)] {
        match index_of(&table, field) {
            Ok(index) => run.push(index),
            Err(refusal) => {
                let told = explain::no_field(input, &fields, field, refusal);
                return to.refuse(input, (refusal, None), &told);
            }
        }
    }
    let (first, last) = (run[0], run[1]);
    match without_fields(&table, first, last) {
        Ok(left) => {
            let changes = Changes { way: Way::Cut, before: &table, after: &left, run: first..last + 1 };
            to.accept(input, &changes)
        }
        Err(refusal) => {
            let told = explain::cut(input, &fields, (first, last), &table, refusal);
            to.refuse(input, (refusal, explain::field_of(&fields, refusal)), &told)
        }
    }
}
