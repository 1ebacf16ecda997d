//! The verb `readers`.

use crate::fields::{described, index_of};
use crate::sources::SourceName;
use crate::{explain, outputs, Failure, Status};
use std::ffi::OsStr;
use umarekoza::{count_readers, Refusal};

/// Prints how many places read each field, a line for each; or of one field that number alone.
pub fn run(source: &SourceName, field: Option<&OsStr>) -> Result<Status, Failure> {
    let source = source.read()?;
    let table = match source.table() {
        Ok(table) => table,
        Err(refusal) => return refuse(refusal, || explain::source(&source, refusal)),
    };
    let fields = described(&table);
    let Some(field) = field else {
        let line = |(index, field): (usize, _)| line(&table, index, field);
        let lines: String = fields.iter().map(|field| field.label.as_str()).enumerate().map(line).collect();
        return outputs::print(lines.as_bytes());
    };
    match index_of(&table, field).and_then(|index| count_readers(&table, index)) {
        Ok(count) => outputs::print_line(&count.to_string()),
        Err(refusal) => refuse(refusal, || explain::field(&source.input, &fields, field, refusal)),
    }
}

/// The line of a field of a good table.
fn line(table: &[u8], index: usize, label: &str) -> String {
    let count = count_readers(table, index).unwrap_or_default();
    format!("{label}: {count}\n")
}

fn refuse(refusal: Refusal, explain: impl FnOnce()) -> Result<Status, Failure> {
    outputs::print_line(&refusal.to_string())?;
    explain();
    Ok(Status::Refused)
}
