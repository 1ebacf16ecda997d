//! Old tables, whose records keep no numbers, turned into new ones [02, R-5].

use crate::editions::{kind_of, sort_of, CURRENT, UNCOUNTED};
use crate::references::readers;
use crate::refusals::{refused, Refusal};
use crate::stored::{put_number, record, take_record};
use crate::tables::good_in;

/// The new table of a table that is good by the rules as R-2 left them, for an output of `room` bytes.
pub fn convert_table(table: &[u8], room: usize) -> Result<Vec<u8>, Refusal> {
    let numbers = readers(&good_in(&UNCOUNTED, table)?.fields);
    let converted = renewed(table, &numbers);
    if room < converted.len() {
        return refused(11, 0);
    }
    Ok(converted)
}

/// The records of a good old table, those of fields with their new lengths and kinds and these numbers; every other
/// byte is kept.
fn renewed(table: &[u8], numbers: &[usize]) -> Vec<u8> {
    let (mut rest, mut numbers, mut renewed) = (table, numbers.iter(), Vec::new());
    while let Some((kind, body)) = take_record(&mut rest) {
        let sort = sort_of(&UNCOUNTED, kind);
        record(&mut renewed, sort.map_or(kind, |sort| kind_of(&CURRENT, sort)), |new| {
            if let Some(number) = sort.and_then(|_| numbers.next()) {
                put_number(new, *number);
            }
            new.extend_from_slice(body);
        });
    }
    renewed
}
