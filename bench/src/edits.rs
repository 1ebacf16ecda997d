//! What cutting fields out and putting them in takes, beside the check of the table.

use crate::calls::check;
use crate::cases::Case;
use crate::libraries::NOW;
use crate::rounds::{times, Call};
use crate::tables::shown;
use std::hint::black_box;
use umarekoza::{FIELDS_MOST, TABLE_MOST};
use umarekoza_model as model;
use umarekoza_model::generate::{records, Rng};

/// A table with a run of its fields, which is cut out or put in again, and the table without it.
struct Edit {
    case: Case,
    first: usize,
    last: usize,
    records: Vec<u8>,
    left: Vec<u8>,
}

impl Edit {
    fn new(case: Case, first: usize, last: usize) -> Self {
        let records = records(&mut Rng::new(1), &case.table, first, last);
        let left = model::cut_fields(&case.table, first, last, usize::MAX);
        Edit { first, last, records, left: left.expect("a run of the bench is read by no other field"), case }
    }

    fn cut(&self) -> Call<'_> {
        let mut out = vec![0; TABLE_MOST];
        Box::new(move || {
            let length = umarekoza::cut_fields(black_box(&self.case.table), self.first, self.last, &mut out);
            assert_eq!(black_box(length), Ok(self.left.len()));
        })
    }

    fn put(&self) -> Call<'_> {
        let mut out = vec![0; TABLE_MOST];
        Box::new(move || {
            let records = black_box(&self.records);
            let length = umarekoza::put_fields(black_box(&self.left), self.first, records, &mut out);
            assert_eq!(black_box(length), Ok(self.case.table.len()));
        })
    }

    fn model_cut(&self) -> Call<'_> {
        Box::new(|| {
            let left = model::cut_fields(black_box(&self.case.table), self.first, self.last, TABLE_MOST);
            assert!(black_box(left).is_ok());
        })
    }

    fn model_put(&self) -> Call<'_> {
        Box::new(|| {
            let records = black_box(&self.records);
            let longer = model::put_fields(black_box(&self.left), self.first, records, TABLE_MOST);
            assert!(black_box(longer).is_ok());
        })
    }
}

/// Borrower of the blade report; the last row of fields each of which reads the one before it; the first row of fields
/// that read themselves, so that every index changes; and half of these.
fn edits() -> [Edit; 4] {
    [
        Edit::new(Case::blade(), 4, 4),
        Edit::new(Case::constrained(FIELDS_MOST, 0), FIELDS_MOST - 4, FIELDS_MOST - 1),
        Edit::new(Case::alone(FIELDS_MOST), 0, 3),
        Edit::new(Case::alone(FIELDS_MOST), 0, FIELDS_MOST / 2 - 1),
    ]
}

pub fn print(rounds: usize) {
    println!("\nFields cut out and put in again; the check is that of the table with them.\n");
    println!("| Call | Case | library, ns | / model | / check_table | again |");
    println!("|---|---|---|---|---|---|");
    let edits = edits();
    for edit in &edits {
        row("cut_fields", edit, [edit.cut(), edit.cut(), edit.model_cut(), check(&NOW, &edit.case)], rounds);
    }
    for edit in &edits {
        row("put_fields", edit, [edit.put(), edit.put(), edit.model_put(), check(&NOW, &edit.case)], rounds);
    }
}

/// A row: the library twice, the model, and the check.
fn row(call: &str, edit: &Edit, mut calls: [Call; 4], rounds: usize) {
    let times = times(&mut calls, rounds);
    let ratios = [times.ratio(0, 2), times.ratio(0, 3), times.ratio(1, 0)];
    let ratios: Vec<String> = ratios.iter().map(shown).collect();
    let (name, run) = (&edit.case.name, format!("{} to {}", edit.first, edit.last));
    println!("| {call} | {name}, {run} | {:.0} | {} |", times.of(0).median, ratios.join(" | "));
}

#[cfg(test)]
mod tests {
    use super::edits;

    #[test]
    fn fields_are_cut_out_and_put_in() {
        for edit in edits() {
            for mut call in [edit.cut(), edit.put(), edit.model_cut(), edit.model_put()] {
                call();
            }
            assert!(edit.left.len() < edit.case.table.len());
        }
    }
}
