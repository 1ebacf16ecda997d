//! Tables and runs of their fields that are to be cut out [02, R-4].

use super::runs::{whole_rows, Plan};
use super::{table, Rng};
use crate::lookups::count_fields;
use crate::stored::encode;

/// A table, and the first and last index of a run of its fields.
pub struct Cut {
    pub table: Vec<u8>,
    pub first: usize,
    pub last: usize,
}

/// Most of them are good tables, and many runs can be cut out; others are read, leave rows that are not full or no
/// field, are empty or go beyond the fields.
pub fn cut(rng: &mut Rng) -> Cut {
    if rng.one_in(10) {
        let table = table(rng);
        let count = count_fields(&table).unwrap_or(4);
        let (first, last) = if rng.one_in(4) { beyond(rng, count) } else { any_run(rng, count) };
        return Cut { table, first, last };
    }
    let plan = Plan::random(rng, None);
    let description = plan.description(rng);
    let count = description.fields.len();
    let (first, last) = match rng.below(12) {
        0 => beyond(rng, count),
        1 | 2 => any_run(rng, count),
        3 => {
            let one = rng.below(count);
            (one, one)
        }
        4 if rng.one_in(2) => (0, count - 1),
        _ => {
            let run = whole_rows(rng, &description);
            (run.start, run.end - 1)
        }
    };
    Cut { table: encode(&description), first, last }
}

/// A run of so many fields, or one that is a little wrong.
fn any_run(rng: &mut Rng, count: usize) -> (usize, usize) {
    let (one, other) = (rng.below(count), rng.below(count + 1));
    (one.min(other), one.max(other))
}

/// A run that is empty or goes beyond the fields.
fn beyond(rng: &mut Rng, count: usize) -> (usize, usize) {
    let inside = rng.below(count);
    let far = rng.pick([256, 65_536, 1 << 32, usize::MAX - count]) + inside;
    match rng.below(6) {
        0 => (inside, count),
        1 => (count, count),
        2 => (inside + 1, inside),
        3 => (inside, far),
        4 => (far, inside),
        _ => (far, far),
    }
}
