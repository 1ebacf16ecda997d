//! Runs of fields of a description: those that can be cut out, and others [02, R-4].

use super::extremes;
use super::layouts::{full_layout, tall_layout, Layout, Slot};
use super::words::Names;
use super::{fields, many, much_read_names, plan, Rng};
use crate::descriptions::Description;
use crate::renumbering::{closed, first_reader, renumber};
use crate::rules::MOST_FIELDS;
use std::ops::Range;

/// A description of as many fields as may be, or a few more or fewer, is one of so many; one as long as may be, and one
/// of fields that are read very often.
const FULL: usize = 6;
const LONGEST: usize = 30;
const MUCH_READ: usize = 40;
const TRIES: usize = 12;

/// Names for a description of which fields are to be cut out or put in, and how it is made of them.
pub struct Plan {
    names: Names,
    sort: Sort,
}

enum Sort {
    Rows(Layout),
    Longest,
    MuchRead,
}

impl Plan {
    /// With `most`, of that many fields at the most where there are very many; else of the limit at the most.
    pub fn random(rng: &mut Rng, most: Option<usize>) -> Self {
        if rng.one_in(LONGEST) {
            let count = rng.pick([MOST_FIELDS, MOST_FIELDS, 8, 40]);
            return Plan { names: Names::longest(rng, count), sort: Sort::Longest };
        }
        if rng.one_in(MUCH_READ) {
            return Plan { names: much_read_names(rng, MOST_FIELDS), sort: Sort::MuchRead };
        }
        if !rng.one_in(FULL) {
            let (layout, names) = plan(rng, false);
            return Plan { names, sort: Sort::Rows(layout) };
        }
        let count = match most {
            Some(most) => most - rng.below(5),
            None => many(rng),
        };
        let layout = match rng.below(3) {
            0 => Layout::new(8, vec![Slot::Fixed(8); count]),
            1 => tall_layout(rng, 8, count),
            _ => full_layout(rng, count),
        };
        Plan { names: Names::random(rng, &layout, false), sort: Sort::Rows(layout) }
    }

    pub fn description(&self, rng: &mut Rng) -> Description<'_> {
        match &self.sort {
            Sort::Rows(layout) => fields::description(rng, layout, &self.names),
            Sort::Longest => extremes::longest(rng, &self.names),
            Sort::MuchRead => extremes::much_read(rng, &self.names),
        }
    }
}

/// The indexes before which a row may end, and the number of fields.
pub fn row_ends(description: &Description) -> Vec<usize> {
    let (mut filled, mut ends) = (0, Vec::new());
    for (index, field) in description.fields.iter().enumerate() {
        if filled == 0 {
            ends.push(index);
        }
        filled = (filled + field.fixed_bits().unwrap_or(0)) % description.row_bits.max(1);
    }
    ends.push(description.fields.len());
    ends
}

/// A run of whole rows, not all of them unless there is but one; most often one that no other field reads, with others
/// behind it if there is such a run.
pub fn whole_rows(rng: &mut Rng, description: &Description) -> Range<usize> {
    let (ends, count) = (row_ends(description), description.fields.len());
    let mut chosen = 0..count;
    for _ in 0..TRIES {
        let (one, other) = (ends[rng.below(ends.len())], ends[rng.below(ends.len())]);
        let run = one.min(other)..one.max(other);
        if run.is_empty() || run.len() == count {
            continue;
        }
        chosen = run;
        let is_read = first_reader(&description.fields, &chosen).is_some();
        if !is_read && (chosen.end < count || rng.one_in(3)) {
            break;
        }
    }
    chosen
}

/// The description without a run of its fields, which no other reads.
pub fn without<'a>(description: &Description<'a>, run: &Range<usize>) -> Description<'a> {
    let mut left = description.clone();
    left.fields.drain(run.clone());
    left.fields.iter_mut().for_each(|field| renumber(field, |index| closed(run, index)));
    left
}
