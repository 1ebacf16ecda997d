//! Which rules on tables are in force, and which were in force for tables that keep no numbers [02, R-5].

use crate::operators::Op;
use crate::rules::MOST_FIELDS;

/// What a field's record is of.
#[derive(Clone, Copy, Debug, PartialEq, Eq)]
pub enum Sort {
    Fixed,
    Measured,
    Rest,
}

const SORTS: [Sort; 3] = [Sort::Fixed, Sort::Measured, Sort::Rest];

/// What differs between the two.
#[derive(Clone, Copy)]
pub struct Edition {
    pub most_fields: usize,
    /// The operators that an expression may have.
    pub knows: fn(Op) -> bool,
    /// The kinds of the records of fixed, measured and rest fields.
    pub kinds: [usize; 3],
    /// A field's record holds how often other fields read the field.
    pub keeps_numbers: bool,
}

/// The rules in force.
pub const CURRENT: Edition =
    Edition { most_fields: MOST_FIELDS, knows: |_| true, kinds: [12, 13, 14], keeps_numbers: true };

/// The rules as R-2 left them: those of document 01 on fields and operators.
pub const UNCOUNTED: Edition =
    Edition { most_fields: 64, knows: is_of_01, kinds: [2, 3, 4], keeps_numbers: false };

fn is_of_01(op: Op) -> bool {
    !matches!(op, Op::Div | Op::Rem | Op::Pow)
}

/// The most fields that a table may have.
pub fn most_fields(edition: &Edition) -> usize {
    edition.most_fields
}

/// Whether an expression may have this operator.
pub fn knows(edition: &Edition, op: Op) -> bool {
    (edition.knows)(op)
}

/// The kind of a record.
pub fn kind_of(edition: &Edition, sort: Sort) -> usize {
    edition.kinds[sort as usize]
}

/// What the record of a kind is of.
pub fn sort_of(edition: &Edition, kind: usize) -> Option<Sort> {
    SORTS.into_iter().find(|sort| kind_of(edition, *sort) == kind)
}
