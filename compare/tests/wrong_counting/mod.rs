//! The model's `references` and `editions` with one rule wrong, or none, as is set for the thread.

#[path = "../../../model/src/references.rs"]
mod right;
#[allow(dead_code)]
#[path = "../../../model/src/editions.rs"]
mod right_editions;

use crate::descriptions::{Field, Width};
use crate::operators::Op;
use crate::trees::{Node, Tree};
pub use right_editions::{kind_of, Edition, Sort, CURRENT, UNCOUNTED};
use std::cell::Cell;
use Rule::*;

/// A wrong rule.
#[derive(Clone, Copy, Debug, PartialEq, Eq)]
pub enum Rule {
    /// Which references count: those in a field's own constraint too; each field once for an expression, or for a
    /// field, that reads it; none in widths, constraints or conditions; none to the field right before.
    OwnCount,
    OnceForExpression,
    OnceForField,
    NoneInWidths,
    NoneInConstraints,
    NoneInConditions,
    NoneToNeighbours,
    /// Which numbers are right in a table.
    AnyNumber,
    AnySecondByte,
    AnyNumberOfLast,
    AnyNumberBelow,
    /// Records of kinds 2 to 4 are good, with a number in them, or without it in a table that has none.
    OldKinds,
    OldTables,
    /// Which old tables are good.
    OldOf65,
    OldOf128,
    OldWithPowers,
    OldWithQuotients,
    NewForOld,
    /// What the converter keeps or leaves out.
    KeepsLength,
    KeepsKind,
    NumbersAreZero,
    /// The output is compared with the old length; it is written before a refusal by 11, or by 21.
    RoomOfOld,
    WritesWhatFits,
    WritesAtOnce,
    /// 30 goes before 21.
    BeyondFirst,
}

thread_local! {
    static RULE: Cell<Option<Rule>> = const { Cell::new(None) };
}

/// What `answer` gives with this wrong rule or none.
pub fn by_rule<T>(rule: Option<Rule>, answer: impl FnOnce() -> T) -> T {
    RULE.set(rule);
    let answer = answer();
    RULE.set(None);
    answer
}

fn is(rule: Rule) -> bool {
    RULE.get() == Some(rule)
}

pub fn readers(fields: &[Field<usize>]) -> Vec<usize> {
    let mut counts = vec![0; fields.len()];
    for (reader, field) in fields.iter().enumerate() {
        let mut seen = Vec::new();
        for tree in counted_trees(field) {
            for node in &tree.nodes {
                let Node::Name(read) = *node else { continue };
                if read >= counts.len() || !counts_for(reader, read) || seen.contains(&read) {
                    continue;
                }
                counts[read] += 1;
                if is(OnceForExpression) || is(OnceForField) {
                    seen.push(read);
                }
            }
            if is(OnceForExpression) {
                seen.clear();
            }
        }
    }
    counts
}

/// The expressions of a field in which references count.
fn counted_trees<'a>(field: &'a Field<'_, usize>) -> impl Iterator<Item = &'a Tree<usize>> {
    let width = match &field.width {
        Width::Measured { tree, .. } if !is(NoneInWidths) => Some(tree),
        _ => None,
    };
    let constraint = field.constraint.iter().filter(|_| !is(NoneInConstraints));
    let condition = field.condition.iter().filter(|_| !is(NoneInConditions));
    width.into_iter().chain(constraint).chain(condition)
}

fn counts_for(reader: usize, read: usize) -> bool {
    (reader != read || is(OwnCount)) && !(is(NoneToNeighbours) && reader == read + 1)
}

pub fn are_right(numbers: &[usize], fields: &[Field<usize>]) -> bool {
    let right = readers(fields);
    let each = || numbers.iter().zip(&right);
    match RULE.get() {
        None => right::are_right(numbers, fields),
        Some(AnyNumber) => true,
        Some(AnySecondByte) => each().all(|(number, right)| number % 256 == right % 256),
        Some(AnyNumberOfLast) => each().rev().skip(1).all(|(number, right)| number == right),
        Some(AnyNumberBelow) => each().all(|(number, right)| number <= right),
        _ => numbers == right,
    }
}

pub fn most_fields(edition: &Edition) -> usize {
    match RULE.get() {
        Some(OldOf65) if !edition.keeps_numbers => 65,
        Some(OldOf128) if !edition.keeps_numbers => 128,
        _ => right_editions::most_fields(edition),
    }
}

pub fn knows(edition: &Edition, op: Op) -> bool {
    let added = match op {
        Op::Pow => is(OldWithPowers),
        Op::Div | Op::Rem => is(OldWithQuotients),
        _ => false,
    };
    added || right_editions::knows(edition, op)
}

pub fn sort_of(edition: &Edition, kind: usize) -> Option<Sort> {
    let old = || right_editions::sort_of(&UNCOUNTED, kind).filter(|_| is(OldKinds));
    right_editions::sort_of(edition, kind).or_else(old)
}
