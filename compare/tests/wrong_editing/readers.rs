//! Which field still reads one that is cut out, by a program with a wrong rule.

use super::{Program, Rule::*};
use crate::descriptions::{Field, Width};
use crate::operators::Op;
use crate::refusals::Refusal;
use crate::trees::{Node, Tree};
use std::ops::Range;

impl Program {
    pub fn still_read(self, fields: &[Field<usize>], run: &Range<usize>) -> Option<Refusal> {
        let reads = |index: &usize| {
            let is_left = !run.contains(index) || self.is(RunReadsItself);
            is_left && self.reads(&fields[*index], run)
        };
        let all = 0..fields.len();
        let index = if self.is(LastReader) { all.rev().find(reads) } else { all.into_iter().find(reads) };
        let place = match (index?, self.0) {
            (_, Some(NeighbourRead)) => return None,
            (_, Some(LimitsFor31)) => return Some(Refusal { number: 34, place: 0 }),
            (index, Some(NewNumbering)) => index.saturating_sub(run.len()) + 1,
            (index, Some(PlaceFrom0)) => index,
            (index, _) => index + 1,
        };
        Some(Refusal { number: 31, place: place as u32 })
    }

    /// Whether a field reads one of a run, as far as that counts.
    fn reads(self, field: &Field<usize>, run: &Range<usize>) -> bool {
        let width = match &field.width {
            Width::Measured { tree, .. } if !self.is(NoneInWidths) => Some(tree),
            _ => None,
        };
        let constraint = field.constraint.iter().filter(|_| !self.is(NoneInConstraints));
        let condition = field.condition.iter().filter(|_| !self.is(NoneInConditions));
        let end = if self.is(NoneToLast) { run.end - 1 } else { run.end };
        let mut trees = width.into_iter().chain(constraint).chain(condition);
        trees.any(|tree| self.counted(tree).any(|index| (run.start..end).contains(&index)))
    }

    /// What a tree reads, without what `&&` and `||` may skip where that does not count.
    fn counted(self, tree: &Tree<usize>) -> impl Iterator<Item = usize> + '_ {
        let mut counts = vec![true; tree.nodes.len()];
        for (place, node) in tree.nodes.iter().enumerate().rev() {
            match *node {
                Node::Not(operand) => counts[operand] = counts[place],
                Node::Two(op, left, right) => {
                    let skipped = self.is(NoneSkipped) && matches!(op, Op::And | Op::Or);
                    counts[left] = counts[place];
                    counts[right] = counts[place] && !skipped;
                }
                Node::Number(_) | Node::Name(_) => {}
            }
        }
        tree.nodes.clone().into_iter().zip(counts).filter_map(|(node, counts)| match node {
            Node::Name(index) if counts => Some(index),
            _ => None,
        })
    }
}
