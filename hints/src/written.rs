//! Stored expressions written out, with names and no parentheses that are not needed.

use crate::operators::ATOM;
use crate::shown::shown;
use crate::stored::{StoredField, Tree};

/// The expression as a page would have it.
pub fn written(tree: &Tree, fields: &[StoredField]) -> String {
    match tree {
        Tree::Number(number) => number.to_string(),
        Tree::Field(index) => name_of(fields, *index),
        Tree::Not(operand) => format!("!({})", written(operand, fields)),
        Tree::Two(operator, left, right) => {
            let (to_left, to_right) = operator.groups();
            let bare = |side: &Tree, groups: bool| {
                level_of(side) > operator.level || (level_of(side) == operator.level && groups)
            };
            let left = operand(left, bare(left, to_left), fields);
            let right = operand(right, bare(right, to_right), fields);
            format!("{left} {} {right}", operator.symbol)
        }
    }
}

/// The name by which a field is read.
pub fn name_of(fields: &[StoredField], index: usize) -> String {
    match fields.get(index) {
        Some(field) if !field.short.is_empty() => shown(&field.short),
        Some(field) => shown(&field.label),
        None => format!("field {}", index + 1),
    }
}

fn level_of(tree: &Tree) -> u8 {
    match tree {
        Tree::Two(operator, ..) => operator.level,
        _ => ATOM,
    }
}

fn operand(tree: &Tree, bare: bool, fields: &[StoredField]) -> String {
    if bare {
        written(tree, fields)
    } else {
        format!("({})", written(tree, fields))
    }
}
