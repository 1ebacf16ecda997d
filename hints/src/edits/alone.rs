//! The rules that a field of a record breaks by itself.

use crate::limits::STORED_MOST;
use crate::names::{is_short, label_fault};
use crate::operators::Type;
use crate::shown::quoted;
use crate::stored::{StoredField, StoredWidth, Tree};

/// The first rule on the names, the width or the expressions of a field that is broken.
pub fn fault(field: &StoredField) -> Option<String> {
    if let Some(fault) = label_fault(&field.label, 0, "its label") {
        return Some(fault.message);
    }
    if !field.short.is_empty() && !is_short(&field.short) {
        return Some(format!("{} is no short name", quoted(&field.short)));
    }
    let width = match &field.width {
        StoredWidth::Fixed(bits) if !(1..=32).contains(bits) => format!("it has {bits} bits, not 1 to 32"),
        StoredWidth::Measured { unit, .. } if !matches!(unit, 1 | 8) => {
            format!("its unit is {unit}, not 1 or 8")
        }
        StoredWidth::Measured { tree: Tree::Number(_), .. } => {
            "its width is a single number and it is not fixed".to_string()
        }
        _ => return field.expressions().find_map(|(what, tree)| expression(what, tree)),
    };
    Some(width)
}

fn expression(what: &str, tree: &Tree) -> Option<String> {
    let due = if what == "width" { Type::Number } else { Type::Truth };
    let length = stored_length(tree);
    match type_of(tree) {
        _ if length > STORED_MOST => Some(format!("its {what} has {length} stored bytes, at most 120")),
        None => Some(format!("its {what} mixes numbers with yes and no")),
        Some(found) if found != due => Some(format!("its {what} is {}, not {}", found.name(), due.name())),
        Some(_) => None,
    }
}

/// What an expression gives, if every operator has operands of its type.
fn type_of(tree: &Tree) -> Option<Type> {
    match tree {
        Tree::Number(_) | Tree::Field(_) => Some(Type::Number),
        Tree::Not(operand) => type_of(operand).filter(|found| *found == Type::Truth),
        Tree::Two(operator, left, right) => {
            let fits = |side| type_of(side) == Some(operator.takes);
            (fits(left) && fits(right)).then_some(operator.gives)
        }
    }
}

fn stored_length(tree: &Tree) -> usize {
    match tree {
        Tree::Number(_) => 5,
        Tree::Field(_) => 2,
        Tree::Not(operand) => 1 + stored_length(operand),
        Tree::Two(_, left, right) => 1 + stored_length(left) + stored_length(right),
    }
}
