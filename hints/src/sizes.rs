//! Numbers 6, 8 and 10: expressions that are too large, names that are repeated, and what follows the rest field.

use crate::faults::{Fault, Mistake};
use crate::field_lines::{FieldLine, Width};
use crate::fields::{Field, Fields};
use crate::limits::{DEPTH_MOST, STORED_MOST};
use crate::shown::quoted;
use crate::trees::Tree;
use std::ops::Range;

/// The operators of which a chain means the same, however it is grouped; a product is 0 or 27 by its grouping.
const REGROUPED: [&str; 3] = ["+", "&&", "||"];

/// Number 6, the first of each line.
pub fn sizes(fields: &Fields) -> Vec<Mistake> {
    let too_large = |(field, form): (&Field, &FieldLine)| {
        let fault = form.expressions().find_map(|(what, tree)| size_fault(what, tree))?;
        Some(fault.at(6, field.number))
    };
    fields.right().filter_map(too_large).collect()
}

fn size_fault(what: &str, tree: &Tree) -> Option<Fault> {
    let (depth, stored) = (tree.depth(), tree.stored());
    let (deep, long) = (depth > DEPTH_MOST, stored > STORED_MOST);
    let found = match (deep, long) {
        (true, true) => format!("depth {depth}, at most 12, and {stored} stored bytes, at most 120"),
        (true, false) => format!("depth {depth}, at most 12"),
        (false, true) => format!("{stored} stored bytes, at most 120"),
        (false, false) => return None,
    };
    let mut fault = Fault::new(tree.span.clone(), format!("the {what} is too large: {found}"), found);
    if deep {
        let chain = "parentheses make a long chain less deep, as in `(a+b)+(c+d)`";
        fault = fault
            .note("a number or name has depth 1, an operator 1 more than its deeper operand")
            .note_if(tree.symbols().any(|symbol| REGROUPED.contains(&symbol)).then(|| chain.to_string()));
    }
    if long {
        fault = fault.note("a number takes 5 bytes, a name 2, an operator 1");
    }
    Some(fault)
}

/// Number 8, the first of each line.
pub fn repeats(fields: &Fields) -> Vec<Mistake> {
    let repeated = |(index, (field, form)): (usize, (&Field, &FieldLine))| {
        form.names().find_map(|(what, part)| {
            let mut earlier = fields.right().take(index);
            let its = |(other, its): (&Field, &FieldLine)| {
                Some((other.called(its, field.part(part))?, other.number))
            };
            Some(repeat(field, part, what, earlier.find_map(its)?))
        })
    };
    fields.right().enumerate().filter_map(repeated).collect()
}

/// A name of this line is one of an earlier line.
fn repeat(field: &Field, part: &Range<usize>, what: &str, (its, line): (&str, usize)) -> Mistake {
    let message = format!("the {what} {} is the {its} of line {line} already", quoted(field.part(part)));
    let unlike =
        (what != its).then(|| "no label or short name of a field is either name of another".to_string());
    Fault::new(part.clone(), message, format!("first on line {line}"))
        .note_if(unlike)
        .note(format!("choose another {what}; large and small letters count"))
        .at(8, field.number)
}

/// Number 10, where all lines before one are of right form.
pub fn behind_rest(fields: &Fields) -> Vec<Mistake> {
    let rest = |(_, form): &(&Field, &FieldLine)| matches!(form.width, Width::Rest);
    let Some((first, _)) = fields.right().find(rest) else { return Vec::new() };
    let behind = fields.right().filter(|(field, _)| field.number > first.number);
    behind.filter_map(|(field, form)| Some(rest_fault(form, first.number)?.at(10, field.number))).collect()
}

fn rest_fault(form: &FieldLine, rest: usize) -> Option<Fault> {
    let (spot, what) = match (&form.width, &form.condition) {
        (Width::Rest, _) => (form.width_span.clone(), "a second `variable` field"),
        (Width::Measured { .. }, _) => {
            (form.width_span.clone(), "a measured width behind the `variable` field")
        }
        (Width::Fixed(_), Some(tree)) => (tree.span.clone(), "a condition behind the `variable` field"),
        (Width::Fixed(_), None) => return None,
    };
    let message = format!("{what}, which is on line {rest}");
    Some(Fault::new(spot, message, format!("line {rest} is `variable`")).note(
        "one field is `variable` at most; behind it stand only fields of fixed width without a condition",
    ))
}
