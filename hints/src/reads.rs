//! Number 9: names that may not be read, and wrong types.

use crate::faults::{Fault, Mistake};
use crate::field_lines::{FieldLine, Width};
use crate::fields::{Field, Fields};
use crate::operators::Type;
use crate::shown::{listed, quoted};
use crate::trees::{Kind, Tree};
use crate::unreadable::Unreadable;
use std::ops::Range;

/// So many fields that may be read are listed.
const LISTED: usize = 12;

/// The first of each line.
pub fn mistakes(fields: &Fields) -> Vec<Mistake> {
    let first = |(field, form): (&Field, &FieldLine)| {
        let faults = form.expressions().flat_map(|(what, tree)| {
            let place = Place { fields, field, what };
            let names: Vec<Fault> = tree.names().filter_map(|name| place.name_fault(tree, &name)).collect();
            names.into_iter().chain(type_fault(field, what, tree))
        });
        let fault = faults.min_by_key(|fault| fault.spot.start)?;
        Some(fault.at(9, field.number))
    };
    fields.right().filter_map(first).collect()
}

/// An expression of a line: `what` says which.
struct Place<'a> {
    fields: &'a Fields<'a>,
    field: &'a Field<'a>,
    what: &'a str,
}

impl Place<'_> {
    /// Whether a field may be read here.
    fn reads(&self, other: &Field, form: &FieldLine) -> bool {
        let own = self.what == "constraint" && other.number == self.field.number;
        form.is_fixed() && (other.number < self.field.number || own)
    }

    /// The fields that may be read here.
    fn readable(&self) -> impl Iterator<Item = (&Field<'_>, &FieldLine)> {
        self.fields.right().filter(|(other, form)| self.reads(other, form))
    }

    /// What is wrong with a name, if it may not be read.
    fn name_fault(&self, tree: &Tree, spot: &Range<usize>) -> Option<Fault> {
        let name = self.field.part(spot);
        if self.readable().any(|(other, form)| other.called(form, name).is_some()) {
            return None;
        }
        let shown = quoted(name);
        let named = self.fields.right().find_map(|(other, form)| {
            let what = other.called(form, name)?;
            Some(self.unreadable(&format!("{shown} is the {what} of"), other, form))
        });
        let fault = match named {
            Some(message) => Fault::new(spot.clone(), message, "cannot be read here"),
            None => Fault::new(spot.clone(), format!("no field has the name {shown}"), "no such name")
                .note_if(self.within_label(tree, spot.start))
                .note_if(self.nearest(name)),
        };
        Some(fault.note(self.listing()))
    }

    /// Why a field with this name cannot be read.
    fn unreadable(&self, name_of: &str, other: &Field, form: &FieldLine) -> String {
        let own = other.number == self.field.number;
        let line = if own { "this line".to_string() } else { format!("line {}", other.number) };
        let why = match form.width {
            Width::Measured { .. } => ", which has a measured width: it has no value to read",
            Width::Rest => ", which is `variable`: it has no value to read",
            Width::Fixed(_) if own => ": only its constraint may read it",
            Width::Fixed(_) => ", which comes later: only earlier fields may be read",
        };
        format!("{name_of} {line}{why}")
    }

    /// A label that cannot be read, lies in the expression and holds this byte.
    fn within_label(&self, tree: &Tree, at: usize) -> Option<String> {
        let line = &self.field.line[..tree.span.end];
        Unreadable::at(&self.fields.unreadable, line, &tree.operands, at).map(|(label, _)| label.note())
    }

    fn nearest(&self, name: &[u8]) -> Option<String> {
        let names = self.readable().flat_map(|(other, form)| other.read_names(form));
        let near = names.map(|readable| (distance(name, readable), readable));
        let (_, nearest) =
            near.filter(|(steps, other)| *steps <= 2 && *steps < other.len()).min_by_key(|(s, _)| *s)?;
        Some(format!("did you mean {}?", quoted(nearest)))
    }

    /// What may be read, a field with both names as `label` (`short name`).
    fn listing(&self) -> String {
        let told = |(other, form): (&Field, &FieldLine)| match other.read_names(form)[..] {
            [label, short] => Some(format!("{} ({})", quoted(label), quoted(short))),
            [name] => Some(quoted(name)),
            _ => None,
        };
        let names: Vec<String> = self.readable().filter_map(told).collect();
        match names.len() {
            0 => "no name may be read here: no earlier field of fixed width has one".to_string(),
            count if count > LISTED => format!("may be read here: {} and others", names[..LISTED].join(", ")),
            _ => format!("may be read here: {}", listed(&names, "and")),
        }
    }
}

/// The first operand, or whole, of a wrong type.
fn type_fault(field: &Field, what: &str, tree: &Tree) -> Option<Fault> {
    let root = tree.nodes.len() - 1;
    let due = if what == "width" { Type::Number } else { Type::Truth };
    let whole = [(format!("a {what} is {}", due.name()), due, root)];
    let operands = tree.nodes.iter().flat_map(|node| match &node.kind {
        Kind::Not(operand) => vec![("`!` takes yes or no".to_string(), Type::Truth, *operand)],
        Kind::Two(operator, left, right) => {
            let takes = if operator.takes == Type::Number { "numbers" } else { "yes or no" };
            let takes = format!("`{}` takes {takes}", operator.symbol);
            vec![(takes.clone(), operator.takes, *left), (takes, operator.takes, *right)]
        }
        Kind::Number(_) | Kind::Name(_) => Vec::new(),
    });
    let wrong = whole.into_iter().chain(operands).filter(|(_, due, node)| tree.gives(*node) != *due);
    let (takes, due, node) = wrong.min_by_key(|(.., node)| tree.nodes[*node].span.start)?;
    let span = tree.nodes[node].span.clone();
    let part = quoted(field.part(&span));
    let gives = tree.gives(node).name();
    let mend = match due {
        Type::Truth => format!("compare it with a number, as in `{} != 0`", part.trim_matches('`')),
        Type::Number => "a comparison is no number: nothing is reckoned with it".to_string(),
    };
    Some(
        Fault::new(span, format!("{takes}, found {part}, which is {gives}"), format!("this is {gives}"))
            .note(mend),
    )
}

/// How many letters are to be changed, put in or taken out to make one word of another.
fn distance(from: &[u8], to: &[u8]) -> usize {
    let mut row: Vec<usize> = (0..=to.len()).collect();
    for (index, byte) in from.iter().enumerate() {
        let mut before = index;
        row[0] = index + 1;
        for (column, other) in to.iter().enumerate() {
            let changed = before + usize::from(!byte.eq_ignore_ascii_case(other));
            before = row[column + 1];
            row[column + 1] = changed.min(before + 1).min(row[column] + 1);
        }
    }
    row[to.len()]
}
