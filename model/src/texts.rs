//! A text to its description and its table, refusals in 01's order [01, Refusal numbers].

use crate::descriptions::{Description, Field, Width};
use crate::field_lines::field_line;
use crate::frames::{frame, Frame, Limits};
use crate::matching::first_mismatch;
use crate::naming::{first_repeat, read_names};
use crate::refusals::{refused, Refusal};
use crate::rules::{first_after_rest, reads_right, trees_small, MOST_FIELDS};
use crate::stored::encode;
use crate::trees::{Node, Tree};

pub const LONGEST_TEXT: usize = 16_384;

/// The table of the description that `text` spells, for an output of `room` bytes.
pub fn write_table(text: &[u8], room: usize) -> Result<Vec<u8>, Refusal> {
    write_table_by(Limits::CURRENT, text, room)
}

/// The same by other limits of rows and lines, as those of document 01, and else by all rules in force.
pub fn write_table_by(limits: Limits, text: &[u8], room: usize) -> Result<Vec<u8>, Refusal> {
    let table = encode(&description(text, limits)?);
    if room < table.len() {
        return refused(11, 0);
    }
    Ok(table)
}

/// The description that a text spells.
fn description(text: &[u8], limits: Limits) -> Result<Description<'_>, Refusal> {
    if text.len() > LONGEST_TEXT {
        return refused(1, 0);
    }
    if !text.iter().all(|byte| matches!(byte, b' '..=b'~' | b'\n')) {
        return refused(2, 0);
    }
    let frame = frame(text, limits)?;
    if frame.cells.len() > MOST_FIELDS || frame.field_lines.len() > MOST_FIELDS {
        return refused(4, 0);
    }
    let named = named_fields(&frame)?;
    refuse_line(&frame, 6, named.iter().position(|field| !trees_small(field)))?;
    refuse_line(&frame, 7, first_mismatch(&frame.cells, &named))?;
    refuse_line(&frame, 8, first_repeat(&named))?;
    let fields = resolved_fields(named);
    refuse_line(&frame, 9, (0..fields.len()).find(|index| !reads_right(&fields, *index)))?;
    refuse_line(&frame, 10, first_after_rest(&fields))?;
    Ok(Description { name: frame.name, row_bits: frame.row_bits, fields })
}

/// The refusal `number` at the field line with this index, if there is one.
fn refuse_line(frame: &Frame, number: u32, index: Option<usize>) -> Result<(), Refusal> {
    match index {
        Some(index) => refused(number, frame.first_line + index as u32),
        None => Ok(()),
    }
}

/// The fields of all lines, or the first line of wrong form.
fn named_fields<'a>(frame: &Frame<'a>) -> Result<Vec<Field<'a, &'a [u8]>>, Refusal> {
    let mut fields = Vec::with_capacity(frame.field_lines.len());
    for line in &frame.field_lines {
        let Some(field) = field_line(line) else { return refused(5, frame.first_line + fields.len() as u32) };
        fields.push(field);
    }
    Ok(fields)
}

/// The fields with indices for the names by which fields may be read, and for any other name an index of no field.
fn resolved_fields<'a>(named: Vec<Field<'a, &'a [u8]>>) -> Vec<Field<'a, usize>> {
    let names: Vec<Vec<&[u8]>> = named.iter().map(|field| read_names(field).collect()).collect();
    named.into_iter().map(|field| resolved_field(field, &names)).collect()
}

fn resolved_field<'a>(field: Field<'a, &'a [u8]>, names: &[Vec<&[u8]>]) -> Field<'a, usize> {
    let clause = |tree: Option<Tree<&[u8]>>| tree.map(|tree| resolved_tree(&tree, names));
    let width = match field.width {
        Width::Fixed(bits) => Width::Fixed(bits),
        Width::Measured { unit, tree } => Width::Measured { unit, tree: resolved_tree(&tree, names) },
        Width::Rest => Width::Rest,
    };
    let (constraint, condition) = (clause(field.constraint), clause(field.condition));
    Field { label: field.label, short: field.short, width, constraint, condition }
}

fn resolved_tree(tree: &Tree<&[u8]>, names: &[Vec<&[u8]>]) -> Tree<usize> {
    let place = |name: &[u8]| names.iter().position(|names| names.contains(&name)).unwrap_or(names.len());
    let resolved = |node: &Node<&[u8]>| match *node {
        Node::Number(number) => Node::Number(number),
        Node::Name(name) => Node::Name(place(name)),
        Node::Not(operand) => Node::Not(operand),
        Node::Two(op, left, right) => Node::Two(op, left, right),
    };
    Tree { nodes: tree.nodes.iter().map(resolved).collect() }
}
