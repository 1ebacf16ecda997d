//! The stored form of a description, written and taken apart [01, The stored table] [02, R-5].

use crate::descriptions::{Description, Field, Width};
use crate::editions::{kind_of, sort_of, Edition, Sort, CURRENT};
use crate::operators::{code, op_of};
use crate::references::readers;
use crate::rules::{LONGEST_TREE, MOST_DEPTH};
use crate::trees::{Node, Tree, FIELD_CODE, NOT_CODE, NUMBER_CODE};

const HEAD: usize = 1;
const END: usize = 5;

/// The table of a description.
pub fn encode(description: &Description) -> Vec<u8> {
    encode_in(&CURRENT, description)
}

/// Its table by an edition.
pub fn encode_in(edition: &Edition, description: &Description) -> Vec<u8> {
    encode_with(edition, description, &readers(&description.fields))
}

/// The same with these numbers, one for each field, where the edition keeps them.
pub fn encode_with(edition: &Edition, description: &Description, numbers: &[usize]) -> Vec<u8> {
    let mut table = Vec::with_capacity(64 * (description.fields.len() + 1));
    record(&mut table, HEAD, |body| {
        put_number(body, description.row_bits as usize);
        put_number(body, description.fields.len());
        put_part(body, description.name);
    });
    table.extend(encode_fields(edition, &description.fields, numbers));
    record(&mut table, END, |_| {});
    table
}

/// The records of fields by an edition, with these numbers, one for each, where it keeps them.
pub fn encode_fields(edition: &Edition, fields: &[Field<usize>], numbers: &[usize]) -> Vec<u8> {
    let mut records = Vec::with_capacity(64 * fields.len());
    for (field, number) in fields.iter().zip(numbers) {
        put_field(&mut records, edition, field, *number);
    }
    records
}

/// Adds a record: its length, its kind and the body that `put` adds.
pub fn record(table: &mut Vec<u8>, kind: usize, put: impl FnOnce(&mut Vec<u8>)) {
    let start = table.len();
    put_number(table, 0);
    put_number(table, kind);
    put(table);
    let length = (table.len() - start) as u16;
    table[start..start + 2].copy_from_slice(&length.to_le_bytes());
}

fn put_field(table: &mut Vec<u8>, edition: &Edition, field: &Field<usize>, number: usize) {
    record(table, kind_of(edition, sort(&field.width)), |body| {
        if edition.keeps_numbers {
            put_number(body, number);
        }
        put_part(body, field.label);
        put_part(body, field.short.unwrap_or(b""));
        match &field.width {
            Width::Fixed(bits) => put_number(body, *bits as usize),
            Width::Measured { unit, tree } => {
                put_number(body, *unit as usize);
                put_tree(body, Some(tree));
            }
            Width::Rest => {}
        }
        put_tree(body, field.constraint.as_ref());
        put_tree(body, field.condition.as_ref());
    });
}

/// What a record of a field of this width is of.
pub fn sort<N>(width: &Width<N>) -> Sort {
    match width {
        Width::Fixed(_) => Sort::Fixed,
        Width::Measured { .. } => Sort::Measured,
        Width::Rest => Sort::Rest,
    }
}

pub fn put_number(bytes: &mut Vec<u8>, number: usize) {
    bytes.extend_from_slice(&(number as u16).to_le_bytes());
}

fn put_part(bytes: &mut Vec<u8>, part: &[u8]) {
    put_number(bytes, part.len());
    bytes.extend_from_slice(part);
}

fn put_tree(bytes: &mut Vec<u8>, tree: Option<&Tree<usize>>) {
    let Some(tree) = tree else { return put_number(bytes, 0) };
    put_number(bytes, tree.stored_length());
    put_node(bytes, tree, tree.root());
}

/// Adds the stored form of a subtree, operator first.
fn put_node(bytes: &mut Vec<u8>, tree: &Tree<usize>, node: usize) {
    match tree.nodes[node] {
        Node::Number(number) => {
            bytes.push(NUMBER_CODE);
            bytes.extend_from_slice(&number.to_le_bytes());
        }
        Node::Name(index) => bytes.extend_from_slice(&[FIELD_CODE, index as u8]),
        Node::Not(operand) => {
            bytes.push(NOT_CODE);
            put_node(bytes, tree, operand);
        }
        Node::Two(op, left, right) => {
            bytes.push(code(op));
            put_node(bytes, tree, left);
            put_node(bytes, tree, right);
        }
    }
}

/// What a table's records hold: a description and, where they keep one, the number of each field.
pub struct Decoded<'a> {
    pub description: Description<'a>,
    pub numbers: Vec<usize>,
}

/// What a table holds, if it is such a list of records by this edition; whether the description is within the limits
/// and the numbers are right is not asked here.
pub fn decode<'a>(edition: &Edition, table: &'a [u8]) -> Option<Decoded<'a>> {
    let mut rest = table;
    let (kind, mut head) = take_record(&mut rest)?;
    let row_bits = take_number(&mut head)? as u32;
    let count = take_number(&mut head)?;
    let name = take_part(&mut head)?;
    if kind != HEAD || !head.is_empty() {
        return None;
    }
    let (mut fields, mut numbers) = (Vec::new(), Vec::new());
    for _ in 0..count {
        let (number, field) = take_field_record(edition, &mut rest)?;
        numbers.extend(number);
        fields.push(field);
    }
    let (kind, body) = take_record(&mut rest)?;
    let ended = kind == END && body.is_empty() && rest.is_empty();
    ended.then_some(Decoded { description: Description { name, row_bits, fields }, numbers })
}

/// The fields of records, whole ones and nothing else, whatever numbers they keep.
pub fn decode_fields<'a>(edition: &Edition, records: &'a [u8]) -> Option<Vec<Field<'a, usize>>> {
    let (mut rest, mut fields) = (records, Vec::new());
    while !rest.is_empty() {
        fields.push(take_field_record(edition, &mut rest)?.1);
    }
    Some(fields)
}

/// The number, where the edition keeps one, and the field of the next record.
fn take_field_record<'a>(
    edition: &Edition,
    rest: &mut &'a [u8],
) -> Option<(Option<usize>, Field<'a, usize>)> {
    let (kind, mut body) = take_record(rest)?;
    let number = if edition.keeps_numbers { Some(take_number(&mut body)?) } else { None };
    Some((number, take_field(sort_of(edition, kind)?, body)?))
}

/// The kind and body of the next record.
pub fn take_record<'a>(rest: &mut &'a [u8]) -> Option<(usize, &'a [u8])> {
    let length = take_number(rest)?;
    let mut record = take(rest, length.checked_sub(2)?)?;
    Some((take_number(&mut record)?, record))
}

/// The field of a record, from what follows its number.
fn take_field(sort: Sort, mut body: &[u8]) -> Option<Field<'_, usize>> {
    let label = take_part(&mut body)?;
    let short = Some(take_part(&mut body)?).filter(|short| !short.is_empty());
    let width = match sort {
        Sort::Fixed => Width::Fixed(take_number(&mut body)? as u32),
        Sort::Measured => {
            Width::Measured { unit: take_number(&mut body)? as u32, tree: take_tree(&mut body)?? }
        }
        Sort::Rest => Width::Rest,
    };
    let constraint = take_tree(&mut body)?;
    let condition = take_tree(&mut body)?;
    body.is_empty().then_some(Field { label, short, width, constraint, condition })
}

fn take<'a>(rest: &mut &'a [u8], length: usize) -> Option<&'a [u8]> {
    let (part, after) = rest.split_at_checked(length)?;
    *rest = after;
    Some(part)
}

fn take_number(rest: &mut &[u8]) -> Option<usize> {
    let bytes = take(rest, 2)?.try_into().ok()?;
    Some(usize::from(u16::from_le_bytes(bytes)))
}

fn take_part<'a>(rest: &mut &'a [u8]) -> Option<&'a [u8]> {
    let length = take_number(rest)?;
    take(rest, length)
}

/// A stored tree, or `Some(None)` for the length 0.
fn take_tree(rest: &mut &[u8]) -> Option<Option<Tree<usize>>> {
    let mut bytes = take_part(rest)?;
    if bytes.is_empty() {
        return Some(None);
    }
    if bytes.len() > LONGEST_TREE {
        return None;
    }
    let mut nodes = Vec::new();
    take_node(&mut bytes, &mut nodes, MOST_DEPTH)?;
    bytes.is_empty().then_some(Some(Tree { nodes }))
}

/// Takes a subtree of at most `depth` and answers the place of its root.
fn take_node(rest: &mut &[u8], nodes: &mut Vec<Node<usize>>, depth: u32) -> Option<usize> {
    let depth = depth.checked_sub(1)?;
    let node = match take(rest, 1)?[0] {
        NUMBER_CODE => Node::Number(u32::from_le_bytes(take(rest, 4)?.try_into().ok()?)),
        FIELD_CODE => Node::Name(usize::from(take(rest, 1)?[0])),
        NOT_CODE => Node::Not(take_node(rest, nodes, depth)?),
        code => {
            let op = op_of(code)?;
            let left = take_node(rest, nodes, depth)?;
            Node::Two(op, left, take_node(rest, nodes, depth)?)
        }
    };
    nodes.push(node);
    Some(nodes.len() - 1)
}
