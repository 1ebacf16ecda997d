//! The rules that make a description one within the limits [01, Expressions] [01, Fields] [01, The stored table].
//! Those that a text can break one by one are functions of a field among its fields.

use crate::descriptions::{Description, Field, Width};
use crate::editions::{knows, most_fields, Edition};
use crate::names::{is_label, is_short_name};
use crate::naming::{first_repeat, may_read};
use crate::trees::{Kind, Node, Tree};
use crate::widths::fixed_number;

pub const ROW_BITS: [u32; 3] = [8, 16, 32];
pub const MOST_FIELDS: usize = 128;
pub const MOST_FIXED_BITS: u32 = 32;
pub const MOST_DEPTH: u32 = 12;
pub const LONGEST_TREE: usize = 120;

/// Every rule on W, names, kinds, expressions, fields and rows, by an edition.
pub fn within_limits(edition: &Edition, description: &Description) -> bool {
    let fields = &description.fields;
    let is_known = |tree: &Tree<usize>| {
        tree.nodes.iter().all(|node| !matches!(node, Node::Two(op, ..) if !knows(edition, *op)))
    };
    ROW_BITS.contains(&description.row_bits)
        && is_label(description.name)
        && (1..=most_fields(edition)).contains(&fields.len())
        && fields.iter().flat_map(Field::trees).all(is_known)
        && fields.iter().all(|field| names_right(field) && width_right(field) && trees_small(field))
        && first_repeat(fields).is_none()
        && (0..fields.len()).all(|index| reads_right(fields, index))
        && first_after_rest(fields).is_none()
        && rows_fit(description)
}

fn names_right<N>(field: &Field<N>) -> bool {
    is_label(field.label) && field.short.is_none_or(is_short_name)
}

fn width_right<N: Copy>(field: &Field<N>) -> bool {
    match &field.width {
        Width::Fixed(bits) => (1..=MOST_FIXED_BITS).contains(bits),
        Width::Measured { unit, tree } => matches!(unit, 1 | 8) && fixed_number(tree).is_none(),
        Width::Rest => true,
    }
}

/// Depth and stored length of every tree are within their limits.
pub fn trees_small<N: Copy>(field: &Field<N>) -> bool {
    field.trees().all(|tree| tree.depth() <= MOST_DEPTH && tree.stored_length() <= LONGEST_TREE)
}

/// The trees have their types and read earlier fixed fields that have a name to be read by; a constraint may read
/// its own field too.
pub fn reads_right(fields: &[Field<usize>], index: usize) -> bool {
    let field = &fields[index];
    let right = |tree: &Tree<usize>, kind: Kind, end: usize| {
        let reads = |node: &Node<usize>| match node {
            Node::Name(place) => may_read(fields, *place, end),
            _ => true,
        };
        tree.kind() == Some(kind) && tree.nodes.iter().all(reads)
    };
    let width = match &field.width {
        Width::Measured { tree, .. } => right(tree, Kind::Number, index),
        _ => true,
    };
    width
        && field.constraint.as_ref().is_none_or(|tree| right(tree, Kind::Truth, index + 1))
        && field.condition.as_ref().is_none_or(|tree| right(tree, Kind::Truth, index))
}

/// The first field after the rest field that is not a fixed one without a condition.
pub fn first_after_rest<N>(fields: &[Field<N>]) -> Option<usize> {
    let rest = fields.iter().position(Field::is_rest)?;
    let forbidden = |field: &Field<N>| field.fixed_bits().is_none() || field.condition.is_some();
    (rest + 1..fields.len()).find(|index| forbidden(&fields[*index]))
}

/// Fixed widths never cross a multiple of W, and end on one before each long field and at the end.
fn rows_fit(description: &Description) -> bool {
    let mut filled = 0;
    for field in &description.fields {
        match field.fixed_bits() {
            Some(bits) if filled + bits > description.row_bits => return false,
            Some(bits) => filled = (filled + bits) % description.row_bits,
            None if filled != 0 => return false,
            None => {}
        }
    }
    filled == 0
}
