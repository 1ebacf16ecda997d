//! Descriptions with a rule broken.

use super::growth::Growth;
use super::Rng;
use crate::descriptions::{Description, Field, Width};
use crate::names::is_short_name;
use crate::naming::read_names;
use crate::operators::Op;
use crate::trees::{Kind, Node, Tree};

const ODD_LABELS: [&[u8]; 6] =
    [b"A label that is longer than it may be 123", b"", b"-a", b"a ", b"a  b", b"a_b"];
/// Labels by which no field may be read.
const UNREADABLE: [&[u8]; 9] =
    [b"On Loan", b"x y", b"a-b", b"7a", b"bit", b"byte", b"present", b"Abcdefghi", b"a2345678Z"];
const ODD_SHORTS: [&[u8]; 7] = [b"abcdefghi", b"bytes", b"present", b"1a", b"a-b", b"a b", b"variable"];

/// Changes a description in one way, most often so that it breaks a rule.
pub fn bend(rng: &mut Rng, description: &mut Description) {
    let count = description.fields.len();
    let (index, other) = (rng.below(count), rng.below(count));
    let fields = &mut description.fields;
    let Some(field) = fields.get_mut(index) else { return };
    match rng.below(21) {
        0..=2 => rename(rng, fields, index, other),
        3 | 4 => unname(rng, fields, index),
        5 => field.label = rng.pick(ODD_LABELS),
        6 => field.short = Some(rng.pick(ODD_SHORTS)).filter(|_| rng.one_in(2)),
        7..=10 => misread(rng, fields, index),
        11 | 20 => mistype(rng, field),
        12 | 13 => rest_and_after(rng, fields, index, other),
        14 => field.constraint = Some(too_deep(rng)),
        15 => field.constraint = Some(Growth::new(&[]).balanced(rng, Kind::Truth, 21)),
        16 => rewiden(rng, field),
        17 => description.row_bits = rng.pick([8, 16, 32, 24, 0]),
        18 => description.name = rng.pick(ODD_LABELS),
        _ => {
            fields.remove(index);
        }
    }
}

/// A tree that is a little too deep, or a chain of powers that is too deep.
fn too_deep(rng: &mut Rng) -> Tree<usize> {
    match rng.below(4) {
        0 => Growth::new(&[]).chain_of_powers(rng, Kind::Truth, 13),
        1 => {
            let depth = rng.between(14, 60);
            Growth::new(&[]).chain_of_powers(rng, Kind::Truth, depth)
        }
        _ => Growth::new(&[]).chain(rng, Kind::Truth, 13),
    }
}

/// A field gets a name of another one, or of its own, as its label or its short name.
fn rename<'a>(rng: &mut Rng, fields: &mut [Field<'a, usize>], index: usize, other: usize) {
    let names: Vec<&'a [u8]> = fields[other].names().collect();
    let name = names[rng.below(names.len())];
    if is_short_name(name) && rng.one_in(2) {
        fields[index].short = Some(name);
    } else {
        fields[index].label = name;
    }
}

/// A field gets a label that cannot be read and no short name, and a later field, if there is one, reads it.
fn unname(rng: &mut Rng, fields: &mut [Field<usize>], index: usize) {
    let label = rng.pick(UNREADABLE);
    if fields.iter().any(|field| field.is_called(label)) {
        return;
    }
    fields[index].label = label;
    fields[index].short = None;
    if index + 1 < fields.len() {
        let reader = rng.between(index + 1, fields.len() - 1);
        read(rng, &mut fields[reader], index);
    }
}

/// A field reads one that it may not read, perhaps: any at all, or an earlier one that is not fixed or has no name to
/// be read by. One with a label to be read by may lose its short name.
fn misread(rng: &mut Rng, fields: &mut [Field<usize>], index: usize) {
    let is_long = |field: &Field<usize>| field.fixed_bits().is_none();
    let is_nameless = |field: &Field<usize>| !is_long(field) && read_names(field).next().is_none();
    let earlier = match rng.below(5) {
        0 => fields[..index].iter().rposition(is_long),
        1 | 2 => fields[..index].iter().rposition(|field| is_long(field) && is_short_name(field.label)),
        3 => fields[..index].iter().rposition(is_nameless),
        _ => None,
    };
    let chosen = earlier.unwrap_or(rng.between(0, fields.len()));
    if let Some(field) = fields.get_mut(chosen).filter(|field| is_short_name(field.label)) {
        field.short = field.short.filter(|_| rng.one_in(2));
    }
    read(rng, &mut fields[index], chosen);
}

/// One of a field's trees reads the field of this index.
fn read(rng: &mut Rng, field: &mut Field<usize>, read: usize) {
    let reader = Tree { nodes: vec![Node::Name(read), Node::Number(1), Node::Two(Op::Ge, 0, 1)] };
    match rng.below(3) {
        0 => field.condition = Some(reader),
        1 => field.constraint = Some(reader),
        _ => match &mut field.width {
            Width::Measured { tree, .. } => tree.nodes = vec![Node::Name(read)],
            _ => field.constraint = Some(reader),
        },
    }
}

/// A tree of the wrong type, at the top or within.
fn mistype(rng: &mut Rng, field: &mut Field<usize>) {
    let one = Node::Number(1);
    let nodes = match rng.below(5) {
        0 => vec![one],
        4 => {
            let op = rng.pick([Op::Div, Op::Rem, Op::Pow]);
            vec![one, one, Node::Two(Op::Eq, 0, 1), one, Node::Two(op, 2, 3)]
        }
        1 => vec![one, Node::Not(0)],
        2 => vec![one, one, Node::Two(Op::Eq, 0, 1), one, Node::Two(Op::Eq, 2, 3)],
        _ => vec![one, one, Node::Two(Op::Eq, 0, 1), one, Node::Two(Op::And, 2, 3)],
    };
    match &mut field.width {
        Width::Measured { tree, .. } if rng.one_in(2) => tree.nodes = nodes,
        _ if rng.one_in(2) => field.condition = Some(Tree { nodes }),
        _ => field.constraint = Some(Tree { nodes }),
    }
}

/// Long fields made rest fields, or a condition at another field.
fn rest_and_after(rng: &mut Rng, fields: &mut [Field<usize>], index: usize, other: usize) {
    let from = rng.below(2) * index;
    for field in &mut fields[from..] {
        if field.fixed_bits().is_none() {
            field.width = Width::Rest;
        }
    }
    if rng.one_in(2) {
        fields[other].condition = Some(Growth::new(&[]).truth(rng));
    }
}

/// Another width.
fn rewiden(rng: &mut Rng, field: &mut Field<usize>) {
    field.width = match &field.width {
        Width::Fixed(bits) => match rng.below(4) {
            0 => Width::Fixed(bits + 1),
            1 => Width::Fixed(bits.saturating_sub(1)),
            2 => Width::Rest,
            _ => Width::Fixed(rng.pick([0, 33, 64])),
        },
        Width::Measured { unit, tree } => match rng.below(4) {
            0 => Width::Rest,
            1 => Width::Fixed(8),
            2 => Width::Measured { unit: rng.pick([0, 2, 9]), tree: tree.clone() },
            _ => Width::Measured { unit: *unit, tree: Tree { nodes: vec![Node::Number(8)] } },
        },
        Width::Rest => Width::Fixed(rng.between(1, 32) as u32),
    };
}
