//! The generated cases reach the answers that depend on `/`, `%` and `^` [02, R-7], and often.

use super::{packet, table, text, Rng};
use crate::descriptions::{Description, Field, Width};
use crate::evaluation::value;
use crate::field_lines::field_line;
use crate::operators::{code, Op};
use crate::reading::read_partly;
use crate::refusals::Refusal;
use crate::rules::{LONGEST_TREE, MOST_DEPTH};
use crate::tables::{check_table, good_description};
use crate::texts::write_table;
use crate::trees::{Node, Tree};
use std::collections::BTreeMap;

const CASES: usize = 10_000;
/// So many of them are of each sort, at the least.
const DUE: usize = 10;
const ROOM: usize = 1 << 16;

/// How often each sort of case turned up.
#[derive(Default)]
struct Counts(BTreeMap<String, usize>);

impl Counts {
    fn add(&mut self, sort: impl Into<String>) {
        *self.0.entry(sort.into()).or_default() += 1;
    }

    fn has_all<const N: usize>(&self, sorts: [&str; N]) {
        for sort in sorts {
            let found = self.0.get(sort).copied().unwrap_or(0);
            assert!(found >= DUE, "{sort}: {found} of {:?}", self.0);
        }
    }
}

fn has(tree: &Tree<impl Copy>, op: Op) -> bool {
    tree.nodes.iter().any(|node| matches!(node, Node::Two(other, ..) if *other == op))
}

/// Whether an operand of a `^` is one too: the left one, the right one.
fn chained(tree: &Tree<usize>) -> [bool; 2] {
    let is_power = |node: usize| matches!(tree.nodes[node], Node::Two(Op::Pow, ..));
    let operand = |side: usize| {
        let chains = |node: &Node<usize>| match *node {
            Node::Two(Op::Pow, left, right) => is_power([left, right][side]),
            _ => false,
        };
        tree.nodes.iter().any(chains)
    };
    [operand(0), operand(1)]
}

/// The sorts of a description that is accepted.
fn accepted(counts: &mut Counts, description: &Description) {
    let trees = || description.fields.iter().flat_map(Field::trees);
    for op in [Op::Div, Op::Rem, Op::Pow].into_iter().filter(|op| trees().any(|tree| has(tree, *op))) {
        counts.add(format!("{op:?}"));
    }
    for (side, name) in ["left", "right"].into_iter().enumerate() {
        if trees().any(|tree| chained(tree)[side]) {
            counts.add(format!("Pow within Pow, {name}"));
        }
    }
    let is_constant = |field: &Field<usize>| match &field.width {
        Width::Measured { tree, .. } => {
            matches!(tree.nodes[..], [Node::Number(_), Node::Number(_), Node::Two(Op::Pow, ..)])
        }
        _ => false,
    };
    if description.fields.iter().any(is_constant) {
        counts.add("a power as a width");
    }
}

/// The sorts of a text that is refused by this number at this line.
fn refused(counts: &mut Counts, number: u32, line: &[u8]) {
    if line.iter().filter(|byte| **byte == b'^').count() > 200 {
        counts.add(format!("{number}: over two hundred"));
    }
    let Some(field) = field_line(line) else { return };
    let with = |op: Op| field.trees().filter(move |tree| has(tree, op));
    match number {
        6 if with(Op::Pow).any(|tree| tree.depth() == MOST_DEPTH + 1) => counts.add("6: depth 13"),
        6 if with(Op::Pow).any(|tree| tree.depth() > MOST_DEPTH) => counts.add("6: depth"),
        6 if with(Op::Pow).any(|tree| tree.stored_length() > LONGEST_TREE) => counts.add("6: bytes"),
        9 if [Op::Div, Op::Rem, Op::Pow].into_iter().any(|op| with(op).any(|tree| tree.kind().is_none())) => {
            counts.add("9: an operand of yes or no")
        }
        _ => {}
    }
}

#[test]
fn texts_of_every_sort() {
    let (mut rng, mut counts) = (Rng::new(9), Counts::default());
    for _ in 0..CASES {
        let text = text(&mut rng);
        match write_table(&text, ROOM) {
            Ok(table) => accepted(&mut counts, &good_description(&table).unwrap()),
            Err(Refusal { number, place }) => {
                let mut lines = text.split(|byte| *byte == b'\n');
                let line = lines.nth(place.saturating_sub(1) as usize).unwrap_or_default();
                refused(&mut counts, number, line);
            }
        }
    }
    counts.has_all([
        "Div",
        "Rem",
        "Pow",
        "Pow within Pow, left",
        "Pow within Pow, right",
        "a power as a width",
    ]);
    counts.has_all(["5: over two hundred", "6: over two hundred", "6: depth 13", "6: depth", "6: bytes"]);
    counts.has_all(["9: an operand of yes or no"]);
}

#[test]
fn tables_of_every_sort() {
    let (mut rng, mut counts) = (Rng::new(10), Counts::default());
    for _ in 0..2 * CASES {
        let table = table(&mut rng);
        if let Ok(description) = good_description(&table) {
            accepted(&mut counts, &description);
            continue;
        }
        let is_made_good = |at: usize| {
            let mut other = table.clone();
            other[at] = code(Op::Pow);
            check_table(&other).is_ok()
        };
        let unknown = code(Op::Pow) + 1;
        if (0..table.len()).any(|at| table[at] == unknown && is_made_good(at)) {
            counts.add("an unknown code");
        }
    }
    counts.has_all([
        "Div",
        "Rem",
        "Pow",
        "Pow within Pow, left",
        "Pow within Pow, right",
        "a power as a width",
    ]);
    counts.has_all(["an unknown code"]);
}

/// The sorts of the steps of a tree, where the answer of its field is this number or 0.
fn stepped(counts: &mut Counts, tree: &Tree<usize>, values: &[Option<u32>], number: u32) {
    let of = |node: usize| value(&Tree { nodes: tree.nodes[..=node].to_vec() }, values);
    for node in &tree.nodes {
        let Node::Two(op @ (Op::Div | Op::Rem | Op::Pow), left, right) = *node else { continue };
        match (number, op, of(left), of(right)) {
            (29, Op::Div | Op::Rem, Ok(_), Ok(0)) => counts.add(format!("29 by {op:?}")),
            (27, Op::Div | Op::Rem, Err(27), Ok(0)) => counts.add("27 before 29"),
            (27, Op::Pow, Ok(_), Ok(right)) if right < 40 => counts.add("27 by Pow"),
            (27, Op::Pow, Ok(2..), Ok(40..)) => counts.add("27 by a far Pow"),
            (0, Op::Pow, Ok(0), Ok(0)) => counts.add("0^0"),
            (0, Op::Pow, Ok(0 | 1), Ok(40..)) => counts.add("0 or 1 to a far power"),
            (0, Op::Pow, Ok(2..), Ok(2..)) => counts.add("Pow"),
            (0, Op::Div | Op::Rem, Ok(2..), Ok(2..)) => counts.add(format!("{op:?}")),
            _ => {}
        }
    }
}

#[test]
fn packets_of_every_sort() {
    let (mut rng, mut counts) = (Rng::new(11), Counts::default());
    for _ in 0..CASES {
        let table = table(&mut rng);
        let packet = packet(&mut rng, &table);
        let Ok(description) = good_description(&table) else { continue };
        let (before, answer) = read_partly(&table, &packet, usize::MAX);
        let number = answer.err().map_or(0, |refusal| refusal.number);
        let present = |(field, numbers): (&Field<usize>, &[u32; 4])| {
            field.fixed_bits().filter(|_| numbers[0] == 1).map(|_| numbers[3])
        };
        let values: Vec<Option<u32>> = description.fields.iter().zip(&before).map(present).collect();
        let read = &description.fields[..before.len()];
        read.iter().flat_map(Field::trees).for_each(|tree| stepped(&mut counts, tree, &values, 0));
        if let Some(field) = description.fields.get(before.len()) {
            field.trees().for_each(|tree| stepped(&mut counts, tree, &values, number));
            for (part, tree) in [("condition", &field.condition), ("constraint", &field.constraint)] {
                if tree.is_some() && number == 29 {
                    counts.add(format!("29 beside a {part}"));
                }
            }
        }
    }
    counts.has_all(["29 by Div", "29 by Rem", "27 before 29", "27 by Pow", "27 by a far Pow"]);
    counts.has_all(["0^0", "0 or 1 to a far power", "Pow", "Div", "Rem"]);
    counts.has_all(["29 beside a condition", "29 beside a constraint"]);
}
