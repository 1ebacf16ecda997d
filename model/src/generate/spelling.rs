//! Random texts of a description, with all freedom of [01, Spelling], and with oddities that 01 forbids.

use super::drawing::{row, Drawn, Room};
use super::Rng;
use crate::descriptions::{Description, Field, Width};
use crate::field_lines::{PRESENT, VARIABLE};
use crate::frames::{border, tens_ruler, units_ruler, FORMATTED, WHERE};
use crate::naming::read_names;
use crate::operators::{groups, level, ATOM};
use crate::trees::{Node, Tree};

const MOST_OPEN: usize = 12;
const UNKNOWN: &[u8] = b"Q9q";

/// How a text is spelled.
#[derive(Clone, Copy)]
pub struct Manner {
    /// As shortly as can be.
    plain: bool,
    /// The most lines of a bit row.
    row_lines: usize,
    /// What may be wrong.
    parentheses: bool,
    numbers: bool,
    widths: bool,
    spaces: bool,
}

impl Manner {
    /// Nothing is wrong, and each row has one line.
    const RIGHT: Manner = Manner {
        plain: false,
        row_lines: 1,
        parentheses: false,
        numbers: false,
        widths: false,
        spaces: false,
    };
    pub const PLAIN: Manner = Manner { plain: true, ..Manner::RIGHT };

    /// Bit rows have up to so many lines.
    pub fn of_rows(row_lines: usize) -> Self {
        Manner { row_lines, ..Manner::RIGHT }
    }

    /// One thing may be wrong.
    pub fn wrong(rng: &mut Rng, row_lines: usize) -> Self {
        let kind = rng.below(4);
        let plain = false;
        Manner {
            plain,
            row_lines,
            parentheses: kind == 0,
            numbers: kind == 1,
            widths: kind == 2,
            spaces: kind == 3,
        }
    }
}

/// A text with the cells of `drawn` and the lines of `told`, which are the same description in a right text.
pub fn spell(rng: &mut Rng, drawn: &Description, told: &Description, manner: Manner) -> Vec<u8> {
    let mut speller = Speller { rng, fields: &told.fields, manner, text: Vec::new() };
    speller.frame(drawn);
    for field in &told.fields {
        speller.field_line(field);
    }
    speller.text
}

struct Speller<'a> {
    rng: &'a mut Rng,
    fields: &'a [Field<'a, usize>],
    manner: Manner,
    text: Vec<u8>,
}

impl Speller<'_> {
    fn put(&mut self, bytes: &[u8]) {
        self.text.extend_from_slice(bytes);
    }

    fn frame(&mut self, drawn: &Description) {
        let article = self.rng.pick(["A ", "An "]);
        self.put(article.as_bytes());
        self.put(drawn.name);
        self.put(FORMATTED);
        self.put(b"\n\n");
        let border = border(drawn.row_bits);
        for line in [&tens_ruler(drawn.row_bits), &units_ruler(drawn.row_bits), &border] {
            self.put(line);
            self.put(b"\n");
        }
        self.rows(drawn, &border);
        self.put(b"\n");
        self.put(WHERE);
        self.put(b"\n\n");
    }

    fn rows(&mut self, drawn: &Description, border: &[u8]) {
        let (mut filled, mut cells) = (0, Vec::new());
        for (place, field) in drawn.fields.iter().enumerate() {
            let bits = field.fixed_bits().unwrap_or(drawn.row_bits);
            let bar = if field.fixed_bits().is_some() { b'|' } else { b':' };
            let columns = (2 * bits as usize).saturating_sub(1);
            cells.push(Drawn { name: self.shown(field, columns), columns, bar });
            filled += bits;
            let is_full = filled >= drawn.row_bits;
            if is_full || place + 1 == drawn.fields.len() {
                let lines = row(self.rng, &cells, self.manner.row_lines).join(&b'\n');
                self.put(&lines);
                cells.clear();
            }
            if is_full {
                filled = 0;
                self.put(b"\n");
                self.put(border);
                self.put(b"\n");
            }
        }
    }

    /// The label or short name, as there is room for it in so many columns; a part of one where there is none.
    fn shown<'f>(&mut self, field: &Field<'f, usize>, columns: usize) -> &'f [u8] {
        let is_fixed = field.fixed_bits().is_some();
        let room = Room { columns, lines: if is_fixed { self.manner.row_lines } else { 1 } };
        let other = field.short.unwrap_or(field.label);
        let (first, second) = if self.rng.one_in(2) { (field.label, other) } else { (other, field.label) };
        match [first, second].into_iter().find(|name| room.shows(name)) {
            Some(name) => name,
            None => &second[..second.len().min(columns)],
        }
    }

    fn field_line(&mut self, field: &Field<usize>) {
        self.put(field.label);
        if let Some(short) = field.short {
            self.put(b" (");
            self.put(short);
            self.put(b")");
        }
        self.put(b": ");
        self.width(field);
        if let Some(constraint) = &field.constraint {
            self.put(b"; ");
            self.expression(constraint);
        }
        if let Some(condition) = &field.condition {
            self.put(PRESENT);
            self.expression(condition);
        }
        self.put(b".");
        self.remark();
        self.put(b"\n");
    }

    fn remark(&mut self) {
        if self.manner.plain {
            return;
        }
        match self.rng.below(4) {
            0 => self.put(b" "),
            1 => {
                let length = self.rng.between(1, 30);
                let remark: Vec<u8> = (0..length).map(|_| self.rng.between(0x20, 0x7E) as u8).collect();
                self.put(b" ");
                self.put(&remark);
            }
            _ => {}
        }
    }

    fn width(&mut self, field: &Field<usize>) {
        match &field.width {
            Width::Rest => self.put(VARIABLE),
            Width::Measured { unit, tree } => {
                self.expression(tree);
                self.unit(*unit);
            }
            Width::Fixed(bits) => {
                let odd = self.manner.widths && self.rng.one_in(3);
                let bits = if odd { self.rng.pick([0, 33, 40, 264, 4_294_967_288]) } else { *bits };
                let unit = if bits % 8 == 0 && self.rng.one_in(2) { 8 } else { 1 };
                self.expression(&Tree { nodes: vec![Node::Number(bits / unit)] });
                self.unit(unit);
            }
        }
    }

    fn unit(&mut self, unit: u32) {
        let words = if unit == 8 { [" byte", " bytes"] } else { [" bit", " bits"] };
        let word = self.rng.pick(words);
        self.put(word.as_bytes());
    }

    fn expression(&mut self, tree: &Tree<usize>) {
        let needs = needs(tree);
        let need = needs[tree.root()];
        if self.manner.parentheses && self.rng.one_in(2) {
            let open = (MOST_OPEN + 1).saturating_sub(need);
            self.wrapped(tree, &needs, tree.root(), 0, open);
        } else {
            self.operand(tree, &needs, tree.root(), 0, false);
        }
    }

    /// A subtree, in parentheses if it has to be, and at times in further ones.
    fn operand(&mut self, tree: &Tree<usize>, needs: &[usize], node: usize, open: usize, wrap: bool) {
        let mut pairs = usize::from(wrap);
        let most = if self.manner.plain { 0 } else { MOST_OPEN.saturating_sub(open + needs[node]) };
        if self.rng.one_in(60) {
            pairs = pairs.max(most);
        }
        while pairs < most && self.rng.one_in(8) {
            pairs += 1;
        }
        self.wrapped(tree, needs, node, open, pairs);
    }

    fn wrapped(&mut self, tree: &Tree<usize>, needs: &[usize], node: usize, open: usize, pairs: usize) {
        self.put(&b"(".repeat(pairs));
        self.node(tree, needs, node, open + pairs);
        self.put(&b")".repeat(pairs));
    }

    fn node(&mut self, tree: &Tree<usize>, needs: &[usize], node: usize, open: usize) {
        match tree.nodes[node] {
            Node::Number(number) => self.number(number),
            Node::Name(index) => self.name(index),
            Node::Not(operand) => {
                self.put(b"!(");
                self.operand(tree, needs, operand, open + 1, false);
                self.put(b")");
            }
            Node::Two(op, left, right) => {
                let (wrap_left, wrap_right) = wraps(tree, node);
                self.operand(tree, needs, left, open, wrap_left);
                self.space();
                self.put(op.sign());
                self.space();
                self.operand(tree, needs, right, open, wrap_right);
            }
        }
    }

    /// A name by which a field may be read; where there is none, what is no such name.
    fn name(&mut self, index: usize) {
        let Some(field) = self.fields.get(index) else { return self.put(UNKNOWN) };
        let names: Vec<&[u8]> = read_names(field).collect();
        let name = match names[..] {
            [] => self.rng.pick([field.label, UNKNOWN]),
            _ => names[self.rng.below(names.len())],
        };
        self.put(name);
    }

    fn number(&mut self, number: u32) {
        let written = if self.manner.numbers && self.rng.one_in(4) {
            match self.rng.below(3) {
                0 => format!("0{number}"),
                1 => (1u64 << 32).to_string(),
                _ => format!("{number}0000000000"),
            }
        } else {
            number.to_string()
        };
        self.put(written.as_bytes());
    }

    fn space(&mut self) {
        if self.manner.plain {
            return;
        }
        if self.rng.one_in(2) {
            self.put(b" ");
        }
        if self.manner.spaces && self.rng.one_in(4) {
            self.put(b"  ");
        }
    }
}

fn level_of(tree: &Tree<usize>, node: usize) -> u8 {
    match tree.nodes[node] {
        Node::Two(op, _, _) => level(op),
        _ => ATOM,
    }
}

/// Whether the left and the right operand of an operator have to stand in parentheses.
fn wraps(tree: &Tree<usize>, node: usize) -> (bool, bool) {
    let Node::Two(op, left, right) = tree.nodes[node] else { return (false, false) };
    let (left, own, right) = (level_of(tree, left), level(op), level_of(tree, right));
    let (to_left, to_right) = groups(own);
    (left < own || (left == own && !to_left), right < own || (right == own && !to_right))
}

/// For each node, how many parentheses its subtree has open at once at the least.
fn needs(tree: &Tree<usize>) -> Vec<usize> {
    let mut needs: Vec<usize> = Vec::with_capacity(tree.nodes.len());
    for (index, node) in tree.nodes.iter().enumerate() {
        needs.push(match *node {
            Node::Number(_) | Node::Name(_) => 0,
            Node::Not(operand) => 1 + needs[operand],
            Node::Two(_, left, right) => {
                let (wrap_left, wrap_right) = wraps(tree, index);
                (needs[left] + usize::from(wrap_left)).max(needs[right] + usize::from(wrap_right))
            }
        });
    }
    needs
}
