//! Random trees within the limits, and trees of a given depth or number of leaves.

use super::Rng;
use crate::operators::{apply, Op};
use crate::trees::{Kind, Node, Tree};

const ARITHMETIC: [Op; 6] = [Op::Add, Op::Sub, Op::Mul, Op::Div, Op::Rem, Op::Pow];
const COMPARISONS: [Op; 6] = [Op::Eq, Op::Ne, Op::Lt, Op::Le, Op::Gt, Op::Ge];
const JOINS: [Op; 2] = [Op::And, Op::Or];
const LEAF: usize = 5;
const COMPARED: usize = 2 * LEAF + 1;

/// Grows trees that read the fields `readable`, each an index and its bits.
pub struct Growth<'a> {
    pub readable: &'a [(usize, u32)],
    pub nodes: Vec<Node<usize>>,
}

impl<'a> Growth<'a> {
    pub fn new(readable: &'a [(usize, u32)]) -> Self {
        Growth { readable, nodes: Vec::new() }
    }

    /// A width that is not a single number and seldom a large one.
    pub fn tame_width(mut self, rng: &mut Rng) -> Tree<usize> {
        let left = match self.readable {
            [] => self.push(Node::Number(rng.below(5) as u32)),
            readable => self.push(Node::Name(readable[rng.below(readable.len())].0)),
        };
        if self.readable.is_empty() || rng.one_in(2) {
            let right = self.push(Node::Number(rng.between(1, 4) as u32));
            let op = rng.pick([Op::Add, Op::Add, Op::Mul, Op::Mul, Op::Div, Op::Rem, Op::Pow, Op::Pow]);
            let is_swapped = match op {
                Op::Pow => !rng.one_in(4),
                _ => rng.one_in(3),
            };
            let (left, right) = if is_swapped { (right, left) } else { (left, right) };
            self.push(Node::Two(op, left, right));
        }
        Tree { nodes: self.nodes }
    }

    /// A constraint or condition that many packets keep.
    pub fn tame_truth(mut self, rng: &mut Rng) -> Tree<usize> {
        const TAME: [Op; 4] = [Op::Eq, Op::Ne, Op::Le, Op::Ge];
        let left = self.simple(rng, TAME);
        match rng.below(6) {
            0 => {
                let right = self.simple(rng, TAME);
                self.push(Node::Two(rng.pick(JOINS), left, right))
            }
            1 => self.push(Node::Not(left)),
            2 => {
                let right = self.quotient(rng, TAME);
                self.push(Node::Two(rng.pick(JOINS), left, right))
            }
            _ => left,
        };
        Tree { nodes: self.nodes }
    }

    /// A width that is not a single number.
    pub fn width(mut self, rng: &mut Rng) -> Tree<usize> {
        match rng.below(14) {
            0 => return self.balanced(rng, Kind::Number, 20),
            1 if rng.one_in(3) => return self.chain_of_powers(rng, Kind::Number, 12),
            1 => return self.chain(rng, Kind::Number, 12),
            12 | 13 => {
                self.edge(rng);
            }
            2 => {
                let depth = rng.between(3, 12);
                self.arithmetic(rng, depth, 120);
            }
            3..=6 => {
                self.arithmetic(rng, 2, COMPARED);
            }
            _ => match self.readable {
                [] => {
                    self.arithmetic(rng, 2, COMPARED);
                }
                readable => self.nodes.push(Node::Name(readable[rng.below(readable.len())].0)),
            },
        }
        Tree { nodes: self.nodes }
    }

    /// A constraint or condition.
    pub fn truth(mut self, rng: &mut Rng) -> Tree<usize> {
        match rng.below(16) {
            0 => return self.balanced(rng, Kind::Truth, 20),
            1 if rng.one_in(3) => return self.chain_of_powers(rng, Kind::Truth, 12),
            1 => return self.chain(rng, Kind::Truth, 12),
            12..=15 => {
                self.compared_edge(rng);
            }
            2 | 3 => {
                let depth = rng.between(3, 12);
                self.yes_or_no(rng, depth, 120);
            }
            4 => {
                self.yes_or_no(rng, 4, 40);
            }
            _ => {
                self.simple(rng, COMPARISONS);
            }
        }
        Tree { nodes: self.nodes }
    }

    /// A tree of exactly `depth`, which is at least 3, one operand of each operator a leaf.
    pub fn chain(mut self, rng: &mut Rng, kind: Kind, depth: usize) -> Tree<usize> {
        let mut spine = self.leaf(rng);
        let compared = if kind == Kind::Number { depth + 1 } else { rng.between(2, depth) };
        for level in 2..=depth {
            spine = if level > compared {
                self.push(Node::Not(spine))
            } else {
                let leaf = self.leaf(rng);
                let op = if level == compared { rng.pick(COMPARISONS) } else { rng.pick(ARITHMETIC) };
                let (left, right) = if rng.one_in(3) { (leaf, spine) } else { (spine, leaf) };
                self.push(Node::Two(op, left, right))
            };
        }
        Tree { nodes: self.nodes }
    }

    /// A tree of `leaves` numbers, at least 2; yes or no with a `!` on top, so that 20 leaves store to 120 bytes.
    pub fn balanced(mut self, rng: &mut Rng, kind: Kind, leaves: usize) -> Tree<usize> {
        let left = self.sum(rng, leaves / 2);
        let right = self.sum(rng, leaves - leaves / 2);
        match kind {
            Kind::Number => self.push(Node::Two(rng.pick(ARITHMETIC), left, right)),
            Kind::Truth => {
                let compared = self.push(Node::Two(rng.pick(COMPARISONS), left, right));
                self.push(Node::Not(compared))
            }
        };
        Tree { nodes: self.nodes }
    }

    /// A comparison of two sums of as many of these fields as can be stored, which holds of equal values.
    pub fn names(mut self, rng: &mut Rng, fields: &[usize]) -> Tree<usize> {
        let (left, right) = (self.sum_of(rng, fields, 20), self.sum_of(rng, fields, 20));
        self.push(Node::Two(rng.pick([Op::Eq, Op::Le, Op::Ge]), left, right));
        Tree { nodes: self.nodes }
    }

    fn sum_of(&mut self, rng: &mut Rng, fields: &[usize], leaves: usize) -> usize {
        if leaves <= 1 {
            return self.push(Node::Name(fields[rng.below(fields.len())]));
        }
        let left = self.sum_of(rng, fields, leaves / 2);
        let right = self.sum_of(rng, fields, leaves - leaves / 2);
        self.push(Node::Two(Op::Add, left, right))
    }

    /// A number as long as one can be stored: ten products of two numbers, 119 bytes. It is small.
    pub fn longest_number(mut self, rng: &mut Rng) -> Tree<usize> {
        self.products(rng, 10);
        Tree { nodes: self.nodes }
    }

    /// A yes or no of 120 bytes that is `yes`: not the comparison of five products with five.
    pub fn longest_truth(mut self, rng: &mut Rng, yes: bool) -> Tree<usize> {
        let (left, less) = self.products(rng, 5);
        let (right, more) = self.products(rng, 5);
        let holding = |op: &Op| apply(*op, less, more) == Ok(u32::from(!yes));
        let ops: Vec<Op> = COMPARISONS.into_iter().filter(holding).collect();
        let compared = self.push(Node::Two(ops[rng.below(ops.len())], left, right));
        self.push(Node::Not(compared));
        Tree { nodes: self.nodes }
    }

    /// The sum of `count` products of numbers below 3, and its value.
    fn products(&mut self, rng: &mut Rng, count: usize) -> (usize, u32) {
        let (mut total, mut value) = (0, 0);
        for place in 0..count {
            let (left, right) = (rng.pick([0, 0, 0, 1]), rng.below(3) as u32);
            let (left_at, right_at) = (self.push(Node::Number(left)), self.push(Node::Number(right)));
            let product = self.push(Node::Two(Op::Mul, left_at, right_at));
            total = if place == 0 { product } else { self.push(Node::Two(Op::Add, total, product)) };
            value += left * right;
        }
        (total, value)
    }

    fn sum(&mut self, rng: &mut Rng, leaves: usize) -> usize {
        if leaves <= 1 {
            return self.push(Node::Number(number(rng)));
        }
        let left = self.sum(rng, leaves / 2);
        let right = self.sum(rng, leaves - leaves / 2);
        let op = if rng.one_in(3) { rng.pick(ARITHMETIC) } else { Op::Add };
        self.push(Node::Two(op, left, right))
    }

    pub fn push(&mut self, node: Node<usize>) -> usize {
        self.nodes.push(node);
        self.nodes.len() - 1
    }

    fn leaf(&mut self, rng: &mut Rng) -> usize {
        let node = match self.readable {
            readable if !readable.is_empty() && rng.one_in(2) => {
                Node::Name(readable[rng.below(readable.len())].0)
            }
            _ => Node::Number(number(rng)),
        };
        self.push(node)
    }

    /// A field, most often the last one, compared with a number that it can hold.
    fn simple<const N: usize>(&mut self, rng: &mut Rng, comparisons: [Op; N]) -> usize {
        let Some(&last) = self.readable.last() else {
            return self.yes_or_no(rng, 2, COMPARED);
        };
        let (index, bits) = if rng.one_in(3) { self.readable[rng.below(self.readable.len())] } else { last };
        let greatest = (1u64 << bits) - 1;
        let number = if rng.one_in(2) { rng.bits() % 4 } else { rng.bits() }.min(greatest);
        let left = self.push(Node::Name(index));
        let right = self.push(Node::Number(number as u32));
        self.push(Node::Two(rng.pick(comparisons), left, right))
    }

    /// Such a comparison of a quotient or a remainder, most often by a small number.
    fn quotient<const N: usize>(&mut self, rng: &mut Rng, comparisons: [Op; N]) -> usize {
        let divided = self.leaf(rng);
        let divisor = match rng.below(4) {
            0 => self.leaf(rng),
            _ => self.push(Node::Number(rng.between(1, 4) as u32)),
        };
        let left = self.push(Node::Two(rng.pick([Op::Div, Op::Rem]), divided, divisor));
        let right = self.push(Node::Number(rng.below(4) as u32));
        self.push(Node::Two(rng.pick(comparisons), left, right))
    }

    /// A number at an edge of `/`, `%` or `^` compared with another, at times behind a comparison that may decide.
    fn compared_edge(&mut self, rng: &mut Rng) -> usize {
        let first = rng.one_in(3).then(|| self.simple(rng, COMPARISONS));
        let left = self.edge(rng);
        let right = self.push(Node::Number(rng.pick([0, 1, 1, 2, 3, 5])));
        let compared = self.push(Node::Two(rng.pick(COMPARISONS), left, right));
        match first {
            Some(first) => self.push(Node::Two(rng.pick(JOINS), first, compared)),
            None => compared,
        }
    }

    /// An operator of arithmetic within `depth` and `bytes`, which allow one.
    fn arithmetic(&mut self, rng: &mut Rng, depth: usize, bytes: usize) -> usize {
        let share = rng.between(LEAF, bytes - 1 - LEAF);
        let left = self.number_tree(rng, depth - 1, share);
        let right = self.number_tree(rng, depth - 1, bytes - 1 - share);
        self.push(Node::Two(rng.pick(ARITHMETIC), left, right))
    }

    fn number_tree(&mut self, rng: &mut Rng, depth: usize, bytes: usize) -> usize {
        if depth < 2 || bytes < COMPARED || rng.one_in(4) {
            return self.leaf(rng);
        }
        self.arithmetic(rng, depth, bytes)
    }

    /// A tree that gives yes or no within `depth`, at least 2, and `bytes`, at least 11.
    fn yes_or_no(&mut self, rng: &mut Rng, depth: usize, bytes: usize) -> usize {
        if depth > 2 && bytes > 2 * COMPARED && rng.one_in(2) {
            let share = rng.between(COMPARED, bytes - 1 - COMPARED);
            let left = self.yes_or_no(rng, depth - 1, share);
            let right = self.yes_or_no(rng, depth - 1, bytes - 1 - share);
            return self.push(Node::Two(rng.pick(JOINS), left, right));
        }
        if depth > 2 && bytes > COMPARED && rng.one_in(4) {
            let operand = self.yes_or_no(rng, depth - 1, bytes - 1);
            return self.push(Node::Not(operand));
        }
        let share = rng.between(LEAF, bytes - 1 - LEAF);
        let left = self.number_tree(rng, depth - 1, share);
        let right = self.number_tree(rng, depth - 1, bytes - 1 - share);
        self.push(Node::Two(rng.pick(COMPARISONS), left, right))
    }
}

/// A number, most often a small one.
fn number(rng: &mut Rng) -> u32 {
    match rng.below(8) {
        0 => rng.bits() as u32,
        1 => rng.pick([u32::MAX, u32::MAX - 1, 1 << 31, 65_535, 65_536, 255, 256]),
        _ => rng.below(10) as u32,
    }
}
