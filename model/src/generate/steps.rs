//! Steps of `/`, `%` and `^` where they are easily got wrong.

use super::growth::Growth;
use super::Rng;
use crate::operators::Op;
use crate::trees::{Kind, Node, Tree};

/// Powers at the ends of the range, and far beyond.
const FAR_POWERS: [(u32, u32); 14] = [
    (2, 31),
    (2, 32),
    (3, 20),
    (3, 21),
    (16, 7),
    (16, 8),
    (65_535, 2),
    (65_536, 2),
    (0, u32::MAX),
    (1, u32::MAX),
    (2, u32::MAX),
    (u32::MAX, 0),
    (u32::MAX, 2),
    (u32::MAX, u32::MAX),
];
const QUOTIENTS: [Op; 2] = [Op::Div, Op::Rem];
const PRODUCTS: [Op; 3] = [Op::Mul, Op::Div, Op::Rem];

impl Growth<'_> {
    /// A number of at most depth 4 and 23 bytes, with a quotient, a remainder or a power in it.
    pub fn edge(&mut self, rng: &mut Rng) -> usize {
        match rng.below(10) {
            0 | 1 => {
                let (left, right) = (self.few(rng), self.few(rng));
                self.push(Node::Two(rng.pick(QUOTIENTS), left, right))
            }
            2 => self.below_zero(rng),
            3 | 4 => {
                let (base, exponent) = (self.zero(rng), self.zero(rng));
                self.push(Node::Two(Op::Pow, base, exponent))
            }
            5 => {
                let (base, exponent) = rng.pick(FAR_POWERS);
                let (left, right) = (self.push(Node::Number(base)), self.push(Node::Number(exponent)));
                self.push(Node::Two(Op::Pow, left, right))
            }
            6 | 7 => {
                let length = rng.between(3, 4);
                let to_right = !rng.one_in(3);
                self.powers(rng, length, to_right)
            }
            _ => self.side_by_side(rng),
        }
    }

    /// Powers of so many small numbers, grouped to the right or to the left.
    fn powers(&mut self, rng: &mut Rng, length: usize, to_right: bool) -> usize {
        self.joined(rng, length, |_| (Op::Pow, to_right))
    }

    /// So many small numbers joined one after another, each by an operator of `join`, with the others on its right or
    /// on its left.
    fn joined(&mut self, rng: &mut Rng, length: usize, join: impl Fn(&mut Rng) -> (Op, bool)) -> usize {
        let mut others = self.few(rng);
        for _ in 1..length {
            let (leaf, (op, to_right)) = (self.few(rng), join(rng));
            let (left, right) = if to_right { (leaf, others) } else { (others, leaf) };
            others = self.push(Node::Two(op, left, right));
        }
        others
    }

    /// Powers compared, of exactly `depth`, or such powers as a number.
    pub fn chain_of_powers(mut self, rng: &mut Rng, kind: Kind, depth: usize) -> Tree<usize> {
        let to_right = !rng.one_in(4);
        if kind == Kind::Number {
            self.powers(rng, depth, to_right);
        } else {
            let left = self.powers(rng, depth - 1, to_right);
            let right = self.few(rng);
            self.push(Node::Two(rng.pick([Op::Ge, Op::Ne, Op::Le]), left, right));
        }
        Tree { nodes: self.nodes }
    }

    /// A number below zero, or on the other side of it a zero divisor.
    fn below_zero(&mut self, rng: &mut Rng) -> usize {
        let (less, more) = (self.push(Node::Number(1)), self.push(Node::Number(2)));
        let below = self.push(Node::Two(Op::Sub, less, more));
        let zero = self.zero(rng);
        let (left, right) = if rng.one_in(4) { (zero, below) } else { (below, zero) };
        self.push(Node::Two(rng.pick(QUOTIENTS), left, right))
    }

    /// Operators of the level of `*` and `^` beside each other, in either grouping.
    fn side_by_side(&mut self, rng: &mut Rng) -> usize {
        self.joined(rng, 4, |rng| {
            let op = if rng.one_in(4) { Op::Pow } else { rng.pick(PRODUCTS) };
            (op, rng.one_in(3))
        })
    }

    /// A small number, or a field.
    fn few(&mut self, rng: &mut Rng) -> usize {
        match self.readable {
            readable if !readable.is_empty() && rng.one_in(3) => {
                self.push(Node::Name(readable[rng.below(readable.len())].0))
            }
            _ => self.push(Node::Number(rng.below(6) as u32)),
        }
    }

    /// Zero, or a field that may be zero.
    fn zero(&mut self, rng: &mut Rng) -> usize {
        match self.readable {
            readable if !readable.is_empty() && rng.one_in(2) => {
                self.push(Node::Name(readable[rng.below(readable.len())].0))
            }
            _ => self.push(Node::Number(0)),
        }
    }
}
