//! Trees of expressions [01, Expressions]. A tree is a list of nodes, operands before their operator, the root
//! last, so that depth, stored length and type are one walk over the list.

use crate::operators::{level, Op, AND, COMPARISON, OR};

pub const NUMBER_CODE: u8 = 0x01;
pub const FIELD_CODE: u8 = 0x02;
pub const NOT_CODE: u8 = 0x32;

/// A node; operands are places in the list. `N` is how a field is named: by a name, or by its index.
#[derive(Clone, Copy, Debug, PartialEq, Eq)]
pub enum Node<N> {
    Number(u32),
    Name(N),
    Not(usize),
    Two(Op, usize, usize),
}

#[derive(Clone, Debug, PartialEq, Eq)]
pub struct Tree<N> {
    pub nodes: Vec<Node<N>>,
}

/// What an expression gives.
#[derive(Clone, Copy, Debug, PartialEq, Eq)]
pub enum Kind {
    Number,
    Truth,
}

impl<N: Copy> Tree<N> {
    pub fn root(&self) -> usize {
        self.nodes.len().saturating_sub(1)
    }

    /// 1 for a number or name, else 1 more than the deepest operand.
    pub fn depth(&self) -> u32 {
        let mut depths: Vec<u32> = Vec::with_capacity(self.nodes.len());
        for node in &self.nodes {
            depths.push(match *node {
                Node::Number(_) | Node::Name(_) => 1,
                Node::Not(operand) => 1 + depths[operand],
                Node::Two(_, left, right) => 1 + depths[left].max(depths[right]),
            });
        }
        depths.last().copied().unwrap_or(0)
    }

    /// The length of the stored form in bytes.
    pub fn stored_length(&self) -> usize {
        let length = |node: &Node<N>| match node {
            Node::Number(_) => 5,
            Node::Name(_) => 2,
            Node::Not(_) | Node::Two(..) => 1,
        };
        self.nodes.iter().map(length).sum()
    }

    /// What the tree gives, if every operator has operands of its type.
    pub fn kind(&self) -> Option<Kind> {
        let mut kinds: Vec<Kind> = Vec::with_capacity(self.nodes.len());
        for node in &self.nodes {
            let (takes, gives, operands) = match *node {
                Node::Number(_) | Node::Name(_) => (Kind::Number, Kind::Number, None),
                Node::Not(operand) => (Kind::Truth, Kind::Truth, Some((operand, operand))),
                Node::Two(op, left, right) => match level(op) {
                    OR | AND => (Kind::Truth, Kind::Truth, Some((left, right))),
                    COMPARISON => (Kind::Number, Kind::Truth, Some((left, right))),
                    _ => (Kind::Number, Kind::Number, Some((left, right))),
                },
            };
            if operands.is_some_and(|(left, right)| kinds[left] != takes || kinds[right] != takes) {
                return None;
            }
            kinds.push(gives);
        }
        kinds.last().copied()
    }
}
