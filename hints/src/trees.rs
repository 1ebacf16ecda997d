//! Expressions as trees, with the part of the line that each operand is.

use crate::operators::{Operator, Type};
use std::ops::Range;

/// A node; operands are nodes before it.
#[derive(Clone, Debug)]
pub struct Node {
    pub kind: Kind,
    /// With the parentheses round it.
    pub span: Range<usize>,
    pub depth: usize,
}

#[derive(Clone, Debug)]
pub enum Kind {
    Number(u32),
    /// A name, at this part of the line.
    Name(Range<usize>),
    Not(usize),
    Two(Operator, usize, usize),
}

/// A tree; its root is the last node.
#[derive(Clone, Debug)]
pub struct Tree {
    pub nodes: Vec<Node>,
    pub span: Range<usize>,
    /// Where the operands begin, those in parentheses too.
    pub operands: Vec<usize>,
}

impl Tree {
    pub fn depth(&self) -> usize {
        self.nodes.last().map_or(0, |root| root.depth)
    }

    /// The bytes of the stored form.
    pub fn stored(&self) -> usize {
        let bytes = |node: &Node| match node.kind {
            Kind::Number(_) => 5,
            Kind::Name(_) => 2,
            Kind::Not(_) | Kind::Two(..) => 1,
        };
        self.nodes.iter().map(bytes).sum()
    }

    /// The number, if the tree is a single one.
    pub fn single(&self) -> Option<u32> {
        match self.nodes.as_slice() {
            [Node { kind: Kind::Number(number), .. }] => Some(*number),
            _ => None,
        }
    }

    /// What the tree comes to, if it reads no field and no step faults.
    pub fn constant(&self) -> Option<u32> {
        let mut values: Vec<u32> = Vec::new();
        for node in &self.nodes {
            values.push(match &node.kind {
                Kind::Number(number) => *number,
                Kind::Two(operator, left, right) if operator.gives == Type::Number => {
                    operator.applied(values[*left], values[*right]).ok()?
                }
                Kind::Two(..) | Kind::Name(_) | Kind::Not(_) => return None,
            });
        }
        values.last().copied()
    }

    /// The names that the tree reads.
    pub fn names(&self) -> impl Iterator<Item = Range<usize>> + '_ {
        self.nodes.iter().filter_map(|node| match &node.kind {
            Kind::Name(name) => Some(name.clone()),
            _ => None,
        })
    }

    /// The symbols of its two-sided operators.
    pub fn symbols(&self) -> impl Iterator<Item = &'static str> + '_ {
        self.nodes.iter().filter_map(|node| match &node.kind {
            Kind::Two(operator, ..) => Some(operator.symbol),
            _ => None,
        })
    }

    pub fn gives(&self, node: usize) -> Type {
        match &self.nodes[node].kind {
            Kind::Number(_) | Kind::Name(_) => Type::Number,
            Kind::Not(_) => Type::Truth,
            Kind::Two(operator, ..) => operator.gives,
        }
    }
}
