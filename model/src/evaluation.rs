//! The values of expressions over the fields read so far [01, Expressions]; yes is 1 and no is 0.

use crate::operators::{two_sided, ABSENT_READ};
use crate::trees::{Node, Tree};

/// The value of a tree, or the number of the first fault. `values` holds the numbers of the fixed fields that
/// are present.
pub fn value(tree: &Tree<usize>, values: &[Option<u32>]) -> Result<u32, u32> {
    node_value(&tree.nodes, tree.root(), values)
}

fn node_value(nodes: &[Node<usize>], node: usize, values: &[Option<u32>]) -> Result<u32, u32> {
    let of = |node: usize| node_value(nodes, node, values);
    match nodes[node] {
        Node::Number(number) => Ok(number),
        Node::Name(index) => values.get(index).copied().flatten().ok_or(ABSENT_READ),
        Node::Not(operand) => Ok(1 - of(operand)?.min(1)),
        Node::Two(op, left, right) => two_sided(op, || of(left), || of(right)),
    }
}
