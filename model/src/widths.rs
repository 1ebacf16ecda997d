//! Which widths are fixed [01, Fields] [02, R-7].

use crate::trees::{Node, Tree};

/// The number of a fixed width: its tree is a single number. `2^3` is a measured one.
pub fn fixed_number<N>(tree: &Tree<N>) -> Option<u32> {
    match tree.nodes[..] {
        [Node::Number(number)] => Some(number),
        _ => None,
    }
}
