//! References of fields where others are cut out or put in [02, R-4].

use crate::descriptions::Field;
use crate::trees::Node;
use std::ops::Range;

/// The first field outside a run that reads one in it, evaluated or not.
pub fn first_reader(fields: &[Field<usize>], run: &Range<usize>) -> Option<usize> {
    let in_run = |node: &Node<usize>| matches!(node, Node::Name(read) if run.contains(read));
    let reads = |field: &Field<usize>| field.trees().flat_map(|tree| &tree.nodes).any(in_run);
    (0..fields.len()).find(|index| !run.contains(index) && reads(&fields[*index]))
}

/// What becomes of a reference to this index where a run is cut out.
pub fn closed(run: &Range<usize>, index: usize) -> usize {
    if index < run.start {
        index
    } else {
        index - run.len()
    }
}

/// What becomes of a reference to this index where a run is put in.
pub fn opened(run: &Range<usize>, index: usize) -> usize {
    if index < run.start {
        index
    } else {
        index + run.len()
    }
}

/// Gives every reference of a field the index that its own becomes.
pub fn renumber(field: &mut Field<usize>, becomes: impl Fn(usize) -> usize) {
    for node in field.trees_mut().flat_map(|tree| &mut tree.nodes) {
        if let Node::Name(index) = node {
            *index = becomes(*index);
        }
    }
}
