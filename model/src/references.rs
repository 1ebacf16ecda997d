//! How often each field is read [02, R-5].

use crate::descriptions::Field;
use crate::trees::Node;

/// For each field the references to it in the expressions of other fields, every one counted.
pub fn readers(fields: &[Field<usize>]) -> Vec<usize> {
    let mut counts = vec![0; fields.len()];
    for (reader, field) in fields.iter().enumerate() {
        for node in field.trees().flat_map(|tree| &tree.nodes) {
            match *node {
                Node::Name(read) if read != reader && read < counts.len() => counts[read] += 1,
                _ => {}
            }
        }
    }
    counts
}

/// Whether these are the numbers that the records of these fields are to hold.
pub fn are_right(numbers: &[usize], fields: &[Field<usize>]) -> bool {
    numbers == readers(fields)
}
