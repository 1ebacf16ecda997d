//! Cells against field lines, in order [01, Fields]. What disagrees is a 7.

use crate::descriptions::Field;
use crate::rows::Cell;

/// The cell shows the label or short name and has the width; a long row has a field that is not fixed.
fn agrees<N>(cell: &Cell, field: &Field<N>) -> bool {
    field.is_called(&cell.text) && cell.bits == field.fixed_bits()
}

/// The index of the first line that disagrees with its cell or has none; the number of lines if all agree and
/// cells remain.
pub fn first_mismatch<N>(cells: &[Cell], fields: &[Field<N>]) -> Option<usize> {
    let pairs = cells.iter().zip(fields);
    let paired = cells.len().min(fields.len());
    let unpaired = (cells.len() != fields.len()).then_some(paired);
    pairs.into_iter().position(|(cell, field)| !agrees(cell, field)).or(unpaired)
}
