//! The verb `convert`.

use crate::inputs::Input;
use crate::sources::{Sort, SourceName};
use crate::table::{deliver, not_to_a_terminal};
use crate::{explain, Failure, Status};
use std::path::Path;

/// Writes the new table of an old one, whose place it may take.
pub fn run(old: &Input, table: Option<&Path>) -> Result<Status, Failure> {
    let source = SourceName { input: old.clone(), sort: Sort::Table }.read()?;
    not_to_a_terminal(table)?;
    let converted = umarekoza::converted(source.start());
    deliver(converted, table, |refusal| explain::conversion(&source, refusal))
}
