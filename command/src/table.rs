//! The verb `table`.

use crate::inputs::Input;
use crate::replace::replace;
use crate::sources::{Sort, Source, SourceName};
use crate::{explain, outputs, Failure, Status};
use std::fs::{self, Metadata};
use std::io::{self, IsTerminal};
use std::os::unix::fs::MetadataExt;
use std::path::Path;
use umarekoza::Refusal;

pub fn run(page: &Input, table: Option<&Path>) -> Result<Status, Failure> {
    let source = SourceName { input: page.clone(), sort: Sort::Page }.read()?;
    not_to_its_page(&source, table)?;
    not_to_a_terminal(table)?;
    deliver(source.table(), table, |refusal| explain::source(&source, refusal))
}

/// Fails where a table would take the place of a page that it is made of.
pub fn not_to_its_page(source: &Source, table: Option<&Path>) -> Result<(), Failure> {
    if source.is_page() && table.is_some_and(|table| is_same(&source.input, table)) {
        let page = &source.input;
        let message = format!("{page}: the table would take the place of its page; choose another name");
        return Err(Failure::Said(message));
    }
    Ok(())
}

/// Fails where a table would go to standard output and that is a terminal.
pub fn not_to_a_terminal(table: Option<&Path>) -> Result<(), Failure> {
    if table.is_none() && io::stdout().is_terminal() {
        let message = "a table is not written to a terminal: `-o FILE` writes a file";
        return Err(Failure::Said(message.to_string()));
    }
    Ok(())
}

/// Writes a table to its file or to standard output; or tells its refusal, and explains it.
pub fn deliver(
    written: Result<Vec<u8>, Refusal>,
    table: Option<&Path>,
    explain: impl FnOnce(Refusal),
) -> Result<Status, Failure> {
    match (written, table) {
        (Ok(bytes), Some(table)) => replace(table, &bytes).map(|()| Status::Accepted),
        (Ok(bytes), None) => outputs::print(&bytes),
        (Err(refusal), table) => {
            if table.is_some() {
                outputs::print_line(&refusal.to_string())?;
            } else {
                outputs::complain(&refusal.to_string());
            }
            explain(refusal);
            Ok(Status::Refused)
        }
    }
}

fn is_same(page: &Input, table: &Path) -> bool {
    let file = |metadata: Metadata| (metadata.dev(), metadata.ino());
    let page = page.path().and_then(|path| fs::metadata(path).ok()).map(file);
    page.is_some_and(|page| fs::metadata(table).is_ok_and(|table| file(table) == page))
}
