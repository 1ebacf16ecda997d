//! The verb `check`.

use crate::folders::{files, Found};
use crate::inputs::Input;
use crate::progress::Progress;
use crate::sources::{Sort, Source};
use crate::{explain, json, outputs, Failure, Status};

#[derive(Default)]
struct Tally {
    accepted: usize,
    refused: usize,
    failed: usize,
    /// Objects of JSON are printed, and no summary.
    json: bool,
}

pub fn run(inputs: &[Input], deep: bool, sort: Sort, json: bool) -> Result<Status, Failure> {
    let mut tally = Tally { json, ..Tally::default() };
    let found: Vec<Found> = inputs.iter().flat_map(|input| files(input, deep)).collect();
    let progress = Progress::new("files", Some(found.len()));
    for found in found {
        progress.step();
        let read = found.and_then(|input| Source::read(input.clone(), sort).map_err(|why| (input, why)));
        match read {
            Ok(source) => tally.check(&source)?,
            Err((input, why)) => tally.fail(&input, &why)?,
        }
    }
    drop(progress);
    if !json {
        outputs::print_line(&tally.summary())?;
    }
    Ok(tally.status())
}

/// Prints whether a page or table is accepted, and explains why it is not.
pub fn tell(source: &Source, json: bool) -> Result<Status, Failure> {
    let (file, kind, table) = (&source.input, source.kind(), source.table());
    if json {
        outputs::print_line(&json::source(source, &table).to_string())?;
    } else if let Err(refusal) = table {
        outputs::print_line(&format!("{file}: {kind} {refusal}"))?;
        explain::source(source, refusal);
    } else {
        outputs::print_line(&format!("{file}: {kind} accepted"))?;
    }
    Ok(if table.is_ok() { Status::Accepted } else { Status::Refused })
}

impl Tally {
    fn check(&mut self, source: &Source) -> Result<(), Failure> {
        match tell(source, self.json)? {
            Status::Accepted => self.accepted += 1,
            _ => self.refused += 1,
        }
        Ok(())
    }

    fn fail(&mut self, input: &Input, why: &str) -> Result<(), Failure> {
        self.failed += 1;
        if self.json {
            outputs::print_line(&json::failed(&input.name().to_string_lossy(), why).to_string())?;
        }
        outputs::complain(&format!("{input}: {why}"));
        Ok(())
    }

    fn summary(&self) -> String {
        let Tally { accepted, refused, failed, .. } = self;
        let unread = if *failed == 0 { String::new() } else { format!(", {failed} not read") };
        format!("{accepted} accepted, {refused} refused{unread}")
    }

    fn status(&self) -> Status {
        match self {
            Tally { failed: 1.., .. } => Status::Failed,
            Tally { refused: 1.., .. } => Status::Refused,
            _ => Status::Accepted,
        }
    }
}
