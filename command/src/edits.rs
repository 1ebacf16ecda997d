//! What `cut` and `put` share: where a changed table goes, or what is told of it and of its refusal.

use crate::changes::Changes;
use crate::draw::{draw, Told};
use crate::inputs::Input;
use crate::requests::Delivery;
use crate::sources::Source;
use crate::table::{deliver, not_to_a_terminal, not_to_its_page};
use crate::{explain, json, outputs, Failure, Status};
use umarekoza::Refusal;

impl Delivery {
    /// Fails where the table would take the place of a page that it is made of, or go to a terminal.
    pub fn may_be(&self, sources: &[&Source]) -> Result<(), Failure> {
        let Delivery::Written(table) = self else { return Ok(()) };
        sources.iter().try_for_each(|source| not_to_its_page(source, table.as_deref()))?;
        not_to_a_terminal(table.as_deref())
    }

    /// Writes the table that there is then, or tells what changes.
    pub fn accept(&self, input: &Input, changes: &Changes) -> Result<Status, Failure> {
        match self {
            Delivery::Written(table) => deliver(Ok(changes.after.to_vec()), table.as_deref(), |_| {}),
            Delivery::Told { json: false } => outputs::print(changes.lines().as_bytes()),
            Delivery::Told { json: true } => {
                outputs::print_line(&changes.object(&input.name().to_string_lossy()).to_string())
            }
        }
    }

    /// Tells the refusal of a page or a table.
    pub fn refuse_source(&self, source: &Source, refusal: Refusal) -> Result<Status, Failure> {
        match self {
            Delivery::Told { json: true } => {
                outputs::print_line(&json::source(source, &Err(refusal)).to_string())?;
                Ok(Status::Refused)
            }
            _ => self.refuse_with(refusal, || explain::source(source, refusal)),
        }
    }

    /// Tells the refusal of a change, at a field if it is at one, and why.
    pub fn refuse(
        &self,
        input: &Input,
        (refusal, field): (Refusal, Option<&str>),
        told: &Told,
    ) -> Result<Status, Failure> {
        match self {
            Delivery::Told { json: true } => {
                let object = json::edit(&input.name().to_string_lossy(), refusal, field, told);
                outputs::print_line(&object.to_string())?;
                Ok(Status::Refused)
            }
            _ => self.refuse_with(refusal, || draw(told)),
        }
    }

    fn refuse_with(&self, refusal: Refusal, explain: impl FnOnce()) -> Result<Status, Failure> {
        let to_standard_output = matches!(self, Delivery::Written(None));
        let line = refusal.to_string();
        if to_standard_output {
            outputs::complain(&line);
        } else {
            outputs::print_line(&line)?;
        }
        explain();
        Ok(Status::Refused)
    }
}
