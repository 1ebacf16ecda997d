//! The verb `explain`.

use crate::{outputs, Failure, Status};
use umarekoza::{meanings, Meaning, Refusal};

/// Prints what these numbers mean, or all where none is given.
pub fn run(numbers: &[u32]) -> Result<Status, Failure> {
    let known: Vec<&Meaning> = if numbers.is_empty() {
        meanings().iter().collect()
    } else {
        numbers.iter().map(|number| meaning(*number)).collect::<Result<_, _>>()?
    };
    for Meaning { number, what, mend } in known {
        outputs::print_line(&format!("{number}: {what}\n  to mend it: {mend}"))?;
    }
    Ok(Status::Accepted)
}

fn meaning(number: u32) -> Result<&'static Meaning, Failure> {
    Refusal { number, place: 0 }.meaning().ok_or_else(|| {
        let numbers: Vec<String> = meanings().iter().map(|meaning| meaning.number.to_string()).collect();
        Failure::Said(format!("no refusal has the number {number}; the numbers are {}", numbers.join(", ")))
    })
}
