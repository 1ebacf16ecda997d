//! Compares the library with the model and prints how many comparisons there were. UMAREKOZA_CASES is the number
//! of generated cases, UMAREKOZA_SEED their seed.

use std::process::ExitCode;
use umarekoza_compare::exports::LIBRARY;
use umarekoza_compare::runs::{run, Outcome, Settings};

fn main() -> ExitCode {
    match Settings::from_environment().and_then(compared) {
        Ok(()) => ExitCode::SUCCESS,
        Err(wrong) => {
            eprintln!("{wrong}");
            ExitCode::FAILURE
        }
    }
}

fn compared(settings: Settings) -> Result<(), String> {
    println!("{} cases from seed {}", settings.cases, settings.seed);
    let Outcome { stored, generated } = run(settings, LIBRARY)?;
    for (sort, tally) in [("stored", stored), ("generated", generated)] {
        println!(
            "{} comparisons of {} {sort} cases agree; refusal numbers: {:?}",
            tally.comparisons, tally.cases, tally.numbers
        );
    }
    Ok(())
}
