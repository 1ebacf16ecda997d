//! A whole run: all stored cases and as many generated ones as are asked for, in a thread with a small stack.

use crate::calls::{Calls, Wrong};
use crate::cases::Case;
use crate::comparisons::compare;
use crate::exports::Exports;
pub use crate::tally::Tally;
use crate::vectors;
use std::env;
use std::thread;
use std::time::{SystemTime, UNIX_EPOCH};
use umarekoza_model::generate::Rng;

const STACK: usize = 256 * 1024;
const CASES: u64 = 100_000;

/// How many cases to generate, and from which seed.
#[derive(Clone, Copy)]
pub struct Settings {
    pub cases: u64,
    pub seed: u64,
}

/// The comparisons of a run: of stored cases and of generated ones.
#[derive(Clone, Debug)]
pub struct Outcome {
    pub stored: Tally,
    pub generated: Tally,
}

impl Settings {
    /// The settings UMAREKOZA_CASES and UMAREKOZA_SEED; else 100,000 cases and a seed from the clock.
    pub fn from_environment() -> Result<Self, String> {
        let clock = SystemTime::now().duration_since(UNIX_EPOCH).map_or(0, |since| since.as_nanos() as u64);
        Ok(Settings { cases: setting("UMAREKOZA_CASES", CASES)?, seed: setting("UMAREKOZA_SEED", clock)? })
    }
}

fn setting(name: &str, default: u64) -> Result<u64, String> {
    match env::var(name) {
        Ok(number) => number.parse().map_err(|_| format!("{name} is no number: {number}")),
        Err(_) => Ok(default),
    }
}

/// Compares the functions with the stored cases and the model.
pub fn run(settings: Settings, exports: Exports) -> Result<Outcome, Wrong> {
    let stored = stored(settings.seed, exports)?;
    Ok(Outcome { stored, generated: generated(settings, exports)? })
}

/// Compares them on the stored cases.
pub fn stored(seed: u64, exports: Exports) -> Result<Tally, Wrong> {
    with_small_stack(move || {
        let mut calls = Calls::new(exports, seed);
        vectors::compare_all(&mut calls)?;
        Ok(calls.tally)
    })
}

/// Compares them on generated cases, which depend on the seed alone and not on what is lent. A disagreement says which
/// case it was, in hex.
pub fn generated(settings: Settings, exports: Exports) -> Result<Tally, Wrong> {
    with_small_stack(move || {
        let (mut cases, mut calls) = (Rng::new(settings.seed), Calls::new(exports, !settings.seed));
        for number in 0..settings.cases {
            let case = Case::random(&mut cases);
            compare(&mut calls, &case)
                .map_err(|wrong| format!("seed {}, case {number}: {wrong}\n{case}", settings.seed))?;
        }
        Ok(calls.tally)
    })
}

/// What comparisons find in a thread with a stack of 256 KiB.
fn with_small_stack(compare: impl FnOnce() -> Result<Tally, Wrong> + Send + 'static) -> Result<Tally, Wrong> {
    let thread = thread::Builder::new().name("compare".to_string()).stack_size(STACK);
    let handle = thread.spawn(compare).map_err(|error| error.to_string())?;
    handle.join().map_err(|_| "the library or the model panicked".to_string())?
}
