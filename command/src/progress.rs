//! How far a long run is, on a terminal's standard error.

use indicatif::{ProgressBar, ProgressDrawTarget, ProgressStyle};
use std::sync::OnceLock;

/// From so many on, it is shown.
const MANY: u64 = 50;

static SHOWN: OnceLock<ProgressBar> = OnceLock::new();

/// What is counted, and how many there are where that is known.
pub struct Progress {
    bar: ProgressBar,
    all: Option<u64>,
}

impl Progress {
    pub fn new(what: &str, all: Option<usize>) -> Self {
        let all = all.map(|all| all as u64);
        let bar = ProgressBar::with_draw_target(all, ProgressDrawTarget::hidden());
        let template = if all.is_some() { "{pos} of {len}" } else { "{pos}" };
        if let Ok(style) = ProgressStyle::with_template(&format!("{template} {what}")) {
            bar.set_style(style);
        }
        Progress { bar, all }
    }

    /// Counts one more.
    pub fn step(&self) {
        self.bar.inc(1);
        let many = self.all.unwrap_or(self.bar.position()) >= MANY;
        if many && SHOWN.set(self.bar.clone()).is_ok() {
            self.bar.set_draw_target(ProgressDrawTarget::stderr());
        }
    }
}

impl Drop for Progress {
    fn drop(&mut self) {
        self.bar.finish_and_clear();
    }
}

/// Writes with the progress put aside; it comes back below what was written.
pub fn aside<T>(write: impl FnOnce() -> T) -> T {
    match SHOWN.get() {
        Some(bar) if !bar.is_finished() => bar.suspend(write),
        _ => write(),
    }
}
