//! The proved library compared with the model of document 01, over generated and stored cases.
//!
//! `exports` declares the functions that are compared, `lent` has slices with guards round them, `calls` each call
//! on such slices with what is compared of it, `pieces` those of a text in pieces, `cases` what is generated,
//! `comparisons` the comparisons of a case, `vectors` those of the stored cases, `tally` their numbers, and `runs` the
//! whole run in a thread with a small stack.

mod calls;
mod cases;
mod comparisons;
pub mod exports;
mod lent;
mod pieces;
pub mod runs;
mod tally;
mod vectors;

pub use vectors::FILES;
