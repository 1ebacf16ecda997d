//! What is told of refused pages, packets, cuts and puttings-in, whole and written by hand.

mod characters;
mod common;
mod documented;
mod edits;
mod examples;
mod expressions;
mod field_lines;
mod fields;
mod frames;
mod lengths;
mod names;
mod operators;
mod packets;
mod ranges;
mod rows;

use umarekoza_hints::{page_hint, plain, Verdict};

/// What is told of a page that is refused by this number at this place.
fn told_of(page: &[u8], number: u32, place: u32) -> String {
    plain(&page_hint(page, Verdict { number, place }), "page.txt", page)
}
