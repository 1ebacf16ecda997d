//! All that the command prints of refused pages, by the cases of the hints' own tests: whole and written by hand.

#[path = "../../hints/tests/hints/characters.rs"]
mod characters;
#[path = "../../hints/tests/hints/common.rs"]
mod common;
#[path = "../../hints/tests/hints/examples.rs"]
mod examples;
#[path = "../../hints/tests/hints/expressions.rs"]
mod expressions;
#[path = "../../hints/tests/hints/field_lines.rs"]
mod field_lines;
#[path = "../../hints/tests/hints/fields.rs"]
mod fields;
#[path = "../../hints/tests/hints/frames.rs"]
mod frames;
#[path = "../../hints/tests/hints/lengths.rs"]
mod lengths;
#[path = "../../hints/tests/hints/names.rs"]
mod names;
#[path = "../../hints/tests/hints/rows.rs"]
mod rows;
#[path = "common/mod.rs"]
mod runs;

use runs::Place;
use std::thread;

const PAGES: &str = include_str!("../../docs/PAGES.md");

/// What the command says on standard error of a page that is refused by this number at this place.
#[track_caller]
fn told_of(page: &[u8], number: u32, place: u32) -> String {
    let test = thread::current().name().unwrap_or_default().replace("::", "-");
    said_of(&Place::new(&test), "page.txt", page, &format!("refused {number} at {place}"))
}

#[track_caller]
fn said_of(place: &Place, name: &str, page: &[u8], refused: &str) -> String {
    place.put(name, page);
    let left = place.run(&["check", "--page", name]);
    let verdict = format!("{name}: page {refused}\n0 accepted, 1 refused\n");
    assert_eq!((left.text(), left.status), (verdict, 1));
    left.err
}

#[test]
fn documented_pages() {
    let place = Place::new("documented-pages");
    for (page, number, at) in examples::pages() {
        let said = said_of(&place, "my-page.txt", page.as_bytes(), &format!("refused {number} at {at}"));
        let indented: String = said.lines().map(|line| format!("    {line}\n")).collect();
        assert!(PAGES.contains(&format!("\n\n{indented}\n")), "{said}");
    }
}
