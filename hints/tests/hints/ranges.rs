//! The line and the bytes in it that are meant, for a renderer; and what no page of the command comes to.

use crate::common::{with, BLADE};
use crate::told_of;
use umarekoza_hints::{page_hint, plain, Verdict};

/// The line that is shown, what is meant in it, and where that begins.
fn shown(page: &str, number: u32, place: u32) -> (String, String, usize) {
    let (line, meant) = page_hint(page.as_bytes(), Verdict { number, place }).shown_line(page.as_bytes());
    let meant = meant.unwrap();
    let marked = line[meant.clone()].to_string();
    (line, marked, meant.start)
}

#[track_caller]
fn shows(page: &str, (number, place): (u32, u32), line: &str, marked: &str, start: usize) {
    assert_eq!(shown(page, number, place), (line.to_string(), marked.to_string(), start));
}

#[test]
fn what_is_meant_is_within_its_line() {
    shows(&with(&[("V == 1", "V = 1")]), (5, 17), "Version (V): 2 bits; V = 1.", "=", 23);
    shows(&with(&[("1 bit.\n", "1 bit\n")]), (5, 18), "On Loan (L): 1 bit", "", 18);
    shows(&with(&[("Sum: 2 bytes.\n", "")]), (7, 23), "", "", 0);
    shows("", (3, 1), "", "", 0);
    let whole = page_hint(BLADE.as_bytes(), Verdict { number: 11, place: 0 });
    assert_eq!(whole.shown_line(BLADE.as_bytes()).1, None);
}

#[test]
fn a_long_line_is_shown_round_the_place() {
    let wrong = format!("Sum: 2 bytes; {} = N.", "1 + ".repeat(50) + "1");
    let line = format!("..+ {}1 = N.", "1 + ".repeat(19));
    shows(&with(&[("Sum: 2 bytes.", &wrong)]), (5, 23), &line, "=", 2 + 80);
    let wrong = format!("Sum: 2 octets. {}", "x".repeat(200));
    let line = format!("Sum: 2 octets. {}..", "x".repeat(145));
    shows(&with(&[("Sum: 2 bytes.", &wrong)]), (5, 23), &line, "octets", 7);
}

#[test]
fn a_name_is_shown_without_control_characters() {
    let hint = page_hint(BLADE.as_bytes(), Verdict { number: 11, place: 0 });
    let told = plain(&hint, "p\u{E4}ge\u{1B}[31m\n\u{202E}.txt", BLADE.as_bytes());
    assert_eq!(told.lines().nth(1), Some(" --> p\u{E4}ge?[31m??.txt"));
}

#[test]
fn a_shown_line_has_a_character_for_each_byte() {
    let page = with(&[("Blade: 1 byte.", "Blade:\u{A0}1 byte. \x1B[0m")]);
    shows(&page, (2, 0), "Blade:??1 byte. ?[0m", "??", 6);
}

#[test]
fn an_output_that_is_too_short() {
    let due = "\
error[11]: the output is too short: the page's table has 215 bytes
 --> page.txt
 = note: give it room for 215 bytes
";
    assert_eq!(told_of(BLADE.as_bytes(), 11, 0), due);
}
