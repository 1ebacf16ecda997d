//! The verb `readers`: how many places read each field.

mod common;

use common::*;

const PAGES: &str = include_str!("../../docs/PAGES.md");
const LINES: &str = "Version: 0\nOn Loan: 1\nCells: 1\nBlade: 0\nBorrower: 0\nReadings: 0\nSum: 0\n";

#[test]
fn each_field_by_page_and_by_table() {
    let place = Place::new("readers");
    place.run(&["readers", "page"]).accepted(LINES);
    let indented: String = LINES.lines().map(|line| format!("    {line}\n")).collect();
    assert!(PAGES.contains(&format!("\n\n{indented}\n")), "docs/PAGES.md has other lines");
    place.run(&["table", "page", "-o", "table"]).accepted("");
    place.run(&["readers", "table"]).accepted(LINES);
    place.run(&["readers", "--table", "table"]).accepted(LINES);
    place.run_on(&["readers", "-"], BLADE.as_bytes()).accepted(LINES);
    let more = BLADE.replace("Sum: 2 bytes.", "Sum: 2 bytes; L == 1 || V + V < Cells.");
    place.put("page", more);
    let lines = LINES.replace("Version: 0", "Version: 2").replace("Loan: 1", "Loan: 2");
    place.run(&["readers", "page"]).accepted(lines.replace("Cells: 1", "Cells: 2"));
}

#[test]
fn one_field_by_label_short_name_and_index() {
    let place = Place::new("readers-of");
    for field in ["Cells", "N", "2"] {
        place.run(&["readers", "page", field]).accepted("1\n");
    }
    for field in ["Version", "Sum", "6"] {
        place.run(&["readers", "page", field]).accepted("0\n");
    }
}

#[test]
fn refusals() {
    let place = Place::new("readers-refused");
    for field in ["Cels", "7", ""] {
        let words = ["page, field `", "Version, On Loan, Cells, Blade, Borrower, Readings, Sum"];
        place.run(&["readers", "page", field]).refused("refused 30 at 0", &words);
    }
    place.run(&["readers", "page", "Cels"]).says(&["did you mean `Cells`?"]);
    place.put("table", "no table");
    place.run(&["readers", "table"]).refused("refused 21 at 0", &[" --> table\n", "not a good table"]);
    place.run(&["readers", "table", "N"]).refused("refused 21 at 0", &["not a good table"]);
    place.put("page", BLADE.replace("Sum: 2", "Sum: 3"));
    place.run(&["readers", "page"]).refused("refused 7 at 23", &[" --> page:23:6\n"]);
    place.run(&["readers", "nothing"]).failed(&["nothing: there is no such file or folder"]);
}

/// The number that a table keeps is told; a table with another is refused.
#[test]
fn a_wrong_number() {
    let place = Place::new("wrong-number");
    let mut table = TAG_TABLE;
    place.put("tag", table);
    place.run(&["readers", "tag", "Kind"]).accepted("0\n");
    table[17] = 1;
    place.put("tag", table);
    place.run(&["readers", "tag"]).refused("refused 21 at 0", &["not a good table"]);
}
