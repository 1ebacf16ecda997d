//! Number 3: the lines above the field lines.

use crate::common::{told, with, BLADE};

const BORDER: &str = "+-+-+-+-+-+-+-+-+-+-+-+-+-+-+-+-+\n";
const SUM: &str = "|             Sum               |\n";
const CELLS: &str = "| V |L|  Cells  |     Blade     |";
const LABELS: &str =
    "a label has 1 to 40 letters, digits, single spaces and hyphens, and a letter or digit at each end";

#[test]
fn blanks_at_the_end() {
    let due = "\
error[3]: blank at the end of the line
   --> page.txt:13:34
   |
13 | +-+-+-+-+-+-+-+-+-+-+-+-+-+-+-+-+
   |                                  ^ blank at the end of the line
";
    told(with(&[("+\n\nwhere", "+ \n\nwhere")]), 3, 13, due);
    let due = "\
error[3]: blanks at the end of the line
   --> page.txt:15:7
   |
15 | where:
   |       ^^ blanks at the end of the line
also: page.txt:17:24: error[5]: `=` is no operator
";
    told(with(&[("where:", "where:  "), ("V == 1", "V = 1")]), 3, 15, due);
    let due = "\
error[3]: blank at the end of the line
  --> page.txt:3:23
  |
3 |  0                   1
  |                       ^ blank at the end of the line
also: page.txt:6:34: error[3]: blank at the end of the line
also: page.txt:23:6: error[7]: cell 7 (line 12): `Sum`, 16 bits; this line: 24 bits
";
    let page = with(&[
        ("                   1\n", "                   1 \n"),
        (CELLS, &format!("{CELLS} ")),
        ("Sum: 2", "Sum: 3"),
    ]);
    told(page, 3, 3, due);
}

#[test]
fn an_indented_page() {
    let due = "\
error[3]: blanks at the start of the line
  --> page.txt:1:1
  |
1 |     A Blade Report is formatted as follows:
  | ^^^^ blanks at the start of the line
";
    told(with(&[("A Blade", "    A Blade")]), 3, 1, due);
}

#[test]
fn the_opening_line() {
    let due = "\
error[3]: expected `A NAME is formatted as follows:`, found `The`
  --> page.txt:1:1
  |
1 | The Blade Report is formatted as follows:
  | ^ expected `A ` or `An `
  |
  = note: NAME is what the page describes
";
    told(with(&[("A Blade", "The Blade")]), 3, 1, due);
    let due = "\
error[3]: expected `A NAME is formatted as follows:`, found `laid`
  --> page.txt:1:19
  |
1 | A Blade Report is laid out as follows:
  |                   ^ expected `formatted as follows:`
  |
  = note: NAME is what the page describes
";
    told(with(&[("is formatted", "is laid out")]), 3, 1, due);
    let due = format!(
        "\
error[3]: NAME `Blade_Report` is no label: `_` is not allowed in a label
  --> page.txt:1:8
  |
1 | A Blade_Report is formatted as follows:
  |        ^ `_` is not allowed in a label
  |
  = note: {LABELS}
"
    );
    told(with(&[("Blade Report", "Blade_Report")]), 3, 1, &due);
    let due = "\
error[3]: the page is empty: expected `A NAME is formatted as follows:`
  --> page.txt:1:1
  |
1 |
  | ^ expected `A NAME is formatted as follows:`
";
    told("", 3, 1, due);
}

#[test]
fn a_border_that_is_missing() {
    let due = "\
error[3]: expected the border, found an empty line
   --> page.txt:13:1
   |
13 |
   | ^ the border is missing before this line
   |
   = note: a border stands above and below each row
";
    told(with(&[(&format!("{SUM}{BORDER}"), SUM)]), 3, 13, due);
    let due = "\
error[3]: expected the border, found a row
  --> page.txt:7:1
  |
7 | |           Borrower            |
  | ^^^^^^^^^^^^^^^^^^^^^^^^^^^^^^^^^ the border is missing before this line
  |
  = note: a border stands above and below each row
";
    told(with(&[(&format!("{CELLS}\n{BORDER}"), &format!("{CELLS}\n"))]), 3, 7, due);
}

#[test]
fn lines_too_many() {
    let due = "\
error[3]: expected the border, found an empty line
  --> page.txt:7:1
  |
7 |
  | ^ an empty line too many
  |
  = note: take this line out
also: page.txt:24:6: error[7]: cell 7 (line 13): `Sum`, 16 bits; this line: 8 bits
";
    let page = with(&[(CELLS, &format!("{CELLS}\n")), ("Sum: 2 bytes", "Sum: 1 byte")]);
    told(page, 3, 7, due);
    let due = "\
error[3]: expected `where:`, found a row
  --> page.txt:9:1
  |
9 | |           Borrower            |
  | ^^^^^^^^^^^^^^^^^^^^^^^^^^^^^^^^^ expected `where:`
  |
  = note: take the empty line above out: none stands between a diagram's rows
also: page.txt:18:24: error[5]: `=` is no operator
";
    let page = with(&[(&format!("{CELLS}\n{BORDER}"), &format!("{CELLS}\n{BORDER}\n")), ("V == 1", "V = 1")]);
    told(page, 3, 9, due);
}

#[test]
fn a_border_that_is_short() {
    let due = "\
error[3]: this border has 31 characters, needs 33
   --> page.txt:13:32
   |
13 | +-+-+-+-+-+-+-+-+-+-+-+-+-+-+-+
   |                                ^ 31 characters, needs 33
";
    told(with(&[("-+-+\n\nwhere", "-+\n\nwhere")]), 3, 13, due);
}

#[test]
fn rows_that_are_short_or_long() {
    let note = "a row is as long as its border: two characters a bit and one more, 16 bits here";
    let due = format!(
        "\
error[3]: this row has 32 characters, needs 33
  --> page.txt:8:33
  |
8 | |           Borrower           |
  |                                 ^ 32 characters, needs 33
  |
  = note: {note}
"
    );
    told(with(&[("Borrower            |", "Borrower           |")]), 3, 8, &due);
    let due = format!(
        "\
error[3]: this row has 34 characters, needs 33
  --> page.txt:8:34
  |
8 | |           Borrower             |
  |                                  ^ 34 characters, needs 33
  |
  = note: {note}
"
    );
    told(with(&[("Borrower            |", "Borrower             |")]), 3, 8, &due);
}

#[test]
fn a_bar_at_a_wrong_column() {
    let due = "\
error[3]: bar at column 18: bars stand under a `+` of the border, at odd columns
  --> page.txt:6:18
  |
6 | | V |L|  Cells   |    Blade     |
  |                  ^ bars stand at odd columns
  |
  = note: a bit takes two columns: a cell of n bits has 2n - 1 characters between its bars
";
    told(with(&[(CELLS, "| V |L|  Cells   |    Blade     |")]), 3, 6, due);
}

#[test]
fn rulers_of_another_width() {
    let due = "\
error[3]: a ruler of another width: a row is 8, 16 or 32 bits
  --> page.txt:3:1
  |
3 |  0                   1                   2
  | ^^^^^^^^^^^^^^^^^^^^^^^^^^^^^^^^^^^^^^^^^^ a row is 8, 16 or 32 bits
";
    told(with(&[("0                   1\n", "0                   1                   2\n")]), 3, 3, due);
    let due = "\
error[3]: a ruler of another width: a row is 8, 16 or 32 bits
  --> page.txt:4:1
  |
4 |  0 1 2 3 4 5 6 7 8 9 0 1
  | ^^^^^^^^^^^^^^^^^^^^^^^^ a row is 8, 16 or 32 bits
";
    told(with(&[("0 1 2 3 4 5\n", "0 1\n")]), 3, 4, due);
    let due = "\
error[3]: this ruler has 16 bits, the line above is the tens ruler of 8 bits
  --> page.txt:4:1
  |
4 |  0 1 2 3 4 5 6 7 8 9 0 1 2 3 4 5
  | ^^^^^^^^^^^^^^^^^^^^^^^^^^^^^^^^ 16 bits
  |
  = note: for 16 bits the line above is ` 0                   1`
";
    told(with(&[(" 0                   1\n", " 0\n")]), 3, 4, due);
    let due = "\
error[3]: expected the units ruler, found `9`
  --> page.txt:4:16
  |
4 |  0 1 2 3 4 5 6 9 8 9 0 1 2 3 4 5
  |                ^ expected `7`
  |
  = note: the units ruler of 16 bits is ` 0 1 2 3 4 5 6 7 8 9 0 1 2 3 4 5`
";
    told(with(&[("6 7 8 9", "6 9 8 9")]), 3, 4, due);
}

#[test]
fn no_line_end_at_the_end() {
    let due = "\
error[3]: the last line has no line end
   --> page.txt:23:14
   |
23 | Sum: 2 bytes.
   |              ^ no line end
   |
   = note: end the last line too, with Enter
";
    told(&BLADE[..BLADE.len() - 1], 3, 23, due);
}

#[test]
fn a_page_that_ends_early() {
    let due = "\
error[3]: the page ends too early: expected a field line
   --> page.txt:17:1
   |
17 |
   | ^ expected a field line
";
    told(&BLADE[..BLADE.find("Version").unwrap()], 3, 17, due);
}

#[test]
fn the_line_where() {
    let due = "\
error[3]: expected an empty line before `where:`
   --> page.txt:14:1
   |
14 | where:
   | ^^^^^^ an empty line is missing before this one
";
    told(with(&[("\n\nwhere:", "\nwhere:")]), 3, 14, due);
    let due = "\
error[3]: expected `where:`, found `Where:`
   --> page.txt:15:1
   |
15 | Where:
   | ^^^^^^ expected `where:`
   |
   = note: it is written in small letters
";
    told(with(&[("where:", "Where:")]), 3, 15, due);
    let due = "\
error[3]: expected an empty line, found `Version (V): 2 bits; V == 1.`
   --> page.txt:16:1
   |
16 | Version (V): 2 bits; V == 1.
   | ^^^^^^^^^^^^^^^^^^^^^^^^^^^^ an empty line is missing before this one
";
    told(with(&[("where:\n\n", "where:\n")]), 3, 16, due);
}

#[test]
fn cells_that_are_no_labels() {
    let cell = |cell: &str| with(&[(" Cells ", cell)]);
    let due = |message: &str, line: &str, caret: &str| {
        format!(
            "error[3]: {message}\n  --> page.txt:6:{}\n  |\n6 | {line}\n  | {caret}\n  |\n  = note: {LABELS}\n",
            caret.find('^').unwrap() + 1
        )
    };
    let told_due = due(
        "the cell `Cells?` is no label: `?` is not allowed in a label",
        "| V |L|  Cells? |     Blade     |",
        "              ^ `?` is not allowed in a label",
    );
    told(cell(" Cells?"), 3, 6, &told_due);
    let told_due = due(
        "the cell `-Cells` is no label: a label begins with a letter or digit",
        "| V |L| -Cells  |     Blade     |",
        "        ^ a label begins with a letter or digit",
    );
    told(cell("-Cells "), 3, 6, &told_due);
    let told_due = due(
        "the cell `Ce  lls` is no label: two spaces together in a label",
        "| V |L| Ce  lls |     Blade     |",
        "          ^^ two spaces together in a label",
    );
    told(cell("Ce  lls"), 3, 6, &told_due);
    let blank = "  = note: each cell shows its field's label or short name; a reserved field needs one too\n";
    let told_due = due("the cell has no label", "| V |L|         |     Blade     |", "       ^ no label");
    told(cell("       "), 3, 6, &format!("{told_due}{blank}"));
}

#[test]
fn rows_of_mixed_kinds() {
    let due = "\
error[3]: a row that begins with `:` ends with `:`; found `|`
   --> page.txt:10:33
   |
10 | :            Readings           |
   |                                 ^ expected `:`
";
    told(with(&[("Readings           :", "Readings           |")]), 3, 10, due);
}
