//! Rows of several lines [02, R-1]: numbers 3 and 7.

use crate::common::told;

const LABELS: &str =
    "a label has 1 to 40 letters, digits, single spaces and hyphens, and a letter or digit at each end";
const BARS: &str = "all lines of a row have the bars of its first line; the border stands below the last";
const BORDER: &str = "+-+-+-+-+-+-+-+-+";
/// The lines of the first row, which are 6 to 8 of the page.
const FLAGS: [&str; 3] = ["|S|F| On Loan   |", "|Y|I|           |", "|N|N|           |"];
const FIELDS: &str =
    "SYN: 1 bit.\nFIN: 1 bit; (FIN == 0) || (SYN == 0).\nOn Loan: 6 bits.\nData: variable.\n";

/// A page with these lines from line 6 on and these field lines.
fn page(rows: &[&str], fields: &str) -> String {
    let rows = rows.join("\n");
    format!("A Flag is formatted as follows:\n\n 0\n 0 1 2 3 4 5 6 7\n{BORDER}\n{rows}\n\nwhere:\n\n{fields}")
}

/// The page with these lines in the place of the first row.
fn with_row(row: &[&str]) -> String {
    page(&[row, &[BORDER, ":     Data      :", BORDER]].concat(), FIELDS)
}

/// The page with another line in its first row.
fn with_line(number: usize, line: &str) -> String {
    let mut row = FLAGS;
    row[number - 6] = line;
    with_row(&row)
}

#[test]
fn bars_that_differ() {
    let due = format!(
        "\
error[3]: bar at column 9, where the row's first line, line 6, has none
  --> page.txt:7:9
  |
7 | |Y|I|   |       |
  |         ^ no bar here
  |
  = note: {BARS}
"
    );
    told(with_line(7, "|Y|I|   |       |"), 3, 7, &due);
    let due = format!(
        "\
error[3]: no bar at column 3, where the row's first line, line 6, has one
  --> page.txt:8:3
  |
8 | |N N|           |
  |   ^ expected `|`
  |
  = note: {BARS}
"
    );
    told(with_line(8, "|N N|           |"), 3, 8, &due);
}

#[test]
fn lines_of_another_length() {
    let due = format!(
        "\
error[3]: this line has 16 characters, needs 17
  --> page.txt:7:17
  |
7 | |Y|I|          |
  |                 ^ 16 characters, needs 17
  |
  = note: a row is as long as its border: two characters a bit and one more, 8 bits here
  = note: {BARS}
"
    );
    told(with_line(7, "|Y|I|          |"), 3, 7, &due);
    let due = "\
error[3]: blank at the end of the line
  --> page.txt:8:18
  |
8 | |N|N|           |
  |                  ^ blank at the end of the line
";
    told(with_line(8, "|N|N|           | "), 3, 8, due);
}

#[test]
fn a_fifth_line() {
    let due = "\
error[3]: a row has at most 4 lines, and this one begins at line 6
   --> page.txt:10:1
   |
10 | | | |           |
   | ^^^^^^^^^^^^^^^^^ the fifth line
   |
   = note: below the last line of a row stands the border
also: page.txt:21:1: error[7]: cell 4 (line 13): `Data`, a row between `:`; this line: `Rest`
";
    let blank = "| | |           |";
    let rows = [&FLAGS[..], &[blank, blank, blank, BORDER, ":     Data      :", BORDER]].concat();
    told(page(&rows, &FIELDS.replace("Data", "Rest")), 3, 10, due);
}

#[test]
fn a_second_line_of_a_long_row() {
    let due = "\
error[3]: a row between `:` has one line, line 10
   --> page.txt:11:1
   |
11 | :               :
   | ^^^^^^^^^^^^^^^^^ a second line
   |
   = note: below the last line of a row stands the border
";
    let long = [BORDER, ":     Data      :", ":               :", BORDER];
    told(page(&[&FLAGS[..], &long].concat(), FIELDS), 3, 11, due);
}

#[test]
fn cells_that_are_no_labels() {
    let due = format!(
        "\
error[3]: the cell on lines 6 to 8 `FI-` is no label: a label ends with a letter or digit
  --> page.txt:8:4
  |
8 | |N|-|           |
  |    ^ a label ends with a letter or digit
  |
  = note: {LABELS}
  = note: a cell of one bit is read from top to bottom, blanks dropped
"
    );
    told(with_line(8, "|N|-|           |"), 3, 8, &due);
    let due = format!(
        "\
error[3]: the cell on lines 6 to 8 `On Loan b_c` is no label: `_` is not allowed in a label
  --> page.txt:8:6
  |
8 | |N|N|           |
  |      ^^^^^^^^^^^ `_` is not allowed in a label
  |
  = note: {LABELS}
  = note: it is at line 7, column 9
  = note: the lines of a cell are joined by one space
"
    );
    told(with_line(7, "|Y|I|  b_c      |"), 3, 8, &due);
}

#[test]
fn a_cell_that_is_empty() {
    let due = format!(
        "\
error[3]: the cell on lines 6 to 8 has no label
  --> page.txt:8:6
  |
8 | |N|N|           |
  |      ^^^^^^^^^^^ no label
  |
  = note: {LABELS}
  = note: the lines of a cell are joined by one space
  = note: each cell shows its field's label or short name; a reserved field needs one too
"
    );
    told(with_line(6, "|S|F|           |"), 3, 8, &due);
}

/// The row ends above a line that is none of its own.
#[test]
fn a_cell_above_a_wrong_line() {
    let due = format!(
        "\
error[3]: the cell has no label
  --> page.txt:6:6
  |
6 | |S|F|           |
  |      ^ no label
  |
  = note: {LABELS}
  = note: each cell shows its field's label or short name; a reserved field needs one too
  = note: line 7 is not of this row: bar at column 13, where the row's first line, line 6, has none
also: page.txt:7:13: error[3]: bar at column 13, where the row's first line, line 6, has none
"
    );
    told(with_row(&["|S|F|           |", "|Y|I| On Lo | n |", "|N|N|           |"]), 3, 6, &due);
}

#[test]
fn a_border_that_is_missing() {
    let due = "\
error[3]: expected the border, found a row
  --> page.txt:7:1
  |
7 | |A|B| C |   D   |
  | ^^^^^^^^^^^^^^^^^ the border is missing before this line
  |
  = note: a border stands above and below each row
  = note: or, if it is a further line of the row above: bar at column 9, where the row's first line, line 6, has none
";
    let fields = "S: 1 bit.\nF: 1 bit.\nOn Loan: 6 bits.\nA: 1 bit.\nB: 1 bit.\nC: 2 bits.\nD: 4 bits.\n";
    told(page(&[FLAGS[0], "|A|B| C |   D   |", BORDER], fields), 3, 7, due);
    let due = "\
error[7]: cell 1 (lines 6 to 7): `One Two`, 8 bits; this line: `One`
   --> page.txt:12:1
   |
12 | One: 1 byte.
   | ^^^ another name than its cell shows
   |
   = note: line 6 alone shows this field: a border stands between two rows
   = note: there are 1 cell and 2 field lines
   = note: a cell shows its field's label or short name, letter for letter
";
    let rows = ["|      One      |", "|      Two      |", BORDER];
    told(page(&rows, "One: 1 byte.\nTwo: 1 byte.\n"), 7, 12, due);
}

#[test]
fn cells_and_lines_that_disagree() {
    let due = "\
error[7]: cell 2 (lines 6 to 8): `FIN`, 1 bit; this line: `END`
   --> page.txt:16:1
   |
16 | END: 1 bit.
   | ^^^ another name than its cell shows
   |
   = note: a cell shows its field's label or short name, letter for letter
";
    let fields = FIELDS.replace("FIN: 1 bit; (FIN == 0) || (SYN == 0)", "END: 1 bit");
    told(page(&[&FLAGS[..], &[BORDER, ":     Data      :", BORDER]].concat(), &fields), 7, 16, due);
    let due = "\
error[7]: cell 3 (lines 6 to 8): `On Loan`, 6 bits; this line: 5 bits
   --> page.txt:17:10
   |
17 | On Loan: 5 bits.
   |          ^^^^^^ its cell has 6 bits
   |
   = note: a cell of 5 bits has 9 characters between its bars
";
    let fields = FIELDS.replace("6 bits", "5 bits");
    told(page(&[&FLAGS[..], &[BORDER, ":     Data      :", BORDER]].concat(), &fields), 7, 17, due);
}

#[test]
fn a_page_that_ends_in_a_row() {
    let whole = with_row(&FLAGS);
    let due = "\
error[3]: the page ends too early: expected the border
  --> page.txt:9:1
  |
9 |
  | ^ expected the border
";
    told(&whole[..whole.find(FLAGS[2]).unwrap() + FLAGS[2].len() + 1], 3, 9, due);
    let due = "\
error[3]: the last line has no line end
  --> page.txt:8:18
  |
8 | |N|N|           |
  |                  ^ no line end
  |
  = note: end the last line too, with Enter
";
    told(&whole[..whole.find(FLAGS[2]).unwrap() + FLAGS[2].len()], 3, 8, due);
}
