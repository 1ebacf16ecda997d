//! Rows of several lines [02, R-1]: the texts of their cells, and where a wrong row is refused.

use umarekoza_model::{write_table, write_table_by, Limits, Refusal};

const OPENING: &str = "A Tag is formatted as follows:\n\n 0\n 0 1 2 3 4 5 6 7\n+-+-+-+-+-+-+-+-+\n";

/// The text with these lines of rows from line 6 on, `+` for a border, and these field lines.
fn page(rows: &[&str], fields: &[&str]) -> String {
    let line = |row: &&str| if *row == "+" { "+-+-+-+-+-+-+-+-+\n".to_string() } else { format!("{row}\n") };
    let rows: String = rows.iter().map(line).collect();
    format!("{OPENING}{rows}\nwhere:\n\n{}\n", fields.join("\n"))
}

/// The number and place by which a text is refused; none if it is accepted.
fn refused(text: &str) -> Option<(u32, u32)> {
    let refusal = |Refusal { number, place }| (number, place);
    write_table(text.as_bytes(), 4096).err().map(refusal)
}

const FLAGS: [&str; 4] = ["|S|F|           |", "|Y|I| On Loan   |", "|N|N|           |", "+"];
const FIELDS: [&str; 3] = ["SYN: 1 bit.", "FIN: 1 bit; (FIN == 0) || (SYN == 0).", "On Loan: 6 bits."];

/// The rows above, one line of them another.
fn with(at: usize, line: &'static str) -> [&'static str; 4] {
    let mut rows = FLAGS;
    rows[at] = line;
    rows
}

#[test]
fn a_cell_of_one_bit_is_read_downwards() {
    let one_line = page(&["|S|F| On Loan   |", "+"], &["S: 1 bit.", "F: 1 bit.", "On Loan: 6 bits."]);
    assert_eq!(refused(&one_line), None);
    assert_eq!(refused(&page(&FLAGS, &FIELDS)), None);
    for rows in [
        &["| |F|           |", "|S|I| On Loan   |", "|Y|N|           |", "|N| |           |", "+"][..],
        &["|S| | On Loan   |", "|Y|F|           |", "| |I|           |", "|N|N|           |", "+"],
    ] {
        assert_eq!(refused(&page(rows, &FIELDS)), None, "{rows:?}");
    }
    assert_eq!(refused(&page(&with(1, "|y|I| On Loan   |"), &FIELDS)), Some((7, 13)));
    assert_eq!(refused(&page(&with(1, "| |I| On Loan   |"), &FIELDS)), Some((7, 13)));
}

#[test]
fn a_wider_cell_is_read_line_by_line() {
    for lines in [
        ["|S|F|           |", "|Y|I| On        |", "|N|N|      Loan |"],
        ["|S|F|On         |", "|Y|I|           |", "|N|N|       Loan|"],
        ["|S|F|           |", "|Y|I|           |", "|N|N|  On Loan  |"],
    ] {
        let rows = [&lines[..], &["+"]].concat();
        assert_eq!(refused(&page(&rows, &FIELDS)), None, "{rows:?}");
    }
    let broken = ["|S|F| On Lo     |", "|Y|I| an        |", "|N|N|           |", "+"];
    assert_eq!(refused(&page(&broken, &FIELDS)), Some((7, 15)));
    let double = ["|S|F| On  Loan  |", "|Y|I|           |", "|N|N|           |", "+"];
    assert_eq!(refused(&page(&double, &FIELDS)), Some((3, 8)));
}

#[test]
fn bars_are_those_of_the_first_line() {
    let rows = ["|S|F| On Loan   |", "|Y|I|           |", "|N|N|           |", "+"];
    assert_eq!(refused(&page(&rows, &FIELDS)), None);
    for (line, other) in [
        (1, "|Y|I|        |  |"),
        (1, "|Y I|           |"),
        (1, "|Y| |       |   |"),
        (2, "|N|N|            "),
        (2, "|N|N|          |"),
        (2, "|N|N|           ||"),
        (2, ":N|N|           :"),
        (2, "|N||            |"),
    ] {
        let mut rows = rows;
        rows[line] = other;
        assert_eq!(refused(&page(&rows, &FIELDS)), Some((3, 6 + line as u32)), "{other}");
    }
    // The third cell has no label above the line with other bars.
    assert_eq!(refused(&page(&with(1, "|Y|I| On Loan|  |"), &FIELDS)), Some((3, 6)));
    assert_eq!(refused(&page(&with(0, "|S |F           |"), &FIELDS)), Some((3, 6)));
}

#[test]
fn a_row_has_four_lines_at_most() {
    let blank = "| | |           |";
    let four = [&FLAGS[..3], &[blank, "+"]].concat();
    assert_eq!(refused(&page(&four, &FIELDS)), None);
    let five = [&FLAGS[..3], &[blank, blank, "+"]].concat();
    assert_eq!(refused(&page(&five, &FIELDS)), Some((3, 10)));
    let bad = [&["|S|-|           |"], &FLAGS[1..3], &["| |-|           |", blank, "+"][..]].concat();
    assert_eq!(refused(&page(&bad, &FIELDS)), Some((3, 9)));
}

#[test]
fn a_cell_that_is_no_label_is_refused_at_the_last_line() {
    for rows in [
        with(1, "|Y|I|           |"),
        ["|S| |           |", "|Y| | On Loan   |", "|N| |           |", "+"],
        ["|S|-|           |", "|Y|I| On Loan   |", "|N|N|           |", "+"],
        ["|S|F| On        |", "|Y|I| : Loan    |", "|N|N|           |", "+"],
        ["|S|F| On        |", "|Y|I|           |", "|N|N| Loan-     |", "+"],
        ["|S| |           |", "|Y| | On Loan   |", "|N| |           |", "|N| |          |"],
    ] {
        assert_eq!(refused(&page(&rows, &FIELDS)), Some((3, 8)), "{rows:?}");
    }
    let mended = ["|S|F| On -      |", "|Y|I|  Loan     |", "|N|N|           |", "+"];
    let fields = [FIELDS[0], FIELDS[1], "On - Loan: 6 bits."];
    assert_eq!(refused(&page(&mended, &fields)), None);
}

#[test]
fn a_long_row_has_one_line() {
    let fields = ["SYN: 1 bit.", "FIN: 1 bit.", "On Loan: 6 bits.", "Data: variable."];
    let rows = |last: &[&'static str]| [&FLAGS[..], last].concat();
    assert_eq!(refused(&page(&rows(&[":     Data      :", "+"]), &fields)), None);
    for below in [":               :", "|               |", ":     Data      :", ""] {
        assert_eq!(
            refused(&page(&rows(&[":     Data      :", below, "+"]), &fields)),
            Some((3, 11)),
            "{below}"
        );
    }
    assert_eq!(
        refused(&page(&rows(&[":               :", ":     Data      :", "+"]), &fields)),
        Some((3, 10))
    );
    assert_eq!(refused(&page(&rows(&[":   Da:a        :", "+"]), &fields)), Some((3, 10)));
}

#[test]
fn a_text_that_ends_in_a_row() {
    let ended = |lines: &[&str]| format!("{OPENING}{}", lines.join("\n"));
    let bad = "|S| |           |";
    for (lines, place) in [
        (&[FLAGS[1], ""][..], 7),
        (&[FLAGS[1], FLAGS[0]], 7),
        (&[FLAGS[1], FLAGS[0], ""], 8),
        (&[FLAGS[1]], 6),
        (&[bad], 6),
        (&[bad, ""], 6),
        (&[bad, bad, ""], 7),
        (&[bad, bad], 6),
        (&[bad, FLAGS[1]], 6),
        (&[bad, FLAGS[1], ""], 8),
    ] {
        assert_eq!(refused(&ended(lines)), Some((3, place)), "{lines:?}");
    }
}

#[test]
fn field_lines_come_later() {
    let fields = [FIELDS[0], "FIN: 1 bit", FIELDS[2]];
    assert_eq!(refused(&page(&FLAGS, &fields)), Some((5, 14)));
    let names = [FIELDS[0], "FIN (SYN): 1 bit.", FIELDS[2]];
    assert_eq!(refused(&page(&FLAGS, &names)), Some((8, 14)));
    let tall = page(&FLAGS, &FIELDS);
    let one_line = Limits { row_lines: 1, ..Limits::CURRENT };
    let by_01 = write_table_by(one_line, tall.as_bytes(), 4096);
    assert_eq!(by_01, Err(Refusal { number: 3, place: 6 }));
}
