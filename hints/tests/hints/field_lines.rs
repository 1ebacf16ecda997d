//! Number 5: the form of field lines.

use crate::common::{form_told, told, with, BLADE_LINE, BORROWER, CELLS, ON_LOAN, READINGS, VERSION};

const SHORTS: &str =
    "a short name is a letter and up to 7 letters or digits, and none of `bit`, `bits`, `byte`, \
                      `bytes`, `variable`, `present`";
const FORM: &str =
    "the form is `Label (Short): 2 bytes; CONSTRAINT; present only when CONDITION.`; short name, \
                    constraint and condition may be left out";

#[test]
fn missing_stops_and_units() {
    form_told(
        ON_LOAN,
        "On Loan (L): 1 bit",
        "expected `.`, found the end of the line",
        "                  ^ the full stop is missing",
        &[],
    );
    form_told(
        BLADE_LINE,
        "Blade: 1.",
        "expected a space and a unit, found `.`",
        "        ^ expected a space and a unit",
        &["a width ends with a space and `bit`, `bits`, `byte` or `bytes`"],
    );
}

#[test]
fn spaces_too_few_or_too_many() {
    form_told(
        BLADE_LINE,
        "Blade: 1byte.",
        "`1byte` is no number: a space is missing before the unit",
        "       ^^^^^ a space is missing before the unit",
        &["did you mean `1 byte`?"],
    );
    form_told(
        BLADE_LINE,
        "Blade:1 byte.",
        "expected a space behind `:`, found `1`",
        "      ^ expected a space behind `:`",
        &[],
    );
    form_told(
        VERSION,
        "Version (V): 2 bits;V == 1.",
        "expected a space behind `;`, found `V`",
        "                    ^ expected a space behind `;`",
        &[],
    );
    form_told(
        VERSION,
        "Version (V): 2 bits; V  == 1.",
        "a space too many",
        "                       ^ a space too many",
        &["one space at most stands on each side of an operator"],
    );
}

#[test]
fn wrong_units_stops_and_phrases() {
    form_told(
        BLADE_LINE,
        "Blade: 1 octets.",
        "expected `bit`, `bits`, `byte` or `bytes`, found `octets`",
        "         ^^^^^^ no unit",
        &["did you mean `bytes`?"],
    );
    form_told(
        BLADE_LINE,
        "Blade: 1 byte, its number.",
        "expected `;` or `.`, found `,`",
        "             ^ expected `;` or `.`",
        &["did you mean `;`?"],
    );
    form_told(
        BLADE_LINE,
        "Blade: 1 byte.Its number.",
        "expected a space before the remark, found `Its`",
        "              ^ expected a space before the remark",
        &["behind the full stop comes nothing, or a space and a remark"],
    );
    form_told(
        BORROWER,
        "Borrower (Bor): 2 bytes; present when L == 1.",
        "expected `only when `, found `when`",
        "                                 ^ expected `only when `",
        &[],
    );
    form_told(
        BORROWER,
        "Borrower (Bor): 2 bytes; Present only when L == 1.",
        "expected `present only when `, found `Present`",
        "                         ^ expected `present only when `",
        &[],
    );
}

#[test]
fn parts_too_many() {
    form_told(
        CELLS,
        "Cells (N): 5 bits; N <= 20; N > 0.",
        "expected `present only when `, found `N`",
        "                            ^ expected `present only when `",
        &["a line has one constraint at most: join two with `&&`"],
    );
    form_told(
        BORROWER,
        "Borrower (Bor): 2 bytes; present only when L == 1; Bor > 0.",
        "expected `.`, found `;`",
        "                                                 ^ expected `.`",
        &["the condition comes last"],
    );
    form_told(
        READINGS,
        "Readings: variable bytes.",
        "expected `;` or `.`, found a space and `bytes`",
        "                  ^ expected `;` or `.`",
        &["a remark stands behind the full stop"],
    );
}

#[test]
fn wrong_names() {
    form_told(
        BLADE_LINE,
        "Blade (byte): 1 byte.",
        "`byte` is no short name: this word is reserved",
        "       ^^^^ this word is reserved",
        &[SHORTS],
    );
    form_told(
        CELLS,
        "Cells (NumberOfCells): 5 bits; N <= 20.",
        "`NumberOfCells` is no short name: 13 characters, at most 8",
        "       ^^^^^^^^^^^^^ 13 characters, at most 8",
        &[SHORTS],
    );
    form_told(
        ON_LOAN,
        "On_Loan (L): 1 bit.",
        "`_` is not allowed in a label",
        "  ^ not allowed in a label",
        &["did you mean `On Loan`?"],
    );
    form_told(
        ON_LOAN,
        "On Loan(L): 1 bit.",
        "expected a space before `(`, found `(`",
        "       ^ expected a space before `(`",
        &[],
    );
}

#[test]
fn an_empty_line() {
    let due = "\
error[5]: an empty line below `where:`
   --> page.txt:21:1
   |
21 |
   | ^ expected a field line
   |
   = note: every line below `where:` is a field line; take the empty line out
";
    told(with(&[(BLADE_LINE, "Blade: 1 byte.\n")]), 5, 21, due);
}

#[test]
fn a_wrapped_remark() {
    let page = with(&[(BLADE_LINE, "Blade: 1 byte. The number that is pressed\ninto the blade.")]);
    let due = format!(
        "\
error[5]: expected `: ` behind the label, found `.`
   --> page.txt:21:15
   |
21 | into the blade.
   |               ^ expected `: `
   |
   = note: a remark stays on its field's line: if this line goes on with one, join the two
   = note: {FORM}
"
    );
    told(page, 5, 21, &due);
}

#[test]
fn further_mistakes_of_forms() {
    let page = with(&[
        (VERSION, "Version (V): 2 bits; V = 1."),
        (ON_LOAN, "On Loan (V): 1 bit."),
        (BLADE_LINE, "Blade: 1 octet."),
        ("Sum: 2 bytes.", "Sum: 2 bytes"),
        (READINGS, "Cells: N bytes."),
    ]);
    let due = "\
error[5]: `=` is no operator
   --> page.txt:17:24
   |
17 | Version (V): 2 bits; V = 1.
   |                        ^ no such operator
   |
   = note: did you mean `==`?
also: page.txt:20:10: error[5]: expected `bit`, `bits`, `byte` or `bytes`, found `octet`
also: page.txt:22:1: error[8]: the label `Cells` is the label of line 19 already
also: page.txt:23:13: error[5]: expected `.`, found the end of the line
";
    told(page, 5, 17, due);
}

#[test]
fn ten_further_mistakes_at_most() {
    let lines: String = (1..=14).map(|line| format!("Field {line}: 1 octet.\n")).collect();
    let page = with(&[("Sum: 2 bytes.\n", &lines)]);
    let mut due = "\
error[5]: expected `bit`, `bits`, `byte` or `bytes`, found `octet`
   --> page.txt:23:12
   |
23 | Field 1: 1 octet.
   |            ^^^^^ no unit
   |
   = note: did you mean `bytes`?
"
    .to_string();
    for line in 2..=11 {
        let column = if line < 10 { 12 } else { 13 };
        let expected = "expected `bit`, `bits`, `byte` or `bytes`, found `octet`";
        due += &format!("also: page.txt:{}:{column}: error[5]: {expected}\n", line + 22);
    }
    told(page, 5, 23, &due);
}
