//! Numbers 6, 7, 9 and 10: field lines of right form against their limits, their cells and types, and each other.

use crate::common::{
    due_at, line_told, told, with, BLADE_LINE, BORROWER, CELLS, ON_LOAN, READINGS, SUM, VERSION,
};

#[test]
fn expressions_that_are_too_large() {
    let deep = "On Loan (L): 1 bit; 1+1+1+1+1+1+1+1+1+1+1+1 == L.";
    let due: (_, _, &[_]) = (
        "the constraint is too large: depth 13, at most 12",
        "                    ^^^^^^^^^^^^^^^^^^^^^^^^^^^^ depth 13, at most 12",
        &[
            "a number or name has depth 1, an operator 1 more than its deeper operand",
            "parentheses make a long chain less deep, as in `(a+b)+(c+d)`",
        ],
    );
    line_told(6, &[(ON_LOAN, deep)], deep, due);
    let long = "Readings: (1+1+1+1+1+1)*(1+1+1+1+1+1)*(1+1+1+1+1+1)*(1+1+1+1+1+1)*N bytes.";
    let due: (_, _, &[_]) = (
        "the width is too large: 146 stored bytes, at most 120",
        "          ^^^^^^^^^^^^^^^^^^^^^^^^^^^^^^^^^^^^^^^^^^^^^^^^^^^^^^^^^ 146 stored bytes, at most 120",
        &["a number takes 5 bytes, a name 2, an operator 1"],
    );
    line_told(6, &[(READINGS, long)], long, due);
}

const SHOWS: &str = "a cell shows its field's label or short name, letter for letter";

#[test]
fn a_width_unlike_its_cell() {
    let line = "Cells (N): 6 bits; N <= 20.";
    let due: (_, _, &[_]) = (
        "cell 3 (line 6): `Cells`, 5 bits; this line: 6 bits",
        "           ^^^^^^ its cell has 5 bits",
        &["a cell of 6 bits has 11 characters between its bars"],
    );
    line_told(7, &[(CELLS, line)], line, due);
    let line = "Borrower (Bor): 2 * 8 bits; present only when L == 1.";
    let due: (_, _, &[_]) = (
        "cell 5 (line 8): `Borrower`, 16 bits; this line: `2 * 8 bits`",
        "                ^^^^^^^^^^ not fixed",
        &["a calculated width is never fixed: write `16 bits`"],
    );
    line_told(7, &[(BORROWER, line)], line, due);
    let line = "Readings: 2 bytes.";
    let due: (_, _, &[_]) = (
        "cell 6 (line 10): `Readings`, a row between `:`; this line: 16 bits, a fixed width",
        "          ^^^^^^^ fixed",
        &["a field of fixed width has a cell between `|`"],
    );
    line_told(7, &[(READINGS, line)], line, due);
    let due: (_, _, &[_]) = (
        "cell 7 (line 12): `Sum`, 16 bits; this line: `N bytes`",
        "     ^^^^^^^ not fixed",
        &["a calculated width is never fixed: its field has a row of its own between `:`"],
    );
    line_told(7, &[(SUM, "Sum: N bytes.")], "Sum: N bytes.", due);
    let due: (_, _, &[_]) = (
        "cell 7 (line 12): `Sum`, 16 bits; this line: `two bytes`",
        "     ^^^^^^^^^ not fixed",
        &[
            "a calculated width is never fixed: its field has a row of its own between `:`",
            "`two` is taken for a name; a fixed width is a number",
        ],
    );
    line_told(7, &[(SUM, "Sum: two bytes.")], "Sum: two bytes.", due);
}

#[test]
fn a_variable_width_in_a_cell_between_bars() {
    let due: (_, _, &[_]) = (
        "cell 7 (line 12): `Sum`, 16 bits; this line: `variable`",
        "     ^^^^^^^^ not fixed",
        &["a `variable` field has a row of its own between `:`"],
    );
    line_told(7, &[(SUM, "Sum: variable.")], "Sum: variable.", due);
}

#[test]
fn a_name_unlike_its_cell() {
    let due: (_, _, &[_]) = (
        "cell 4 (line 6): `Blade`, 8 bits; this line: `Blades`",
        "^^^^^^ another name than its cell shows",
        &[SHOWS],
    );
    line_told(7, &[(BLADE_LINE, "Blades: 1 byte.")], "Blades: 1 byte.", due);
}

#[test]
fn lines_in_another_order_than_cells() {
    let page = with(&[(&format!("{VERSION}\n{ON_LOAN}\n"), &format!("{ON_LOAN}\n{VERSION}\n"))]);
    let due: (_, _, &[_]) = (
        "cell 1 (line 6): `V`, 2 bits; this line: `On Loan` (`L`)",
        "^^^^^^^^^^^ another name than its cell shows",
        &["cell 2 (line 6) shows this field: cells and lines have one order", SHOWS],
    );
    let also = "also: page.txt:18:1: error[7]: cell 2 (line 6): `L`, 1 bit; this line: `Version` (`V`)\n";
    told(page, 7, 17, &(due_at(7, 17, ON_LOAN, due) + also));
}

#[test]
fn a_line_or_a_cell_too_many() {
    let due: (_, _, &[_]) =
        ("no cell for field line 8", "^^^^^^^^^^^^^^ no cell", &["there are 7 cells and 8 field lines"]);
    line_told(7, &[(SUM, "Sum: 2 bytes.\nExtra: 1 byte.")], "Extra: 1 byte.", due);
    let due: (_, _, &[_]) = (
        "no field line for cell 7 (line 12): `Sum`, 16 bits",
        "^ a field line is missing here",
        &["there are 7 cells and 6 field lines"],
    );
    told(with(&[("Sum: 2 bytes.\n", "")]), 7, 23, &due_at(7, 23, "", due));
    let due: (_, _, &[_]) = (
        "cell 4 (line 6): `Blade`, 8 bits; this line: `Borrower` (`Bor`)",
        "^^^^^^^^^^^^^^ another name than its cell shows",
        &[
            "cell 5 (line 8) shows this field: cells and lines have one order",
            "there are 7 cells and 6 field lines",
            SHOWS,
        ],
    );
    line_told(7, &[("Blade: 1 byte.\n", "")], BORROWER, due);
}

#[test]
fn wrong_types() {
    let line = "Version (V): 2 bits; V.";
    let due: (_, _, &[_]) = (
        "a constraint is yes or no, found `V`, which is a number",
        "                     ^ this is a number",
        &["compare it with a number, as in `V != 0`"],
    );
    line_told(9, &[(VERSION, line)], line, due);
    let line = "Borrower (Bor): 2 bytes; present only when L == 1 && (N + 1).";
    let due: (_, _, &[_]) = (
        "`&&` takes yes or no, found `(N + 1)`, which is a number",
        "                                                     ^^^^^^^ this is a number",
        &["compare it with a number, as in `(N + 1) != 0`"],
    );
    line_told(9, &[(BORROWER, line)], line, due);
    let line = "Readings: (L == 1) * N bytes.";
    let due: (_, _, &[_]) = (
        "`*` takes numbers, found `(L == 1)`, which is yes or no",
        "          ^^^^^^^^ this is yes or no",
        &["a comparison is no number: nothing is reckoned with it"],
    );
    line_told(9, &[(READINGS, line)], line, due);
}

#[test]
fn fields_behind_the_rest_field() {
    let rest = (READINGS, "Readings: variable.");
    let note: &[_] =
        &["one field is `variable` at most; behind it stand only fields of fixed width without a condition"];
    let line = "Sum: 2 bytes; present only when L == 1.";
    let due = (
        "a condition behind the `variable` field, which is on line 22",
        "                                ^^^^^^ line 22 is `variable`",
        note,
    );
    line_told(10, &[rest, (SUM, line)], line, due);
    let row = ("|             Sum               |", ":             Sum               :");
    let due = (
        "a measured width behind the `variable` field, which is on line 22",
        "     ^^^^^^^ line 22 is `variable`",
        note,
    );
    line_told(10, &[rest, row, (SUM, "Sum: N bytes.")], "Sum: N bytes.", due);
    let due = ("a second `variable` field, which is on line 22", "     ^^^^^^^^ line 22 is `variable`", note);
    line_told(10, &[rest, row, (SUM, "Sum: variable.")], "Sum: variable.", due);
}
