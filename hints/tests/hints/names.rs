//! Numbers 5, 8 and 9: names that two lines share, names that may not be read, and labels that cannot be.

use crate::common::{form_told, line_told, BLADE_LINE, BORROWER, CELLS, ON_LOAN, READINGS, SUM, VERSION};

const READABLE: &str =
    "may be read here: `Version` (`V`), `L`, `Cells` (`N`), `Blade` and `Borrower` (`Bor`)";
const SHORTS: &str =
    "a short name is a letter and up to 7 letters or digits, and none of `bit`, `bits`, `byte`, \
                      `bytes`, `variable`, `present`";
const EITHER: &str = "no label or short name of a field is either name of another";

/// The row of `Sum`, with another name.
fn sum_row(name: &str) -> (&'static str, String) {
    ("|             Sum               |", format!("|{name:^31}|"))
}

#[test]
fn names_of_one_sort_that_two_lines_share() {
    let (from, to) = sum_row("Blade");
    let due: (_, _, &[_]) = (
        "the label `Blade` is the label of line 20 already",
        "^^^^^ first on line 20",
        &["choose another label; large and small letters count"],
    );
    line_told(8, &[(from, &to), (SUM, "Blade: 2 bytes.")], "Blade: 2 bytes.", due);
    let line = "Borrower (L): 2 bytes; present only when L == 1.";
    let due: (_, _, &[_]) = (
        "the short name `L` is the short name of line 18 already",
        "          ^ first on line 18",
        &["choose another short name; large and small letters count"],
    );
    line_told(8, &[(BORROWER, line)], line, due);
}

#[test]
fn a_label_and_a_short_name_that_are_alike() {
    let (from, to) = sum_row("Bor");
    let due: (_, _, &[_]) = (
        "the label `Bor` is the short name of line 21 already",
        "^^^ first on line 21",
        &[EITHER, "choose another label; large and small letters count"],
    );
    line_told(8, &[(from, &to), (SUM, "Bor (S): 2 bytes.")], "Bor (S): 2 bytes.", due);
    let due: (_, _, &[_]) = (
        "the short name `Cells` is the label of line 19 already",
        "     ^^^^^ first on line 19",
        &[EITHER, "choose another short name; large and small letters count"],
    );
    line_told(8, &[(SUM, "Sum (Cells): 2 bytes.")], "Sum (Cells): 2 bytes.", due);
}

#[test]
fn one_word_as_both_names_clashes_with_others_alone() {
    let changes = [(BLADE_LINE, "Blade (Blade): 1 byte."), (SUM, "Sum (Blade): 2 bytes.")];
    let due: (_, _, &[_]) = (
        "the short name `Blade` is the label of line 20 already",
        "     ^^^^^ first on line 20",
        &[EITHER, "choose another short name; large and small letters count"],
    );
    line_told(8, &changes, "Sum (Blade): 2 bytes.", due);
}

#[test]
fn unknown_names() {
    let due: (_, _, &[_]) = ("no field has the name `M`", "          ^ no such name", &[READABLE]);
    line_told(9, &[(READINGS, "Readings: M bytes.")], "Readings: M bytes.", due);
    let near = |readings: &str, message: &str, carets: &str, mend: &str| {
        let caret = format!("          {carets} no such name");
        line_told(9, &[(READINGS, readings)], readings, (message, &caret, &[mend, READABLE]));
    };
    near("Readings: Bro bytes.", "no field has the name `Bro`", "^^^", "did you mean `Bor`?");
    near("Readings: n bytes.", "no field has the name `n`", "^", "did you mean `N`?");
    near("Readings: Cell bytes.", "no field has the name `Cell`", "^^^^", "did you mean `Cells`?");
    near("Readings: blade bytes.", "no field has the name `blade`", "^^^^^", "did you mean `Blade`?");
    let line = "Version (V): 2 bits; present only when X == 1.";
    let due: (_, _, &[_]) = (
        "no field has the name `X`",
        "                                       ^ no such name",
        &["no name may be read here: no earlier field of fixed width has one"],
    );
    line_told(9, &[(VERSION, line)], line, due);
}

#[test]
fn names_of_later_fields() {
    let line = "On Loan (L): 1 bit; present only when N > 0.";
    let due: (_, _, &[_]) = (
        "`N` is the short name of line 19, which comes later: only earlier fields may be read",
        "                                      ^ cannot be read here",
        &["may be read here: `Version` (`V`)"],
    );
    line_told(9, &[(ON_LOAN, line)], line, due);
    let due: (_, _, &[_]) = (
        "`Sum` is the label of line 23, which comes later: only earlier fields may be read",
        "          ^^^ cannot be read here",
        &[READABLE],
    );
    line_told(9, &[(READINGS, "Readings: Sum bytes.")], "Readings: Sum bytes.", due);
}

#[test]
fn a_line_s_own_names() {
    let line = "On Loan (L): 1 bit; present only when L > 0.";
    let due: (_, _, &[_]) = (
        "`L` is the short name of this line: only its constraint may read it",
        "                                      ^ cannot be read here",
        &["may be read here: `Version` (`V`)"],
    );
    line_told(9, &[(ON_LOAN, line)], line, due);
    let line = "Cells (N): 5 bits; present only when Cells > 0.";
    let due: (_, _, &[_]) = (
        "`Cells` is the label of this line: only its constraint may read it",
        "                                     ^^^^^ cannot be read here",
        &["may be read here: `Version` (`V`) and `L`"],
    );
    line_told(9, &[(CELLS, line)], line, due);
}

#[test]
fn names_of_fields_without_a_value() {
    let of_sum =
        "may be read here: `Version` (`V`), `L`, `Cells` (`N`), `Blade`, `Borrower` (`Bor`) and `Sum`";
    let measured = "which has a measured width: it has no value to read";
    let rest = "which is `variable`: it has no value to read";
    for (readings, why) in [("Readings (R): N bytes.", measured), ("Readings (R): variable.", rest)] {
        let short = format!("`R` is the short name of line 22, {why}");
        let due: (&str, _, &[_]) = (&short, "              ^ cannot be read here", &[of_sum]);
        line_told(9, &[(READINGS, readings), (SUM, "Sum: 2 bytes; R == 0.")], "Sum: 2 bytes; R == 0.", due);
        let label = format!("`Readings` is the label of line 22, {why}");
        let line = "Sum: 2 bytes; Readings == 0.";
        let due: (&str, _, &[_]) = (&label, "              ^^^^^^^^ cannot be read here", &[of_sum]);
        line_told(9, &[(READINGS, readings), (SUM, line)], line, due);
    }
    let line = "Readings: N bytes; Readings == 0.";
    let own = "`Readings` is the label of this line, which has a measured width: it has no value to read";
    line_told(
        9,
        &[(READINGS, line)],
        line,
        (own, "                   ^^^^^^^^ cannot be read here", &[READABLE]),
    );
}

#[test]
fn labels_without_the_form_of_a_short_name() {
    form_told(
        BORROWER,
        "Borrower (Bor): 2 bytes; present only when On Loan == 1.",
        "`On Loan` is the label of line 18, but has not the form of a short name",
        "                                           ^^^^^^^ cannot be read",
        &["its field is read by its short name, `L`", SHORTS],
    );
    form_told(
        READINGS,
        "Readings: On Loan bytes.",
        "`On Loan` is the label of line 18, but has not the form of a short name",
        "          ^^^^^^^ cannot be read",
        &["its field is read by its short name, `L`", SHORTS],
    );
    let row = ("|     Blade     |", "|  Blade Number |");
    for (label, shown) in
        [("Blade Number", "  Blade Number "), ("BladeNumber", "  BladeNumber  "), ("byte", "byte           ")]
    {
        let line = format!("Readings: {label} bytes.");
        let message = format!("`{label}` is the label of line 20, but has not the form of a short name");
        let carets = format!("          {} cannot be read", "^".repeat(label.len()));
        let mend = format!("its field needs a short name to be read: `{label} (Short)`");
        let changes =
            [(row.0, &*format!("|{shown}|")), (BLADE_LINE, &*format!("{label}: 1 byte.")), (READINGS, &line)];
        line_told(5, &changes, &line, (&message, &carets, &[&mend, SHORTS]));
    }
}

/// A row of the blade report with another label for `Blade`, and its line.
fn blade_called(label: &str) -> [(&'static str, String); 2] {
    [("|     Blade     |", format!("|{label:^15}|")), (BLADE_LINE, format!("{label}: 1 byte."))]
}

#[test]
fn labels_that_begin_at_an_earlier_operand() {
    let [row, blade] = blade_called("Hop-No Left");
    for line in [
        "Readings: 2 * (N - Hop-No Left) bytes.",
        "Readings: N bytes; Hop-No Left > 0.",
        "Readings: N bytes; present only when L == 1 && Hop-No Left > 0.",
    ] {
        let changes = [(row.0, &*row.1), (blade.0, &*blade.1), (READINGS, line)];
        let message = "`Hop-No Left` is the label of line 20, but has not the form of a short name";
        let caret = format!("{}^^^^^^^^^^^ cannot be read", " ".repeat(line.find("Hop").unwrap()));
        let mend = "its field needs a short name to be read: `Hop-No Left (Short)`";
        line_told(5, &changes, line, (message, &caret, &[mend, SHORTS]));
    }
}

#[test]
fn labels_that_stand_where_no_operand_begins() {
    form_told(
        BLADE_LINE,
        "Blade: 1 byte.On Loan or not",
        "expected a space before the remark, found `On`",
        "              ^ expected a space before the remark",
        &["behind the full stop comes nothing, or a space and a remark"],
    );
    form_told(
        VERSION,
        "Version (V): 2 bits;On Loan == 1.",
        "expected a space behind `;`, found `On`",
        "                    ^ expected a space behind `;`",
        &[],
    );
    form_told(
        CELLS,
        "Cells (N): 5 bits; N <= 20; On Loan == 1.",
        "expected `present only when `, found `On`",
        "                            ^ expected `present only when `",
        &["a line has one constraint at most: join two with `&&`"],
    );
    form_told(
        READINGS,
        "Readings: N On Loan bytes.",
        "expected `bit`, `bits`, `byte` or `bytes`, found `On`",
        "            ^^ no unit",
        &["a name in an expression is one word, and an operator stands between operands"],
    );
}

#[test]
fn a_unit_is_no_label() {
    let [row, blade] = blade_called("bytes");
    let line = "Readings: (N bytes.";
    let due: (_, _, &[_]) =
        ("expected an operator, `)`, found `bytes`", "             ^^^^^ no operator", &[]);
    line_told(5, &[(row.0, &row.1), (blade.0, &blade.1), (READINGS, line)], line, due);
    let line = "Readings: N bits bytes.";
    let due: (_, _, &[_]) = (
        "expected `;` or `.`, found a space and `bytes`",
        "                ^ expected `;` or `.`",
        &["a remark stands behind the full stop"],
    );
    line_told(5, &[(row.0, &row.1), (blade.0, &blade.1), (READINGS, line)], line, due);
    let [row, blade] = blade_called("M bytes");
    let line = "Readings: M bytes.";
    let due: (_, _, &[_]) = (
        "no field has the name `M`",
        "          ^ no such name",
        &["may be read here: `Version` (`V`), `L`, `Cells` (`N`) and `Borrower` (`Bor`)"],
    );
    line_told(9, &[(row.0, &row.1), (blade.0, &blade.1), (READINGS, line)], line, due);
}

#[test]
fn a_label_with_a_hyphen_is_taken_for_a_difference() {
    let line = "Readings: Blade-Number bytes.";
    let changes =
        [("|     Blade     |", "|  Blade-Number |"), (BLADE_LINE, "Blade-Number: 1 byte."), (READINGS, line)];
    let due: (_, _, &[_]) = (
        "no field has the name `Blade`",
        "          ^^^^^ no such name",
        &[
            "`Blade-Number`, the label of line 20, has not the form of a short name",
            "may be read here: `Version` (`V`), `L`, `Cells` (`N`) and `Borrower` (`Bor`)",
        ],
    );
    line_told(9, &changes, line, due);
}

#[test]
fn words_that_are_no_label() {
    form_told(
        READINGS,
        "Readings: NumberOfCells bytes.",
        "`NumberOfCells` has not the form of a short name: 13 characters, at most 8",
        "          ^^^^^^^^^^^^^ 13 characters, at most 8",
        &[SHORTS],
    );
    form_told(
        BORROWER,
        "Borrower (Bor): 2 bytes; present only when On == 1 Loan.",
        "expected an operator, `.`, found `Loan`",
        "                                                   ^^^^ no operator",
        &[],
    );
}
