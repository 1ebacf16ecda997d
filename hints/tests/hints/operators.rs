//! Division, remainder and power: what is told of them in pages and packets.

use crate::common::{form_told, line_told, BLADE_LINE, BORROWER, CELLS, READINGS};
use crate::packets::{flagged, told, PRESENT};

#[test]
fn signs_and_words_of_other_languages() {
    let no_operator = |line: &str, sign: &str, caret: &str, mend: &str| {
        form_told(READINGS, line, &format!("`{sign}` is no operator"), caret, &[mend]);
    };
    no_operator("Readings: 2**N bytes.", "**", "           ^^ no such operator", "did you mean `^`?");
    no_operator("Readings: 2^^N bytes.", "^^", "           ^^ no such operator", "did you mean `^`?");
    no_operator("Readings: N // 2 bytes.", "//", "            ^^ no such operator", "did you mean `/`?");
    no_operator("Readings: N%%2 bytes.", "%%", "           ^^ no such operator", "did you mean `%`?");
    let mend = ["did you mean `%`?"];
    form_told(
        CELLS,
        "Cells (N): 5 bits; (N mod 2) == 0.",
        "expected an operator, `)`, found `mod`",
        "                      ^^^ no operator",
        &mend,
    );
    form_told(
        CELLS,
        "Cells (N): 5 bits; N % == 0.",
        "expected a number, a name or `(`, found `=`",
        "                       ^ expected an operand",
        &[],
    );
    form_told(
        READINGS,
        "Readings: N / -2 bytes.",
        "expected a number, a name or `(`, found `-`",
        "              ^ expected an operand",
        &["there are no negative numbers"],
    );
}

#[test]
fn powers_that_are_too_deep() {
    let line = "Readings: N^1^1^1^1^1^1^1^1^1^1^1^1 bytes.";
    let due: (_, _, &[_]) = (
        "the width is too large: depth 13, at most 12",
        "          ^^^^^^^^^^^^^^^^^^^^^^^^^ depth 13, at most 12",
        &["a number or name has depth 1, an operator 1 more than its deeper operand"],
    );
    line_told(6, &[(READINGS, line)], line, due);
}

#[test]
fn a_power_is_no_fixed_width() {
    let line = "Borrower (Bor): 2^4 bits; present only when L == 1.";
    let due: (_, _, &[_]) = (
        "cell 5 (line 8): `Borrower`, 16 bits; this line: `2^4 bits`",
        "                ^^^^^^^^ not fixed",
        &["a calculated width is never fixed: write `16 bits`"],
    );
    line_told(7, &[(BORROWER, line)], line, due);
    let line = "Blade: 17 / 2 bits.";
    let due: (_, _, &[_]) = (
        "cell 4 (line 6): `Blade`, 8 bits; this line: `17 / 2 bits`",
        "       ^^^^^^^^^^^ not fixed",
        &["a calculated width is never fixed: write `8 bits`"],
    );
    line_told(7, &[(BLADE_LINE, line)], line, due);
}

#[test]
fn operands_and_results_of_a_wrong_type() {
    let line = "Cells (N): 5 bits; N % 2.";
    let due: (_, _, &[_]) = (
        "a constraint is yes or no, found `N % 2`, which is a number",
        "                   ^^^^^ this is a number",
        &["compare it with a number, as in `N % 2 != 0`"],
    );
    line_told(9, &[(CELLS, line)], line, due);
    let line = "Readings: 2^(N == 1) bytes.";
    let due: (_, _, &[_]) = (
        "`^` takes numbers, found `(N == 1)`, which is yes or no",
        "            ^^^^^^^^ this is yes or no",
        &["a comparison is no number: nothing is reckoned with it"],
    );
    line_told(9, &[(READINGS, line)], line, due);
}

/// `F` is 1 and `C` is 0.
const NONE: [[u32; 4]; 2] = [[1, 0, 8, 1], [1, 8, 8, 0]];
/// `8 / C` and `F % (C * 2)`, stored.
const EIGHT_BY_C: [u8; 8] = [0x13, 1, 8, 0, 0, 0, 2, 1];
const F_BY_TWICE_C: [u8; 11] = [0x14, 2, 0, 0x12, 2, 1, 1, 2, 0, 0, 0];

#[test]
fn a_zero_divisor() {
    let due = "\
error[29]: the width of `Data` divides by zero: `8 / C` is 8 / 0
 --> packet.bin, field 3: Data
 = note: the width is `8 / C`
 = note: `C` (Count) is 0
 = note: let this field be `present only when C != 0`
";
    let rest = [&[8, 0, 8, 0][..], &EIGHT_BY_C, &[0, 0, 0, 0]].concat();
    told(&flagged(13, &rest), &[1, 0], &NONE, (29, 3), due);
    let due = "\
error[29]: the condition of `Data` divides by zero: `F % (C * 2)` is 1 % 0
 --> packet.bin, field 3: Data
 = note: the condition is `F % (C * 2) == 0`
 = note: `F` (Flag) is 1, `C` (Count) is 0
 = note: write `present only when C * 2 != 0 && F % (C * 2) == 0`
";
    let rest = [&[8, 0, 0, 0, 17, 0, 0x20][..], &F_BY_TWICE_C, &[1, 0, 0, 0, 0]].concat();
    told(&flagged(12, &rest), &[1, 0], &NONE, (29, 3), due);
    let due = "\
error[29]: the constraint of `Data` divides by zero: `8 / C` is 8 / 0
 --> packet.bin, field 3: Data
 = note: the constraint is `8 / C > D`
 = note: `C` (Count) is 0, `D` (Data) is 5
 = note: write `C != 0 && 8 / C > D`
";
    let rest = [&[8, 0, 11, 0, 0x24][..], &EIGHT_BY_C, &[2, 2, 0, 0]].concat();
    told(&flagged(12, &rest), &[1, 0, 5], &NONE, (29, 3), due);
    let due = "\
error[29]: the width of `Data` divides by zero: `C / 0` is 1 / 0
 --> packet.bin, field 3: Data
 = note: the width is `C / 0`
 = note: `C` (Count) is 1
 = note: the divisor is 0 in every packet
";
    told(&flagged(13, &[8, 0, 8, 0, 0x13, 2, 1, 1, 0, 0, 0, 0, 0, 0, 0, 0]), &[1, 1], &PRESENT, (29, 3), due);
}

/// A fault of an operand goes before a zero divisor.
#[test]
fn an_operand_of_a_zero_divisor() {
    let due = "\
error[27]: the width of `Data` leaves the range: `C - 2` is 1 - 2, below 0
 --> packet.bin, field 3: Data
 = note: the width is `(C - 2) / 0`
 = note: `C` (Count) is 1
 = note: let this field be `present only when C >= 2`
";
    let width = [0x13, 0x11, 2, 1, 1, 2, 0, 0, 0, 1, 0, 0, 0, 0];
    let rest = [&[8, 0, 14, 0][..], &width, &[0, 0, 0, 0]].concat();
    told(&flagged(13, &rest), &[1, 1], &PRESENT, (27, 3), due);
}

#[test]
fn a_power_out_of_range() {
    let due = "\
error[27]: the width of `Data` leaves the range: `2 ^ (C + 31)` is 2 ^ 32, over 4,294,967,295
 --> packet.bin, field 3: Data
 = note: the width is `2 ^ (C + 31)`
 = note: `C` (Count) is 1
 = note: keep `C` small by a constraint
";
    let width = [0x15, 1, 2, 0, 0, 0, 0x10, 2, 1, 1, 31, 0, 0, 0];
    let rest = [&[1, 0, 14, 0][..], &width, &[0, 0, 0, 0]].concat();
    told(&flagged(13, &rest), &[1, 1], &PRESENT, (27, 3), due);
}

/// Powers are written without parentheses on the right, and with them on the left.
#[test]
fn powers_written_out() {
    let rule = |code: [u8; 2], left_first: bool| {
        let (two, f, c) = ([1, 2, 0, 0, 0], [2, 0], [2, 1]);
        let power = match left_first {
            true => [&code[..], &two, &f, &c].concat(),
            false => [&code[..1], &two, &code[1..], &f, &c].concat(),
        };
        let tree = [&[0x22][..], &power, &[2, 2]].concat();
        [&[8, 0, tree.len() as u8, 0][..], &tree, &[0, 0]].concat()
    };
    let written = |rest: &[u8], constraint: &str| {
        let message = format!("error[25]: the constraint of `Data` does not hold: `{constraint}`");
        let notes = " = note: `F` (Flag) is 1, `C` (Count) is 1, `D` (Data) is 0\n";
        let due = format!("{message}\n --> packet.bin, field 3: Data\n{notes}");
        told(&flagged(12, rest), &[1, 1, 0], &PRESENT, (25, 3), &due);
    };
    written(&rule([0x15, 0x15], false), "2 ^ F ^ C < D");
    written(&rule([0x15, 0x15], true), "(2 ^ F) ^ C < D");
    written(&rule([0x13, 0x13], true), "2 / F / C < D");
    written(&rule([0x13, 0x13], false), "2 / (F / C) < D");
    written(&rule([0x12, 0x14], false), "2 * (F % C) < D");
    written(&rule([0x12, 0x15], false), "2 * F ^ C < D");
}
