//! Number 5: expressions.

use crate::common::{form_told, BORROWER, CELLS, VERSION};

#[test]
fn wrong_operators() {
    form_told(
        VERSION,
        "Version (V): 2 bits; V = 1.",
        "`=` is no operator",
        "                       ^ no such operator",
        &["did you mean `==`?"],
    );
    form_told(
        BORROWER,
        "Borrower (Bor): 2 bytes; present only when L == 1 & N > 0.",
        "`&` is no operator",
        "                                                  ^ no such operator",
        &["did you mean `&&`?"],
    );
    form_told(
        CELLS,
        "Cells (N): 5 bits; N => 20.",
        "`=>` is no operator",
        "                     ^^ no such operator",
        &["did you mean `>=`?"],
    );
    form_told(
        CELLS,
        "Cells (N): 5 bits; 1 <= N <= 20.",
        "a second comparison: only one stands between `&&`, `||` and parentheses",
        "                          ^^ the second comparison",
        &["join two comparisons with `&&`, as in `1 <= N && N <= 20`"],
    );
}

#[test]
fn wrong_numbers() {
    form_told(
        VERSION,
        "Version (V): 2 bits; V == 0x1.",
        "`0x1` is no number: numbers are decimal",
        "                          ^^^ numbers are decimal",
        &["did you mean `1`?"],
    );
    form_told(
        VERSION,
        "Version (V): 2 bits; V == 01.",
        "the number `01` begins with 0",
        "                          ^^ no leading zeros",
        &["did you mean `1`?"],
    );
    form_told(
        VERSION,
        "Version (V): 2 bits; V < 4294967296.",
        "the number `4294967296` is over 4,294,967,295",
        "                         ^^^^^^^^^^ at most 4,294,967,295",
        &[],
    );
    form_told(
        VERSION,
        "Version (V): 2 bits; V > -1.",
        "expected a number, a name or `(`, found `-`",
        "                         ^ expected an operand",
        &["there are no negative numbers"],
    );
    let several = "give the bits to several fields; if the length differs, measure it by a field: `N bytes`";
    form_told(
        "Sum: 2 bytes.",
        "Sum: 5 bytes.",
        "a fixed width is 1 to 32 bits, found 40 bits",
        "     ^^^^^^^ 1 to 32 bits",
        &[several],
    );
}

#[test]
fn words_and_signs_of_other_languages() {
    let no_operator = |line: &str, sign: &str, caret: &str, mend: &[&str]| {
        form_told(CELLS, line, &format!("`{sign}` is no operator"), caret, mend);
    };
    let mends = ["did you mean `&&`?", "did you mean `!(`?", "did you mean `!=`?"];
    form_told(
        CELLS,
        "Cells (N): 5 bits; N <= 20 and L == 1.",
        "expected an operator, `;` or `.`, found `and`",
        "                           ^^^ no operator",
        &mends[..1],
    );
    no_operator(
        "Cells (N): 5 bits; not(N > 20).",
        "not(",
        "                   ^^^^ no such operator",
        &mends[1..2],
    );
    no_operator("Cells (N): 5 bits; N <> 20.", "<>", "                     ^^ no such operator", &mends[2..]);
    no_operator("Cells (N): 5 bits; N << 1 == 2.", "<<", "                     ^^ no such operator", &[]);
    form_told(
        CELLS,
        "Cells (N): 5 bits; N <= 1,000.",
        "`1,000` is no number: a number is digits alone",
        "                        ^^^^^ digits alone",
        &[],
    );
}

#[test]
fn parentheses() {
    form_told(
        VERSION,
        "Version (V): 2 bits; (V == 1.",
        "expected `)`, found `.`",
        "                            ^ expected `)`",
        &[],
    );
    form_told(
        VERSION,
        "Version (V): 2 bits; ( V == 1).",
        "a space too many",
        "                      ^ a space too many",
        &["one space at most stands on each side of an operator, none inside parentheses"],
    );
    form_told(
        VERSION,
        "Version (V): 2 bits; ((((((((((((( V == 1))))))))))))).",
        "over 12 parentheses open at once: this is the 13th",
        "                                 ^ the 13th open parenthesis",
        &[],
    );
    form_told(
        VERSION,
        "Version (V): 2 bits; !V == 1.",
        "expected a number, a name or `(`, found `!`",
        "                     ^ expected an operand",
        &["`!` has its operand in parentheses: `!(..)`"],
    );
}
