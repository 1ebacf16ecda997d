//! Number 3: lines that are too long.

use crate::common::{told, with, SUM};

/// A line made so long by a remark of this character.
fn long(line: &str, bytes: usize, remark: char) -> String {
    format!("{line} {}", String::from(remark).repeat(bytes - line.len() - 1))
}

#[test]
fn a_field_line() {
    let shown = "x".repeat(80);
    let due = format!(
        "\
error[3]: the line has 1,025 bytes, at most 1,024
   --> page.txt:23:1025
   |
23 | ..{shown}x
   |   {}^ 1 byte too many
   |
   = note: a remark counts too: shorten it
",
        " ".repeat(80)
    );
    told(with(&[(SUM, &long(SUM, 1_025, 'x'))]), 3, 23, &due);
}

#[test]
fn two_lines_and_what_else_is_wrong() {
    let (shown, carets) = ("-".repeat(160), "^".repeat(80 + 2));
    let due = format!(
        "\
error[3]: the line has 4,000 bytes, at most 1,024
   --> page.txt:20:1025
   |
20 | ..{shown}..
   |   {}{carets} 2,976 bytes too many
   |
   = note: a remark counts too: shorten it
also: page.txt:17:24: error[5]: `=` is no operator
also: page.txt:23:1025: error[3]: the line has 1,030 bytes, at most 1,024
",
        " ".repeat(80)
    );
    let page = with(&[
        ("Blade: 1 byte.", &long("Blade: 1 byte.", 4_000, '-')),
        (SUM, &long(SUM, 1_030, 'x')),
        ("V == 1", "V = 1"),
    ]);
    told(page, 3, 20, &due);
}

#[test]
fn a_line_above_the_field_lines() {
    let blanks = " ".repeat(1_100);
    let due = format!(
        "\
error[3]: blanks at the end of the line
   --> page.txt:15:7
   |
15 | where:{}..
   |       {} blanks at the end of the line
",
        " ".repeat(154),
        "^".repeat(156)
    );
    told(with(&[("where:", &format!("where:{blanks}"))]), 3, 15, &due);
}
