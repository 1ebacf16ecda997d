//! Number 2, and the lengths 1 and 4.

use crate::common::{told, with, BLADE};

const ALLOWED: &str = "a page has the characters from space to `~` and LF line ends, no others";

#[test]
fn a_tab() {
    let due = "\
error[2]: this character is not allowed: tab (0x09)
   --> page.txt:20:7
   |
20 | Blade:?1 byte.
   |       ^ tab
   |
   = note: write spaces
   = note: ";
    told(with(&[("Blade: 1", "Blade:\t1")]), 2, 0, &format!("{due}{ALLOWED}\n"));
}

#[test]
fn cr_lf_at_every_line_once() {
    let due = "\
error[2]: every line ends in CR LF
  --> page.txt:1:40
  |
1 | A Blade Report is formatted as follows:?
  |                                        ^ CR
  |
  = note: let lines end in LF alone: save the page with Unix line ends
  = note: ";
    told(BLADE.replace('\n', "\r\n"), 2, 0, &format!("{due}{ALLOWED}\n"));
    let wrong = with(&[("V == 1", "V = 1")]).replace('\n', "\r\n");
    let also = "also: page.txt:17:24: error[5]: `=` is no operator\n";
    told(wrong, 2, 0, &format!("{due}{ALLOWED}\n{also}"));
}

#[test]
fn cr_lf_at_some_lines_once() {
    let due = "\
error[2]: 2 of 23 lines end in CR LF
   --> page.txt:18:20
   |
18 | On Loan (L): 1 bit.?
   |                    ^ CR
   |
   = note: let lines end in LF alone: save the page with Unix line ends
   = note: ";
    let page = with(&[("1 bit.\n", "1 bit.\r\n"), ("1 byte.\n", "1 byte.\r\n")]);
    told(page, 2, 0, &format!("{due}{ALLOWED}\n"));
}

#[test]
fn a_byte_order_mark() {
    let due = "\
error[2]: this character is not allowed: byte order mark (U+FEFF)
  --> page.txt:1:1
  |
1 | ???A Blade Report is formatted as follows:
  | ^^^ byte order mark
  |
  = note: save the page without a byte order mark
  = note: ";
    told(format!("\u{FEFF}{BLADE}"), 2, 0, &format!("{due}{ALLOWED}\n"));
    let page = format!("\u{FEFF}{}", with(&[("follows:", "follows")]));
    let also = "also: page.txt:1:42: error[3]: expected `A NAME is formatted as follows:`, \
                found the end of the line\n";
    told(page, 2, 0, &format!("{}{ALLOWED}\n{also}", due.replace("follows:", "follows")));
}

#[test]
fn smart_quotes_and_no_break_spaces() {
    let due = "\
error[2]: this character is not allowed: left double quotation mark (U+201C)
   --> page.txt:18:25
   |
18 | On Loan (L): 1 bit. See ???loans???.
   |                         ^^^ left double quotation mark
   |
   = note: write `\"`
   = note: ";
    let also = "also: page.txt:20:7: error[2]: this character is not allowed: no-break space (U+00A0)\n";
    let page = with(&[("1 bit.", "1 bit. See \u{201C}loans\u{201D}."), ("Blade: 1", "Blade:\u{A0}1")]);
    told(page, 2, 0, &format!("{due}{ALLOWED}\n{also}"));
}

#[test]
fn nul_and_bytes_that_are_no_text() {
    let due = "\
error[2]: this character is not allowed: NUL (0x00)
   --> page.txt:23:14
   |
23 | Sum: 2 bytes.?
   |              ^ NUL
   |
   = note: take it out; if every second character is one, save the page as plain ASCII
   = note: ";
    told(with(&[("Sum: 2 bytes.", "Sum: 2 bytes.\0")]), 2, 0, &format!("{due}{ALLOWED}\n"));
    let due = "\
error[2]: the byte 0xE9 is not allowed
   --> page.txt:23:15
   |
23 | Sum: 2 bytes. ?t?
   |               ^ the byte 0xE9
   |
   = note: ";
    let page = [&BLADE.as_bytes()[..BLADE.len() - 1], b" \xE9t\xE9\n"].concat();
    told(page, 2, 0, &format!("{due}{ALLOWED}\n"));
}

#[test]
fn an_escape_sequence_is_not_sent_on() {
    let due = "\
error[2]: this character is not allowed: escape (0x1B)
   --> page.txt:23:15
   |
23 | Sum: 2 bytes. ?[31m
   |               ^ escape
   |
   = note: take it out
   = note: ";
    told(with(&[("Sum: 2 bytes.", "Sum: 2 bytes. \x1B[31m")]), 2, 0, &format!("{due}{ALLOWED}\n"));
}

#[test]
fn a_page_that_is_too_long() {
    let remark = "x".repeat(16_385 - BLADE.len() - 1);
    let due = "\
error[1]: the page has 16,385 bytes, at most 16,384
 --> page.txt
 = note: shorten the remarks behind the full stops
";
    told(with(&[("Sum: 2 bytes.", &format!("Sum: 2 bytes. {remark}"))]), 1, 0, due);
}

/// A page of so many cells and field lines, each of 8 bits.
fn long_page(cells: usize, lines: usize) -> String {
    const BORDER: &str = "+-+-+-+-+-+-+-+-+\n";
    let rows: String = (1..=cells).map(|cell| format!("|      F{cell:<3}     |\n{BORDER}")).collect();
    let fields: String = (1..=lines).map(|line| format!("F{line}: 1 byte.\n")).collect();
    format!(
        "A Long Page is formatted as follows:\n\n 0\n 0 1 2 3 4 5 6 7\n{BORDER}{rows}\nwhere:\n\n{fields}"
    )
}

#[test]
fn too_many_fields() {
    let due = "\
error[4]: 129 cells, at most 128
    --> page.txt:262:8
    |
262 | |      F129     |
    |        ^^^^ the 129th cell
    |
    = note: every line below `where:` counts as a field
";
    told(long_page(129, 129), 4, 0, due);
    let due = "\
error[4]: 130 field lines, at most 128
    --> page.txt:393:1
    |
393 | F129: 1 byte.
    | ^^^^^^^^^^^^^ the 129th field line
    |
    = note: every line below `where:` counts as a field
";
    told(long_page(128, 130), 4, 0, due);
}
