//! All that the command prints of refused packets, whole and written by hand.

mod common;

use common::*;

const M1_BEFORE_READINGS: &str = "\
read before the refusal:
  Version: 0 2 1
  On Loan: 2 1 1
  Cells: 3 5 2
  Blade: 8 8 7
  Borrower: 16 16 300
";
const M2_BEFORE_READINGS: &str = "\
read before the refusal:
  Version: 0 2 1
  On Loan: 2 1 0
  Cells: 3 5 2
  Blade: 8 8 7
  Borrower: absent
";
const PAGES: &str = include_str!("../../docs/PAGES.md");

/// The packet is refused by the page so, with this on standard error: of `bytes` too, but for the fields.
#[track_caller]
fn told(test: &str, page: &str, packet: &[u8], refused: &str, due: &str) {
    let place = Place::new(&format!("packet-{test}"));
    place.put("page", page);
    place.put("packet.bin", packet);
    place.run(&["read", "page", "packet.bin"]).left(1, &format!("{refused}\n"), due);
    let hint = due.split_once("read before").map_or(due, |(hint, _)| hint);
    place.run(&["bytes", "page", "packet.bin", "0"]).left(1, "", &format!("umarekoza: {refused}\n{hint}"));
}

fn with(from: &str, to: &str) -> String {
    assert_eq!(BLADE.matches(from).count(), 1, "{from}");
    BLADE.replace(from, to)
}

/// A page of 16 bits with a field `Count (C)` and a long one, whose line is given, and perhaps `Sum` behind it.
fn long_page(data: &str, sum: bool) -> String {
    const BORDER: &str = "+-+-+-+-+-+-+-+-+-+-+-+-+-+-+-+-+\n";
    let row = if sum { format!("|              Sum              |\n{BORDER}") } else { String::new() };
    let line = if sum { "Sum: 2 bytes.\n" } else { "" };
    format!(
        "A Trace is formatted as follows:\n\n 0                   1\n 0 1 2 3 4 5 6 7 8 9 0 1 2 3 4 5\n{BORDER}\
         |             Count             |\n{BORDER}:             Data              :\n{BORDER}{row}\n\
         where:\n\nCount (C): 2 bytes.\n{data}\n{line}"
    )
}

#[test]
fn bits_missing_24() {
    let due = "\
error[24]: `Sum` needs 16 bits from bit 48 on, 8 are left
 --> packet.bin, field 7: Sum
 = note: the packet has 7 bytes, 56 bits
";
    told("24", BLADE, &M1[..7], "refused 24 at 7", &format!("{due}{M1_BEFORE_READINGS}  Readings: 32 16\n"));
    let due = "\
error[24]: `Version` needs 2 bits from bit 0 on, none is left
 --> packet.bin, field 1: Version
 = note: the packet has 0 bytes, 0 bits
";
    told("24-empty", BLADE, &[], "refused 24 at 1", due);
    let due = "\
error[24]: `Readings` needs 16 bits from bit 32 on, 8 are left
 --> packet.bin, field 6: Readings
 = note: the packet has 5 bytes, 40 bits
 = note: its width is `N bytes`
 = note: `N` (Cells) is 2
";
    told("24-measured", BLADE, &M1[..5], "refused 24 at 6", &format!("{due}{M1_BEFORE_READINGS}"));
    let due = "\
error[24]: the fields behind `Data` need 16 bits from bit 16 on, 8 are left
 --> packet.bin, field 2: Data
 = note: the packet has 3 bytes, 24 bits
read before the refusal:
  Count: 0 16 1
";
    told("24-rest", &long_page("Data: variable.", true), &[0, 1, 2], "refused 24 at 2", due);
}

#[test]
fn bits_left_over_28() {
    let due = "\
error[28]: 8 bits are left over from bit 64 on: 1 byte
 --> packet.bin
 = note: the packet has 9 bytes, 72 bits; `Sum` is the last field that is present and ends at bit 64
 = note: a field of `variable` width takes what is left
";
    let fields = format!("{M1_BEFORE_READINGS}  Readings: 32 16\n  Sum: 48 16 9\n");
    let m4 = [&M1[..], &[0]].concat();
    told("28", BLADE, &m4, "refused 28 at 0", &format!("{due}{fields}"));
    let due = "\
error[28]: 3 bits are left over from bit 21 on: less than a byte
 --> packet.bin
 = note: the packet has 3 bytes, 24 bits; `Data` is the last field that is present and ends at bit 21
 = note: a field of `variable` width takes what is left
read before the refusal:
  Count: 0 16 5
  Data: 16 5
";
    told("28-bits", &long_page("Data: C bits.", false), &[0, 5, 0], "refused 28 at 0", due);
}

#[test]
fn a_packet_too_long_22() {
    let due = "\
error[22]: the packet has 8,192 bytes, at most 8,191
 --> packet.bin
 = note: see that it is one packet, and in bytes
";
    told("22", BLADE, &[0; 8192], "refused 22 at 0", due);
}

#[test]
fn constraints_25() {
    let due = "\
error[25]: the constraint of `Version` does not hold: `V == 1`
 --> packet.bin, field 1: Version
 = note: `V` (Version) is 0
";
    let m5 = [&[0x22], &M1[1..]].concat();
    told("25", BLADE, &m5, "refused 25 at 1", due);
    let due = "\
error[25]: the constraint of `Cells` does not hold: `N <= 20`
 --> packet.bin, field 3: Cells
 = note: `N` (Cells) is 21
read before the refusal:
  Version: 0 2 1
  On Loan: 2 1 0
";
    told("25-later", BLADE, &[0x55, 7], "refused 25 at 3", due);
    let due = "\
error[25]: the constraint of `Sum` does not hold: `N * 3 == Bor || V > 1`
 --> packet.bin, field 7: Sum
 = note: `N` (Cells) is 2, `Bor` (Borrower) is 300, `V` (Version) is 1
";
    let page = with("Sum: 2 bytes.", "Sum: 2 bytes; (N*3==Bor)||V>1.");
    told("25-all", &page, &M1, "refused 25 at 7", &format!("{due}{M1_BEFORE_READINGS}  Readings: 32 16\n"));
}

#[test]
fn absent_fields_26() {
    let due = "\
error[26]: the width of `Readings` reads `Bor`, which is absent: `Bor`
 --> packet.bin, field 6: Readings
 = note: `Bor` (Borrower) is absent
 = note: let this field be `present only when L == 1`
";
    let page = with("Readings: N bytes.", "Readings: Bor bytes.");
    told("26", &page, &M2, "refused 26 at 6", &format!("{due}{M2_BEFORE_READINGS}"));
    let fields = format!("{M2_BEFORE_READINGS}  Readings: 16 16\n");
    let due = "\
error[26]: the condition of `Sum` reads `Bor`, which is absent: `Bor > 0`
 --> packet.bin, field 7: Sum
 = note: `Bor` (Borrower) is absent
 = note: write `present only when L == 1 && Bor > 0`
";
    let page = with("Sum: 2 bytes.", "Sum: 2 bytes; present only when Bor > 0.");
    told("26-when", &page, &M2, "refused 26 at 7", &format!("{due}{fields}"));
    let due = "\
error[26]: the constraint of `Sum` reads `Bor`, which is absent: `Bor == 300`
 --> packet.bin, field 7: Sum
 = note: `Bor` (Borrower) is absent
 = note: write `!(L == 1) || Bor == 300`
";
    let page = with("Sum: 2 bytes.", "Sum: 2 bytes; Bor == 300.");
    told("26-constraint", &page, &M2, "refused 26 at 7", &format!("{due}{fields}"));
}

#[test]
fn numbers_out_of_range_27() {
    let due = "\
error[27]: the width of `Readings` leaves the range: `N - 3` is 2 - 3, below 0
 --> packet.bin, field 6: Readings
 = note: the width is `N - 3`
 = note: `N` (Cells) is 2
 = note: let this field be `present only when N >= 3`
";
    let page = with("Readings: N bytes.", "Readings: N - 3 bytes.");
    told("27", &page, &M1, "refused 27 at 6", &format!("{due}{M1_BEFORE_READINGS}"));
    let fields = format!("{M1_BEFORE_READINGS}  Readings: 32 16\n");
    let due = "\
error[27]: the condition of `Sum` leaves the range: `N - 3` is 2 - 3, below 0
 --> packet.bin, field 7: Sum
 = note: the condition is `N - 3 == 0`
 = note: `N` (Cells) is 2
 = note: write `present only when N >= 3 && N - 3 == 0`
";
    let page = with("Sum: 2 bytes.", "Sum: 2 bytes; present only when N - 3 == 0.");
    told("27-when", &page, &M1, "refused 27 at 7", &format!("{due}{fields}"));
    let due = "\
error[27]: the constraint of `Sum` leaves the range: `S * 4294967295` is 9 * 4294967295, over 4,294,967,295
 --> packet.bin, field 7: Sum
 = note: the constraint is `S * 4294967295 > N`
 = note: `S` (Sum) is 9, `N` (Cells) is 2
 = note: keep `S` small by a constraint
";
    let page = with("Sum: 2 bytes.", "Sum (S): 2 bytes; S * 4294967295 > N.");
    told("27-constraint", &page, &M1, "refused 27 at 7", &format!("{due}{fields}"));
}

#[test]
fn zero_divisors_29() {
    let due = "\
error[29]: the width of `Readings` divides by zero: `6 / (N - 2)` is 6 / 0
 --> packet.bin, field 6: Readings
 = note: the width is `6 / (N - 2)`
 = note: `N` (Cells) is 2
 = note: let this field be `present only when N - 2 != 0`
";
    let page = with("Readings: N bytes.", "Readings: 6 / (N - 2) bytes.");
    told("29", &page, &M1, "refused 29 at 6", &format!("{due}{M1_BEFORE_READINGS}"));
    let fields = format!("{M1_BEFORE_READINGS}  Readings: 32 16\n");
    let due = "\
error[29]: the constraint of `Sum` divides by zero: `S % (N - 2)` is 9 % 0
 --> packet.bin, field 7: Sum
 = note: the constraint is `S % (N - 2) == 0`
 = note: `S` (Sum) is 9, `N` (Cells) is 2
 = note: write `N - 2 != 0 && S % (N - 2) == 0`
";
    let page = with("Sum: 2 bytes.", "Sum (S): 2 bytes; S % (N - 2) == 0.");
    told("29-constraint", &page, &M1, "refused 29 at 7", &format!("{due}{fields}"));
}

#[test]
fn documented_packets() {
    let place = Place::new("documented-packets");
    let m4 = [&M1[..], &[0]].concat();
    let cases: [(&str, &[u8]); 7] = [
        ("N", &[0; 8192]),
        ("N", &M1[..5]),
        ("N", &[0x55, 7]),
        ("Bor", &M2),
        ("N - 3", &M1),
        ("N", &m4),
        ("6 / N", &[0x60, 7, 1, 0x2C]),
    ];
    for (readings, packet) in cases {
        place.put("my-page.txt", with("Readings: N bytes.", &format!("Readings: {readings} bytes.")));
        place.put("my-packet.bin", packet);
        documented(&place.run(&["read", "my-page.txt", "my-packet.bin"]));
    }
    place.put("my-page.txt", BLADE);
    documented(&place.run(&["read", "my-page.txt", "m1", "--field", "Borower"]));
    place.put("my-table", "no table");
    documented(&place.run(&["read", "--table", "my-table", "m1"]));
    place.put("my-old-table", OLD_TAG_TABLE);
    documented(&place.run(&["check", "my-old-table"]));
    place.put("my-table", TAG_TABLE);
    documented(&place.run(&["convert", "my-table", "-o", "my-table"]));
}

/// What was said stands in docs/PAGES.md.
#[track_caller]
fn documented(left: &Left) {
    let indented: String = left.err.lines().map(|line| format!("    {line}\n")).collect();
    assert!(
        PAGES.contains(&format!("\n\n{indented}\n")) || PAGES.ends_with(&format!("\n\n{indented}")),
        "{}",
        left.err
    );
}
