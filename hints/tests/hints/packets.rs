//! Numbers 24 to 29: what a packet lacks, and which rule it breaks by which values.

use umarekoza_hints::{packet_hint, plain_packet, Verdict};

/// The records of a table: fields, each by its kind, label, short name and what follows these. How often they are read,
/// here 0, plays no part.
pub fn table(fields: &[(u8, &str, &str, &[u8])]) -> Vec<u8> {
    let counted = |bytes: &[u8]| [&(bytes.len() as u16).to_le_bytes()[..], bytes].concat();
    let record = |kind: u8, body: &[u8]| {
        let length = (body.len() + 4) as u16;
        [&length.to_le_bytes()[..], &[kind, 0], body].concat()
    };
    let head = [&[16, 0, fields.len() as u8, 0][..], &counted(b"Test")].concat();
    let field = |(kind, label, short, rest): &(u8, &str, &str, &[u8])| {
        record(*kind, &[&[0, 0], &counted(label.as_bytes())[..], &counted(short.as_bytes()), rest].concat())
    };
    let fields: Vec<u8> = fields.iter().flat_map(field).collect();
    [record(1, &head), fields, record(5, b"")].concat()
}

/// The table of the blade report, as docs/RULES.md has it.
fn blade() -> Vec<u8> {
    blade_with(&[2, 2])
}

/// The same with another width of `Readings`, in bytes.
pub fn blade_with(readings: &[u8]) -> Vec<u8> {
    let readings = [&[8, 0, readings.len() as u8, 0][..], readings, &[0, 0, 0, 0]].concat();
    table(&[
        (12, "Version", "V", &[2, 0, 8, 0, 0x20, 2, 0, 1, 1, 0, 0, 0, 0, 0]),
        (12, "On Loan", "L", &[1, 0, 0, 0, 0, 0]),
        (12, "Cells", "N", &[5, 0, 8, 0, 0x23, 2, 2, 1, 20, 0, 0, 0, 0, 0]),
        (12, "Blade", "", &[8, 0, 0, 0, 0, 0]),
        (12, "Borrower", "Bor", &[16, 0, 0, 0, 8, 0, 0x20, 2, 1, 1, 1, 0, 0, 0]),
        (13, "Readings", "", &readings),
        (12, "Sum", "", &[16, 0, 0, 0, 0, 0]),
    ])
}

/// The numbers of M1's fields.
pub const M1: [[u32; 4]; 7] = [
    [1, 0, 2, 1],
    [1, 2, 1, 1],
    [1, 3, 5, 2],
    [1, 8, 8, 7],
    [1, 16, 16, 300],
    [1, 32, 16, 0],
    [1, 48, 16, 9],
];

#[track_caller]
pub fn told(table: &[u8], packet: &[u8], before: &[[u32; 4]], (number, place): (u32, u32), due: &str) {
    let hint = packet_hint(table, packet, before, Verdict { number, place });
    let told = plain_packet(&hint, "packet.bin");
    assert_eq!(told, due, "told:\n{told}\ndue:\n{due}");
}

#[test]
fn bits_that_are_missing() {
    let m3 = [0x62, 0x07, 0x01, 0x2C, 0xAA, 0xBB, 0x00];
    let due = "\
error[24]: `Sum` needs 16 bits from bit 48 on, 8 are left
 --> packet.bin, field 7: Sum
 = note: the packet has 7 bytes, 56 bits
";
    told(&blade(), &m3, &M1[..6], (24, 7), due);
    let due = "\
error[24]: `Version` needs 2 bits from bit 0 on, none is left
 --> packet.bin, field 1: Version
 = note: the packet has 0 bytes, 0 bits
";
    told(&blade(), &[], &[], (24, 1), due);
    let cut = [0x62, 0x07, 0x01, 0x2C, 0xAA];
    let due = "\
error[24]: `Readings` needs 16 bits from bit 32 on, 8 are left
 --> packet.bin, field 6: Readings
 = note: the packet has 5 bytes, 40 bits
 = note: its width is `N bytes`
 = note: `N` (Cells) is 2
";
    told(&blade(), &cut, &M1[..5], (24, 6), due);
}

#[test]
fn bits_that_the_fields_behind_the_rest_need() {
    let table = table(&[
        (12, "Kind", "K", &[16, 0, 0, 0, 0, 0]),
        (14, "Data", "", &[0, 0, 0, 0]),
        (12, "Sum", "", &[16, 0, 0, 0, 0, 0]),
    ]);
    let due = "\
error[24]: the fields behind `Data` need 16 bits from bit 16 on, 8 are left
 --> packet.bin, field 2: Data
 = note: the packet has 3 bytes, 24 bits
";
    told(&table, &[0, 1, 2], &[[1, 0, 16, 1]], (24, 2), due);
}

#[test]
fn bits_that_are_left_over() {
    let m4 = [0x62, 0x07, 0x01, 0x2C, 0xAA, 0xBB, 0x00, 0x09, 0x00];
    let due = "\
error[28]: 8 bits are left over from bit 64 on: 1 byte
 --> packet.bin
 = note: the packet has 9 bytes, 72 bits; `Sum` is the last field that is present and ends at bit 64
 = note: a field of `variable` width takes what is left
";
    told(&blade(), &m4, &M1, (28, 0), due);
}

#[test]
fn bits_that_are_less_than_a_byte() {
    let table =
        table(&[(12, "Count", "C", &[16, 0, 0, 0, 0, 0]), (13, "Data", "", &[1, 0, 2, 0, 2, 0, 0, 0, 0, 0])]);
    let due = "\
error[28]: 3 bits are left over from bit 21 on: less than a byte
 --> packet.bin
 = note: the packet has 3 bytes, 24 bits; `Data` is the last field that is present and ends at bit 21
 = note: a field of `variable` width takes what is left
";
    told(&table, &[0, 5, 0], &[[1, 0, 16, 5], [1, 16, 5, 0]], (28, 0), due);
    let due = "\
error[28]: 11 bits are left over from bit 21 on: 1 byte and 3 bits
 --> packet.bin
 = note: the packet has 4 bytes, 32 bits; `Data` is the last field that is present and ends at bit 21
 = note: a field of `variable` width takes what is left
";
    told(&table, &[0, 5, 0, 0], &[[1, 0, 16, 5], [1, 16, 5, 0]], (28, 0), due);
}

#[test]
fn a_packet_that_is_too_long() {
    let due = "\
error[22]: the packet has 8,192 bytes, at most 8,191
 --> packet.bin
 = note: see that it is one packet, and in bytes
";
    told(&blade(), &[0; 8_192], &[], (22, 0), due);
}

#[test]
fn a_constraint_that_does_not_hold() {
    let m5 = [0x22, 0x07, 0x01, 0x2C, 0xAA, 0xBB, 0x00, 0x09];
    let due = "\
error[25]: the constraint of `Version` does not hold: `V == 1`
 --> packet.bin, field 1: Version
 = note: `V` (Version) is 0
";
    told(&blade(), &m5, &[], (25, 1), due);
    let due = "\
error[25]: the constraint of `Cells` does not hold: `N <= 20`
 --> packet.bin, field 3: Cells
 = note: `N` (Cells) is 21
";
    told(&blade(), &[0x55, 0x07], &[[1, 0, 2, 1], [1, 2, 1, 0]], (25, 3), due);
}

/// Fields without a short name are told by their labels alone.
#[test]
fn a_constraint_that_reads_by_labels() {
    let is_zero = |index: u8| [0x20, 2, index, 1, 0, 0, 0, 0];
    let rule = [&[8, 0, 17, 0, 0x31][..], &is_zero(1), &is_zero(0), &[0, 0]].concat();
    let table = table(&[(12, "SYN", "", &[8, 0, 0, 0, 0, 0]), (12, "FIN", "", &rule)]);
    let due = "\
error[25]: the constraint of `FIN` does not hold: `FIN == 0 || SYN == 0`
 --> packet.bin, field 2: FIN
 = note: `FIN` is 1, `SYN` is 1
";
    told(&table, &[1, 1], &[[1, 0, 8, 1]], (25, 2), due);
}

/// A flag, a number that is there if the flag is set, and a field of this kind and rest.
pub fn flagged(kind: u8, rest: &[u8]) -> Vec<u8> {
    table(&[
        (12, "Flag", "F", &[8, 0, 0, 0, 0, 0]),
        (12, "Count", "C", &[8, 0, 0, 0, 8, 0, 0x20, 2, 0, 1, 1, 0, 0, 0]),
        (kind, "Data", "D", rest),
    ])
}

/// Neither `C` nor anything else is there, but the flag, which is 0.
const ABSENT: [[u32; 4]; 2] = [[1, 0, 8, 0], [0, 0, 0, 0]];
/// `C` is 1.
pub const PRESENT: [[u32; 4]; 2] = [[1, 0, 8, 1], [1, 8, 8, 1]];

#[test]
fn an_absent_field_that_is_read() {
    let due = "\
error[26]: the width of `Data` reads `C`, which is absent: `C`
 --> packet.bin, field 3: Data
 = note: `C` (Count) is absent
 = note: let this field be `present only when F == 1`
";
    told(&flagged(13, &[8, 0, 2, 0, 2, 1, 0, 0, 0, 0]), &[0], &ABSENT, (26, 3), due);
    let due = "\
error[26]: the condition of `Data` reads `C`, which is absent: `C > 0 || F == 2`
 --> packet.bin, field 3: Data
 = note: `C` (Count) is absent, `F` (Flag) is 0
 = note: write `present only when F == 1 && (C > 0 || F == 2)`
";
    let either = [0x31, 0x24, 2, 1, 1, 0, 0, 0, 0, 0x20, 2, 0, 1, 2, 0, 0, 0];
    let rest = [&[8, 0, 0, 0, 17, 0][..], &either].concat();
    told(&flagged(12, &rest), &[0], &ABSENT, (26, 3), due);
    let due = "\
error[26]: the constraint of `Data` reads `C`, which is absent: `D < C`
 --> packet.bin, field 3: Data
 = note: `D` (Data) is 5, `C` (Count) is absent
 = note: write `!(F == 1) || D < C`
";
    told(&flagged(12, &[8, 0, 5, 0, 0x22, 2, 2, 2, 1, 0, 0]), &[0, 5], &ABSENT, (26, 3), due);
}

#[test]
fn a_number_out_of_range() {
    let less = [0x11, 2, 1, 1, 2, 0, 0, 0];
    let due = "\
error[27]: the width of `Data` leaves the range: `C - 2` is 1 - 2, below 0
 --> packet.bin, field 3: Data
 = note: the width is `C - 2`
 = note: `C` (Count) is 1
 = note: let this field be `present only when C >= 2`
";
    told(&flagged(13, &[&[8, 0, 8, 0][..], &less, &[0, 0, 0, 0]].concat()), &[1, 1], &PRESENT, (27, 3), due);
    let due = "\
error[27]: the condition of `Data` leaves the range: `C - 2` is 1 - 2, below 0
 --> packet.bin, field 3: Data
 = note: the condition is `C - 2 == 0`
 = note: `C` (Count) is 1
 = note: write `present only when C >= 2 && C - 2 == 0`
";
    let rest = [&[8, 0, 0, 0, 14, 0, 0x20][..], &less, &[1, 0, 0, 0, 0]].concat();
    told(&flagged(12, &rest), &[1, 1], &PRESENT, (27, 3), due);
    let due = "\
error[27]: the constraint of `Data` leaves the range: `D * 4294967295` is 5 * 4294967295, over 4,294,967,295
 --> packet.bin, field 3: Data
 = note: the constraint is `D * 4294967295 > C`
 = note: `D` (Data) is 5, `C` (Count) is 1
 = note: keep `D` small by a constraint
";
    let rest = [8, 0, 11, 0, 0x24, 0x12, 2, 2, 1, 255, 255, 255, 255, 2, 1, 0, 0];
    told(&flagged(12, &rest), &[1, 1, 5], &PRESENT, (27, 3), due);
}

#[test]
fn only_the_meaning_where_the_reading_differs() {
    let due = "\
error[25]: the value breaks the constraint of this field
 --> packet.bin, field 2: On Loan
 = note: the packet is of another kind, or the page too strict
";
    told(&blade(), &[0x62, 0x07], &M1[..1], (25, 2), due);
    let due = "\
error[21]: this is not a good table
 --> packet.bin
 = note: write it again from its page
";
    told(b"no table", &[], &[], (21, 0), due);
}
