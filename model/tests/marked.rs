//! The marked cases M1 to M10 of document 01.

use umarekoza_model::protocol::from_hex;
use umarekoza_model::{
    count_fields, field_bytes, field_kind, field_label, field_short, find_field, list_packet, read_packet,
    read_partly, write_table, Refusal,
};

const BLADE: &str = "\
A Blade Report is formatted as follows:

 0                   1
 0 1 2 3 4 5 6 7 8 9 0 1 2 3 4 5
+-+-+-+-+-+-+-+-+-+-+-+-+-+-+-+-+
| V |L|  Cells  |     Blade     |
+-+-+-+-+-+-+-+-+-+-+-+-+-+-+-+-+
|           Borrower            |
+-+-+-+-+-+-+-+-+-+-+-+-+-+-+-+-+
:            Readings           :
+-+-+-+-+-+-+-+-+-+-+-+-+-+-+-+-+
|             Sum               |
+-+-+-+-+-+-+-+-+-+-+-+-+-+-+-+-+

where:

Version (V): 2 bits; V == 1.
On Loan (L): 1 bit.
Cells (N): 5 bits; N <= 20.
Blade: 1 byte.
Borrower (Bor): 2 bytes; present only when L == 1.
Readings: N bytes.
Sum: 2 bytes.
";

/// The text of a one-byte field `K` with this line.
fn one_byte(line: &str) -> String {
    let frame = "\
A Tag is formatted as follows:

 0
 0 1 2 3 4 5 6 7
+-+-+-+-+-+-+-+-+
|       K       |
+-+-+-+-+-+-+-+-+

where:

";
    format!("{frame}{line}\n")
}

fn blade() -> Vec<u8> {
    write_table(BLADE.as_bytes(), 4096).unwrap()
}

fn packet(hex: &str) -> Vec<u8> {
    from_hex(&hex.replace(' ', "").to_lowercase()).unwrap()
}

fn refusal(table: &[u8], hex: &str) -> Option<(u32, u32)> {
    let answer = read_packet(table, &packet(hex), 256);
    answer.err().map(|Refusal { number, place }| (number, place))
}

#[test]
fn m1_to_m2_listings() {
    let m1 = "Version: 0 2 1\nOn Loan: 2 1 1\nCells: 3 5 2\nBlade: 8 8 7\nBorrower: 16 16 300\n\
              Readings: 32 16\nSum: 48 16 9\nbits 64\n";
    let m2 = "Version: 0 2 1\nOn Loan: 2 1 0\nCells: 3 5 2\nBlade: 8 8 7\nBorrower: absent\n\
              Readings: 16 16\nSum: 32 16 9\nbits 48\n";
    assert_eq!(list_packet(&blade(), &packet("62 07 01 2C AA BB 00 09")), m1.as_bytes());
    assert_eq!(list_packet(&blade(), &packet("42 07 AA BB 00 09")), m2.as_bytes());
}

#[test]
fn m3_to_m7_refusals() {
    let table = blade();
    assert_eq!(refusal(&table, "62 07 01 2C AA BB 00"), Some((24, 7)));
    assert_eq!(refusal(&table, "62 07 01 2C AA BB 00 09 00"), Some((28, 0)));
    assert_eq!(refusal(&table, "22 07 01 2C AA BB 00 09"), Some((25, 1)));
    assert_eq!(refusal(&table, "55 07"), Some((25, 3)));
    assert_eq!(refusal(&table, "-"), Some((24, 1)));
    assert_eq!(list_packet(&table, &packet("62 07 01 2C AA BB 00")), b"refused 24 at 7\n");
    assert_eq!(list_packet(&table, &packet("62 07 01 2C AA BB 00 09 00")), b"refused 28 at 0\n");
}

#[test]
fn m1_and_m3_to_m7_partly() {
    let table = blade();
    let (fields, total) = read_partly(&table, &packet("62 07 01 2C AA BB 00 09"), 28);
    assert_eq!((fields.len(), fields[6], total), (7, [1, 48, 16, 9], Ok(64)));
    let refused = |hex: &str, count: usize, number: u32, place: u32| {
        let (before, refusal) = read_partly(&table, &packet(hex), 28);
        assert_eq!((before.len(), refusal), (count, Err(Refusal { number, place })), "{hex}");
        assert_eq!(before, &fields[..count], "{hex}");
    };
    refused("62 07 01 2C AA BB 00", 6, 24, 7);
    refused("62 07 01 2C AA BB 00 09 00", 7, 28, 0);
    refused("22 07 01 2C AA BB 00 09", 0, 25, 1);
    refused("-", 0, 24, 1);
    let m6 = read_partly(&table, &packet("55 07"), 28);
    assert_eq!(m6, (vec![[1, 0, 2, 1], [1, 2, 1, 0]], Err(Refusal { number: 25, place: 3 })));
    assert_eq!(read_partly(&table, &[], 27), (vec![], Err(Refusal { number: 23, place: 0 })));
    assert_eq!(read_partly(&table[1..], &[], 28), (vec![], Err(Refusal { number: 21, place: 0 })));
}

#[test]
fn m8_to_m9_expressions() {
    let read = |constraint: &str| {
        let text = one_byte(&format!("Kind (K): 8 bits; {constraint}."));
        refusal(&write_table(text.as_bytes(), 4096).unwrap(), "00")
    };
    for right in ["2+3*4 == 14", "7-2-1 == 4", "65535*65537 == 4294967295"] {
        assert_eq!(read(right), None, "{right}");
    }
    for fault in ["65536*65536 == 0", "3-5 == 0", "0 == 3-5"] {
        assert_eq!(read(fault), Some((27, 1)), "{fault}");
    }
}

#[test]
fn m10_tag_table() {
    let tag = packet(
        "0D 00 01 00 08 00 01 00 03 00 54 61 67 \
         1D 00 0C 00 00 00 04 00 4B 69 6E 64 01 00 4B 08 00 08 00 20 02 00 01 07 00 00 00 00 00 04 00 05 00",
    );
    let text = one_byte("Kind (K): 1 byte; K == 7.");
    assert_eq!(write_table(text.as_bytes(), 46), Ok(tag));
    assert_eq!(write_table(text.as_bytes(), 45), Err(Refusal { number: 11, place: 0 }));
}

#[test]
fn names_labels_and_parts() {
    let table = blade();
    assert_eq!(find_field(&table, b"Borrower"), Ok(4));
    assert_eq!(find_field(&table, b"Bor"), Ok(4));
    assert_eq!(find_field(&table, b""), Err(Refusal { number: 30, place: 0 }));
    assert_eq!(find_field(&table[1..], b"Sum"), Err(Refusal { number: 21, place: 0 }));
    for label in ["Version", "On Loan", "Cells", "Blade", "Borrower", "Readings", "Sum"] {
        let (start, length) = field_label(&table, find_field(&table, label.as_bytes()).unwrap());
        assert_eq!(&table[start..start + length], label.as_bytes());
    }
    assert_eq!(field_label(&table, 7), (0, 0));
    assert_eq!(field_label(b"", 0), (0, 0));
    let (start, length) = field_short(&table, 4);
    assert_eq!(&table[start..start + length], b"Bor");
    assert_eq!([3, 7].map(|index| field_short(&table, index)), [(0, 0); 2]);
    assert_eq!((count_fields(&table), count_fields(b"")), (Ok(7), Err(Refusal { number: 21, place: 0 })));
    assert_eq!([0, 5].map(|index| field_kind(&table, index)), [Ok(12), Ok(13)]);
    assert_eq!(field_kind(&table, 7), Err(Refusal { number: 30, place: 0 }));
    let m1 = packet("62 07 01 2C AA BB 00 09");
    let parts = (0..8).map(|index| field_bytes(&table, &m1, index));
    assert_eq!(parts.collect::<Vec<_>>(), [(0, 0), (0, 0), (0, 0), (1, 1), (2, 2), (4, 2), (6, 2), (0, 0)]);
}
