//! How often fields are read, kept in their records, and old tables converted [02, R-5].

mod pages;

use pages::{counted, page, read_fixed, record, table};
use umarekoza_model::protocol::from_hex;
use umarekoza_model::{check_table, convert_table, count_readers, read_packet, write_table, Refusal};

const NOT_GOOD: Refusal = Refusal { number: 21, place: 0 };
const NO_FIELD: Refusal = Refusal { number: 30, place: 0 };
const TOO_SHORT: Refusal = Refusal { number: 11, place: 0 };
const OLD_TAG: &str =
    "0d0001000800010003005461671b00020004004b696e6401004b080008002002000107000000000004000500";
const TAG: &str =
    "0d0001000800010003005461671d000c00000004004b696e6401004b080008002002000107000000000004000500";

/// How often each field of a text of these lines is read.
fn numbers(lines: &[&str]) -> Vec<usize> {
    let table = write_table(page(lines).as_bytes(), 4096).unwrap();
    assert_eq!(count_readers(&table, lines.len()), Err(NO_FIELD));
    (0..lines.len()).map(|index| count_readers(&table, index).unwrap()).collect()
}

#[test]
fn references_in_other_fields_count() {
    assert_eq!(numbers(&["K: 1 byte; K == 7."]), [0]);
    assert_eq!(numbers(&["K: 1 byte; K == 7 || K == K.", "D: K bytes."]), [1, 0]);
    assert_eq!(numbers(&["K: 1 byte.", "D: K bytes."]), [1, 0]);
    assert_eq!(numbers(&["K: 1 byte.", "L: 1 byte; K == K.", "M: 1 byte; L == K || M == 0."]), [3, 1, 0]);
    assert_eq!(numbers(&["K (x): 1 byte.", "D: K+x*x bytes; present only when x == 1."]), [4, 0]);
    assert_eq!(numbers(&["K: 1 byte.", "L: 1 byte; K == 1; present only when !(K == 2)."]), [2, 0]);
    // Operands that are skipped count too.
    assert_eq!(numbers(&["K: 1 byte.", "L: 1 byte; 1 == 1 || K == 1."]), [1, 0]);
}

#[test]
fn tables_with_wrong_numbers() {
    // `L == K`, in the constraint of L.
    let reads = [0x20, 0x02, 0x01, 0x02, 0x00];
    let good = |first: u8, second: u8| {
        check_table(&table(&[read_fixed(first, "K", "", &[]), read_fixed(second, "L", "", &reads)]))
    };
    assert_eq!(good(1, 0), Ok(()));
    for (first, second) in [(0, 0), (2, 0), (1, 1), (0, 1), (255, 0)] {
        assert_eq!(good(first, second), Err(NOT_GOOD), "{first} {second}");
    }
    let mut table = table(&[read_fixed(1, "K", "", &[]), read_fixed(0, "L", "", &reads)]);
    assert_eq!(table[13..19], [0x11, 0, 12, 0, 1, 0]);
    table[18] = 1;
    assert_eq!(check_table(&table), Err(NOT_GOOD));
    assert_eq!(count_readers(&table, 0), Err(NOT_GOOD));
    assert_eq!(count_readers(&table, 9), Err(NOT_GOOD));
}

/// An old record of a fixed field of 8 bits, or of that of another kind.
fn old(kind: u8, label: &str, constraint: &[u8]) -> Vec<u8> {
    record(kind, &[&counted(label.as_bytes()), &[0, 0, 8, 0], &counted(constraint), &[0, 0]])
}

#[test]
fn old_kinds_are_not_good() {
    for old_table in [OLD_TAG.to_string(), TAG.replace("1d000c00", "1d000200")] {
        assert_eq!(check_table(&from_hex(&old_table).unwrap()), Err(NOT_GOOD));
    }
    for kind in [2, 3, 4, 5, 6, 11, 13, 14, 15] {
        assert_eq!(check_table(&table(&[old(kind, "K", &[])])), Err(NOT_GOOD), "{kind}");
    }
}

#[test]
fn the_old_tag_is_converted() {
    let (old_tag, tag) = (from_hex(OLD_TAG).unwrap(), from_hex(TAG).unwrap());
    assert_eq!(convert_table(&old_tag, 46), Ok(tag.clone()));
    assert_eq!(convert_table(&old_tag, 1 << 16), Ok(tag.clone()));
    assert_eq!(convert_table(&old_tag, 45), Err(TOO_SHORT));
    assert_eq!(convert_table(&tag, 1 << 16), Err(NOT_GOOD));
    assert_eq!(convert_table(&old_tag[..43], 0), Err(NOT_GOOD));
    assert_eq!(convert_table(&[], 0), Err(NOT_GOOD));
    assert_eq!(check_table(&tag), Ok(()));
}

#[test]
fn old_tables_keep_the_old_rules() {
    let converted = |constraint: &[u8]| {
        let fields = [old(2, "K", &[]), old(2, "L", constraint)];
        convert_table(&table(&fields), 1 << 16).map(|table| (count_readers(&table, 0), table.len()))
    };
    // `K op K == K`, stored: the length grows by 4 for two fields.
    let compared = |code: u8| [0x20, code, 0x02, 0x00, 0x02, 0x00, 0x02, 0x00];
    let length = table(&[old(2, "K", &[]), old(2, "L", &compared(0x10))]).len();
    for code in 0x10..=0x12 {
        assert_eq!(converted(&compared(code)), Ok((Ok(3), length + 4)), "{code:x}");
    }
    for code in 0x13..=0x15 {
        assert_eq!(converted(&compared(code)), Err(NOT_GOOD), "{code:x}");
    }
    let many = |count: usize| {
        let labels: Vec<String> = (0..count).map(|index| format!("F{index}")).collect();
        let fields: Vec<Vec<u8>> = labels.iter().map(|label| old(2, label, &[])).collect();
        convert_table(&table(&fields), 1 << 16).map(|table| table.len())
    };
    assert!(many(64).is_ok());
    assert_eq!(many(65), Err(NOT_GOOD));
    // A label that is another's short name was good before R-2 alone.
    let both = record(2, &[&counted(b"L"), &counted(b"K"), &[8, 0, 0, 0, 0, 0]]);
    assert_eq!(convert_table(&table(&[old(2, "K", &[]), both]), 1 << 16), Err(NOT_GOOD));
}

#[test]
fn a_converted_table_reads_as_the_page_does() {
    let lines = ["K: 1 byte; K < 3.", "D: K bytes.", "E: variable."];
    let due = write_table(page(&lines).as_bytes(), 4096).unwrap();
    let d = record(3, &[&counted(b"D"), &[0, 0, 8, 0], &counted(&[0x02, 0x00]), &[0, 0, 0, 0]]);
    let e = record(4, &[&counted(b"E"), &[0, 0, 0, 0, 0, 0]]);
    let k = old(2, "K", &[0x22, 0x02, 0x00, 0x01, 3, 0, 0, 0]);
    let converted = convert_table(&table(&[k, d, e]), due.len()).unwrap();
    assert_eq!(converted, due);
    let reading = read_packet(&converted, &[2, 7, 8, 9], 12).unwrap();
    assert_eq!(reading.fields, [[1, 0, 8, 2], [1, 8, 16, 0], [1, 24, 8, 0]]);
}
