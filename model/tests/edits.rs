//! Fields cut out of tables and put in [02, R-4]: what is due is the table of the page without or with their lines.

mod pages;

use pages::{counted, page, record};
use umarekoza_model::{check_table, count_readers, cut_fields, put_fields, write_table, Refusal};

const ROOM: usize = 1 << 16;

fn refused(number: u32, place: u32) -> Result<Vec<u8>, Refusal> {
    Err(Refusal { number, place })
}

fn table(lines: &[&str]) -> Vec<u8> {
    write_table(page(lines).as_bytes(), ROOM).unwrap()
}

fn cut(lines: &[&str], first: usize, last: usize) -> Result<Vec<u8>, Refusal> {
    cut_fields(&table(lines), first, last, ROOM)
}

/// The records of fields of a table, each with this number in it.
fn records(table: &[u8], first: usize, last: usize, number: u8) -> Vec<u8> {
    let (mut at, mut taken) = (usize::from(table[0]), Vec::new());
    for index in 0..=last {
        let mut record = table[at..at + usize::from(table[at])].to_vec();
        at += record.len();
        record[4] = number;
        taken.extend(if index < first { Vec::new() } else { record });
    }
    taken
}

const FIVE: [&str; 5] = [
    "A: 1 byte.",
    "B: 1 byte; B < 9 || A == 1.",
    "C: 1 byte.",
    "D (E): 1 byte; E == 3 && C < 4; present only when A == 0.",
    "F: C + C * D bytes.",
];

#[test]
fn the_table_of_the_page_without_the_run() {
    let [a, b, c, d, f] = FIVE;
    assert_eq!(cut(&FIVE, 1, 1), Ok(table(&[a, c, d, f])));
    assert_eq!(cut(&FIVE, 4, 4), Ok(table(&[a, b, c, d])));
    assert_eq!(cut(&FIVE, 3, 4), Ok(table(&[a, b, c])));
    assert_eq!(cut(&FIVE, 2, 4), Ok(table(&[a, b])));
    assert_eq!(cut(&FIVE, 1, 4), Ok(table(&[a])));
    let own = ["A: 1 byte; A == 1.", "B: 1 byte; B < 9.", "F: B bytes."];
    assert_eq!(cut(&own, 0, 0), Ok(table(&own[1..])));
}

#[test]
fn fields_that_are_left_and_read() {
    // A is read by B and D, C by D and F, D by F.
    for (first, last, place) in
        [(0, 0, 2), (0, 1, 4), (2, 2, 4), (3, 3, 5), (0, 2, 4), (0, 3, 5), (2, 3, 5), (1, 3, 5)]
    {
        assert_eq!(cut(&FIVE, first, last), refused(31, place), "{first} {last}");
    }
    // Whatever is evaluated: C is behind `&&`, and in a product.
    assert_eq!(cut(&["A: 1 byte.", "B: 1 byte; 1 == 2 && A == 1."], 0, 0), refused(31, 2));
    assert_eq!(cut(&["A: 1 byte.", "B: 0 * A bytes."], 0, 0), refused(31, 2));
}

#[test]
fn the_order_of_the_refusals() {
    let five = table(&FIVE);
    assert_eq!(cut_fields(&five[1..], 9, 0, 0), refused(21, 0));
    for (first, last) in [(1, 0), (5, 5), (0, 5), (4, usize::MAX), (usize::MAX, 0)] {
        assert_eq!(cut_fields(&five, first, last, 0), refused(30, 0), "{first} {last}");
    }
    assert_eq!(cut_fields(&five, 0, 0, 0), refused(31, 2));
    assert_eq!(cut_fields(&five, 0, 4, 0), refused(34, 0));
    let needed = table(&FIVE[..4]).len();
    assert_eq!(cut_fields(&five, 4, 4, needed - 1), refused(11, 0));
    assert!(cut_fields(&five, 4, 4, needed).is_ok());
    let new = records(&five, 4, 4, 0);
    assert_eq!(put_fields(&five[1..], 9, &[], 0), refused(21, 0));
    for (index, records) in [(0, &[][..]), (5, &[]), (6, &new), (6, b"?"), (usize::MAX, &new)] {
        assert_eq!(put_fields(&five, index, records, 0), refused(30, 0), "{index}");
    }
    assert_eq!(put_fields(&five, 5, &new, 0), refused(34, 0));
    let four = table(&FIVE[..4]);
    assert_eq!(put_fields(&four, 4, &new, five.len() - 1), refused(11, 0));
    assert_eq!(put_fields(&four, 4, &new, five.len()), Ok(five));
}

#[test]
fn rows_that_are_not_full() {
    let half = |label: &str| record(12, &[&[0, 0], &counted(label.as_bytes()), &[0, 0, 4, 0, 0, 0, 0, 0]]);
    let head = record(1, &[&[8, 0, 2, 0], &counted(b"Tag")]);
    let both = [head, half("A"), half("B"), record(5, &[])].concat();
    assert_eq!(check_table(&both), Ok(()));
    assert_eq!(cut_fields(&both, 0, 0, ROOM), refused(34, 0));
    assert_eq!(cut_fields(&both, 0, 1, ROOM), refused(34, 0));
    assert_eq!(put_fields(&both, 2, &half("C"), ROOM), refused(34, 0));
    let longer = put_fields(&both, 1, &[half("C"), half("D")].concat(), ROOM).unwrap();
    assert_eq!(cut_fields(&longer, 1, 2, ROOM), Ok(both));
}

#[test]
fn whatever_numbers_the_records_have() {
    let five = table(&FIVE);
    for (first, last) in [(1, 1), (4, 4), (3, 4), (2, 4), (1, 4)] {
        let left = cut_fields(&five, first, last, ROOM).unwrap();
        for number in [0, 1, 7, 255] {
            let new = records(&five, first, last, number);
            assert_eq!(put_fields(&left, first, &new, ROOM), Ok(five.clone()), "{first} {last} {number}");
        }
    }
    let left = cut_fields(&five, 3, 4, ROOM).unwrap();
    assert_eq!([0, 1, 2].map(|index| count_readers(&left, index)), [Ok(1), Ok(0), Ok(0)]);
    assert_eq!([0, 1, 2, 3].map(|index| count_readers(&five, index)), [Ok(2), Ok(0), Ok(3), Ok(1)]);
}

#[test]
fn references_in_records_are_by_the_new_numbering() {
    let two = table(&["A: 1 byte.", "B: 1 byte; B < 3."]);
    // X reads itself where it is put, or an earlier field; where it is put elsewhere, another one.
    let reading = |index: u8| {
        let constraint = [0x22, 0x02, index, 0x01, 3, 0, 0, 0];
        record(12, &[&[0, 0], &counted(b"X"), &[0, 0, 8, 0], &counted(&constraint), &[0, 0]])
    };
    let due = [
        ["X: 1 byte; X < 3.", "A: 1 byte.", "B: 1 byte; B < 3."],
        ["A: 1 byte.", "X: 1 byte; X < 3.", "B: 1 byte; B < 3."],
        ["A: 1 byte.", "B: 1 byte; B < 3.", "X: 1 byte; X < 3."],
    ];
    for (index, due) in due.iter().enumerate() {
        for read in 0..4 {
            let put = put_fields(&two, index, &reading(read as u8), ROOM);
            match read {
                _ if read > index => assert_eq!(put, refused(34, 0)),
                _ if read == index => assert_eq!(put, Ok(table(due))),
                _ => assert_eq!(count_readers(&put.unwrap(), read), Ok(1)),
            }
        }
    }
}

#[test]
fn bytes_that_are_no_records() {
    let two = table(&["A: 1 byte.", "B: 1 byte."]);
    let new = records(&table(&["X: 1 byte."]), 0, 0, 0);
    assert!(put_fields(&two, 2, &new, ROOM).is_ok());
    let other = |at: usize, byte: u8| {
        let mut other = new.clone();
        other[at] = byte;
        other
    };
    for kind in [0, 1, 2, 3, 4, 5, 11, 13, 14, 15] {
        assert_eq!(put_fields(&two, 2, &other(2, kind), ROOM), refused(34, 0), "{kind}");
    }
    for length in [0, 1, 3, 16, 18, 34, 255] {
        assert_eq!(put_fields(&two, 2, &other(0, length), ROOM), refused(34, 0), "{length}");
    }
    // The first swallows the second; bytes are missing or left over; the head or the end comes along.
    let swallowing = [other(0, 34), new.clone()].concat();
    let whole = table(&["X: 1 byte."]);
    for bytes in
        [&swallowing[..], &new[..16], &[&new[..], b"\0"].concat(), &whole, &whole[13..], &whole[..30]]
    {
        assert_eq!(put_fields(&two, 2, bytes, ROOM), refused(34, 0), "{bytes:?}");
    }
    assert_eq!(put_fields(&two, 2, &new.repeat(2), ROOM), refused(34, 0));
}

#[test]
fn the_rest_field() {
    let [a, b, r] = ["A: 1 byte.", "B: 1 byte; present only when A == 1.", "R: variable."];
    assert_eq!(cut(&[a, b, r], 2, 2), Ok(table(&[a, b])));
    assert_eq!(cut(&[a, b, r], 1, 1), Ok(table(&[a, r])));
    let rest = |label: &str| record(14, &[&[0, 0], &counted(label.as_bytes()), &[0, 0, 0, 0, 0, 0]]);
    assert_eq!(put_fields(&table(&[a, b]), 2, &rest("R"), ROOM), Ok(table(&[a, b, r])));
    assert_eq!(put_fields(&table(&[a, b]), 1, &rest("R"), ROOM), refused(34, 0));
    assert_eq!(put_fields(&table(&[a, r]), 2, &rest("S"), ROOM), refused(34, 0));
    assert_eq!(put_fields(&table(&[a, r]), 1, &rest("S"), ROOM), refused(34, 0));
}

#[test]
fn as_many_fields_as_may_be() {
    let lines: Vec<String> = (0..129).map(|number| format!("F{number}: 1 byte.")).collect();
    let lines: Vec<&str> = lines.iter().map(String::as_str).collect();
    let all = table(&lines[..128]);
    let last = records(&table(&lines[128..]), 0, 0, 0);
    assert_eq!(put_fields(&all, 128, &last, ROOM), refused(34, 0));
    assert_eq!(put_fields(&all, 129, &last, ROOM), refused(30, 0));
    assert_eq!(
        put_fields(&table(&lines[..127]), 127, &last, ROOM),
        Ok(table(&[&lines[..127], &lines[128..]].concat()))
    );
    for count in [1, 64, 127] {
        let left = cut_fields(&all, 0, count - 1, ROOM).unwrap();
        assert_eq!(left, table(&lines[count..128]));
        assert_eq!(put_fields(&left, 0, &records(&all, 0, count - 1, 9), ROOM), Ok(all.clone()));
    }
    assert_eq!(cut_fields(&all, 0, 127, ROOM), refused(34, 0));
    assert_eq!(cut_fields(&all, 0, 128, ROOM), refused(30, 0));
}
