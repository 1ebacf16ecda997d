//! Division, remainder and power [02, R-7]: how they are grouped and stored, what they give, and their faults.

mod pages;

use pages::{counted, page, read_fixed, record, refusal, table};
use std::thread;
use umarekoza_model::{
    check_table, field_bytes, list_packet, read_packet, read_partly, write_table, Refusal,
};

const NOT_GOOD: Result<(), Refusal> = Err(Refusal { number: 21, place: 0 });

fn number(number: u32) -> Vec<u8> {
    [&[0x01], &number.to_le_bytes()[..]].concat()
}

fn two(code: u8, left: &[u8], right: &[u8]) -> Vec<u8> {
    [&[code], left, right].concat()
}

/// The record of a measured field without clauses.
fn measured(label: &str, unit: u8, width: &[u8]) -> Vec<u8> {
    record(13, &[&[0, 0], &counted(label.as_bytes()), &[0, 0, unit, 0], &counted(width), &[0, 0, 0, 0]])
}

/// The table of a byte `K` and a field `D` of this width.
fn written(width: &str) -> Result<Vec<u8>, Refusal> {
    write_table(page(&["K: 1 byte.", &format!("D: {width}.")]).as_bytes(), 4096)
}

#[test]
fn stored_forms() {
    let stored = |width: &str, tree: Vec<u8>| {
        let due =
            table(&[read_fixed(width.matches('K').count() as u8, "K", "", &[]), measured("D", 8, &tree)]);
        assert_eq!(check_table(&due), Ok(()), "{width}");
        assert_eq!(written(&format!("{width} bytes")), Ok(due), "{width}");
    };
    let k = [0x02, 0x00];
    stored("K/3", two(0x13, &k, &number(3)));
    stored("K % 3", two(0x14, &k, &number(3)));
    stored("2^K", two(0x15, &number(2), &k));
    stored("2^K^2", two(0x15, &number(2), &two(0x15, &k, &number(2))));
    stored("2^(K^2)", two(0x15, &number(2), &two(0x15, &k, &number(2))));
    stored("(2^K)^2", two(0x15, &two(0x15, &number(2), &k), &number(2)));
    stored("K*3/2%5", two(0x14, &two(0x13, &two(0x12, &k, &number(3)), &number(2)), &number(5)));
    stored("K%3*2", two(0x12, &two(0x14, &k, &number(3)), &number(2)));
    stored("2*K^3", two(0x12, &number(2), &two(0x15, &k, &number(3))));
    stored("2^K*3", two(0x12, &two(0x15, &number(2), &k), &number(3)));
    stored("7-K/2", two(0x11, &number(7), &two(0x13, &k, &number(2))));
    stored("2^3", two(0x15, &number(2), &number(3)));
}

#[test]
fn refused_tables() {
    let good = |tree: &[u8]| {
        let reads = u8::from(tree.ends_with(&[0x02, 0x00]));
        check_table(&table(&[read_fixed(reads, "K", "", &[]), measured("D", 1, tree)]))
    };
    let is_zero = two(0x20, &number(0), &number(0));
    for code in 0x13..=0x15 {
        assert_eq!(good(&two(code, &number(2), &[0x02, 0x00])), Ok(()), "{code:x}");
        assert_eq!(good(&two(code, &number(2), &is_zero)), NOT_GOOD, "{code:x}");
        assert_eq!(good(&two(code, &is_zero, &number(2))), NOT_GOOD, "{code:x}");
        assert_eq!(good(&[&[code], &number(2)[..]].concat()), NOT_GOOD, "{code:x}");
    }
    for code in [0x0D, 0x0E, 0x0F, 0x16, 0x1F, 13] {
        assert_eq!(good(&two(code, &number(2), &number(2))), NOT_GOOD, "{code:x}");
    }
}

#[test]
fn refused_texts() {
    for width in ["2^", "^2", "2^^3", "7//2", "2 ^  3", "2**3", "(2^3", "2^03", "2^!K", "7%-1"] {
        assert_eq!(refusal(&["K: 1 byte.", &format!("D: {width} bits.")]), Some((5, 2)), "{width}");
    }
    assert_eq!(refusal(&["K: 1 byte.", "D: 2^3 bits."]), None);
    assert_eq!(refusal(&["K: 1 byte.", "D: 2^(K==1) bits."]), Some((9, 2)));
    assert_eq!(refusal(&["K: 1 byte.", "D: 2^!(K==1) bits."]), Some((9, 2)));
    assert_eq!(refusal(&["K: 1 byte; K%2.", "D: 1 byte."]), Some((9, 1)));
    assert_eq!(refusal(&["D: 2^K bits.", "K: 1 byte."]), Some((9, 1)));
    // A measured field in a bit row.
    let drawn = page(&["K: 1 byte.", "D: 1 byte."]).replace("D: 1 byte", "D: 2^3 bits");
    assert_eq!(write_table(drawn.as_bytes(), 4096), Err(Refusal { number: 7, place: 14 }));
    let chain = |length: usize| format!("D: {} bits.", vec!["K"; length].join("^"));
    assert_eq!(refusal(&["K: 1 byte.", &chain(12)]), None);
    assert_eq!(refusal(&["K: 1 byte.", &chain(13)]), Some((6, 2)));
    assert_eq!(refusal(&["K: 1 byte.", &chain(13), "E: 2^ bits."]), Some((5, 3)));
}

/// What reading a byte 0 says to this constraint on it.
fn tested(constraint: &str) -> Option<(u32, u32)> {
    let text = page(&[&format!("K: 1 byte; {constraint}.")]);
    let answer = read_packet(&write_table(text.as_bytes(), 4096).unwrap(), &[0], 4);
    answer.err().map(|Refusal { number, place }| (number, place))
}

#[test]
fn values() {
    for right in [
        "7/2 == 3",
        "1/3 == 0",
        "K/3 == 0",
        "4294967295/4294967295 == 1",
        "100/10/5 == 2",
        "7%3 == 1",
        "3%7 == 3",
        "7*3%5 == 1",
        "7%5*3 == 6",
        "7-6/4*2 == 5",
        "2^10 == 1024",
        "2^3^2 == 512",
        "(2^3)^2 == 64",
        "2*3^2 == 18",
        "0^0 == 1",
        "K^K == 1",
        "0^4294967295 == 0",
        "1^4294967295 == 1",
        "4294967295^0 == 1",
        "4294967295^1 == 4294967295",
        "2^31 == 2147483648",
        "65535^2 == 4294836225",
    ] {
        assert_eq!(tested(right), None, "{right}");
    }
}

#[test]
fn faults() {
    for zero in ["1/0 == 0", "0/0 == 0", "1%0 == 1", "5/K == 0", "1/(7%7) == 0", "1/0+(1-2) == 0"] {
        assert_eq!(tested(zero), Some((29, 1)), "{zero}");
    }
    for range in [
        "(1-2)/0 == 0",
        "(1-2)%0 == 0",
        "0/(1-2) == 0",
        "(1-2)+1/0 == 0",
        "2^32 == 0",
        "65536^2 == 0",
        "2^2^5 == 0",
        "4294967295^4294967295 == 0",
        "2^4294967295 == 0",
    ] {
        assert_eq!(tested(range), Some((27, 1)), "{range}");
    }
    for skipped in ["K == 0 || 1/K == 1", "!(K != 0 && 1%K == 0)"] {
        assert_eq!(tested(skipped), None, "{skipped}");
    }
    assert_eq!(tested("K == 1 || 1/K == 1"), Some((29, 1)));
}

#[test]
fn a_zero_divisor_in_each_part() {
    let packet = [3, 0, 9, 9];
    for last in ["D: 9/L bytes.", "D: 1 byte; 9%L == 0.", "D: 1 byte; present only when 9/L == 1."] {
        let table = write_table(page(&["K: 1 byte.", "L: 1 byte.", last]).as_bytes(), 4096).unwrap();
        let zero = Refusal { number: 29, place: 3 };
        assert_eq!(read_packet(&table, &packet, 12), Err(zero), "{last}");
        assert_eq!(list_packet(&table, &packet), b"refused 29 at 3\n", "{last}");
        assert_eq!(field_bytes(&table, &packet, 0), (0, 0), "{last}");
        assert_eq!(read_partly(&table, &packet, 12), (vec![[1, 0, 8, 3], [1, 8, 8, 0]], Err(zero)), "{last}");
    }
    let table = write_table(page(&["K: 1 byte.", "D: K/2 bytes."]).as_bytes(), 4096).unwrap();
    assert_eq!(list_packet(&table, &[3, 7]), b"K: 0 8 3\nD: 8 8\nbits 16\n");
}

/// A line of 1,000 bytes is read in a thread with a stack of 64 KiB.
#[test]
fn a_long_chain_takes_no_stack() {
    let read = || {
        let chain = vec!["1"; 500].join("^");
        let answer = |end: &str| refusal(&["K: 1 byte.", &format!("D: {chain}{end} bits.")]);
        [answer(""), answer("^K"), answer("^"), answer("^01"), answer("^(1")]
    };
    let answers = thread::Builder::new().stack_size(64 * 1024).spawn(read).unwrap().join().unwrap();
    assert_eq!(answers, [6, 6, 5, 5, 5].map(|number| Some((number, 2))));
}
