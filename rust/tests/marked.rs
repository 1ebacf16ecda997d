//! The marked cases M1 to M10 of document 01, as many fields and bytes as may be, labels as names, rows of several
//! lines, empty slices, and what lent slices hold afterwards.

use umarekoza::*;

const BLADE: &[u8] = include_bytes!("../../examples/pages/blade-report.txt");
const M1: [u8; 8] = [0x62, 0x07, 0x01, 0x2C, 0xAA, 0xBB, 0x00, 0x09];
const M2: [u8; 6] = [0x42, 0x07, 0xAA, 0xBB, 0x00, 0x09];

/// The page of a one-byte field `K` with this line.
fn one_byte(line: &str) -> String {
    let border = "+-+-+-+-+-+-+-+-+";
    let head = "A Tag is formatted as follows:\n\n 0\n 0 1 2 3 4 5 6 7\n";
    format!("{head}{border}\n|       K       |\n{border}\n\nwhere:\n\n{line}\n")
}

fn blade() -> Vec<u8> {
    table_of(BLADE).unwrap()
}

fn refused<T>(number: u32, place: u32) -> Result<T, Refusal> {
    Err(Refusal { number, place })
}

#[test]
fn m1_and_m2_are_listed() {
    let m1 = "Version: 0 2 1\nOn Loan: 2 1 1\nCells: 3 5 2\nBlade: 8 8 7\nBorrower: 16 16 300\n\
              Readings: 32 16\nSum: 48 16 9\nbits 64\n";
    let m2 = "Version: 0 2 1\nOn Loan: 2 1 0\nCells: 3 5 2\nBlade: 8 8 7\nBorrower: absent\n\
              Readings: 16 16\nSum: 32 16 9\nbits 48\n";
    assert_eq!(listing(&blade(), &M1), m1.as_bytes());
    assert_eq!(listing(&blade(), &M2), m2.as_bytes());
    let mut out = [b'?'; 200];
    assert_eq!(list_packet(&blade(), &M1, &mut out), Ok(m1.len()));
    assert_eq!(&out[..m1.len()], m1.as_bytes());
    assert!(out[m1.len()..].iter().all(|byte| *byte == b'?'));
    assert_eq!(list_packet(&blade(), &M2, &mut out[..m2.len() - 1]), refused(11, 0));
    assert_eq!(&out[..m1.len()], m1.as_bytes());
}

#[test]
fn m3_to_m7_are_refused() {
    let table = blade();
    let mut run = [7; 28];
    let mut read = |packet: &[u8]| read_packet(&table, packet, &mut run);
    let longer = [&M1[..], &[0]].concat();
    let mut version = M1;
    version[0] = 0x22;
    assert_eq!(read(&M1[..7]), refused(24, 7));
    assert_eq!(read(&longer), refused(28, 0));
    assert_eq!(read(&version), refused(25, 1));
    assert_eq!(read(&[0x55, 0x07]), refused(25, 3));
    assert_eq!(read(&[]), refused(24, 1));
    assert_eq!(run, [7; 28]);
    assert_eq!(listing(&table, &M1[..7]), b"refused 24 at 7\n");
    assert_eq!(listing(&table, &longer), b"refused 28 at 0\n");
}

#[test]
fn m8_and_m9_expressions() {
    let read = |constraint: &str| {
        let page = one_byte(&format!("Kind (K): 8 bits; {constraint}."));
        fields_of(&table_of(page.as_bytes()).unwrap(), &[0]).map(|fields| fields.len())
    };
    for right in ["2+3*4 == 14", "7-2-1 == 4", "65535*65537 == 4294967295"] {
        assert_eq!(read(right), Ok(1), "{right}");
    }
    for fault in ["65536*65536 == 0", "3-5 == 0"] {
        assert_eq!(read(fault), refused(27, 1), "{fault}");
    }
}

#[test]
fn quotients_remainders_and_powers() {
    let read = |constraint: &str| {
        let page = one_byte(&format!("Kind (K): 8 bits; {constraint}."));
        fields_of(&table_of(page.as_bytes()).unwrap(), &[0]).map(|fields| fields.len())
    };
    for right in ["7/2 == 3", "7%2 == 1", "2^3^2 == 512", "2*3^2 == 18", "0^0 == 1", "K == 0 || 1/K == 1"] {
        assert_eq!(read(right), Ok(1), "{right}");
    }
    for zero in ["1/K == 0", "1%0 == 1", "1/0+(1-2) == 0"] {
        assert_eq!(read(zero), refused(29, 1), "{zero}");
    }
    for range in ["(1-2)/0 == 0", "2^32 == 0", "4294967295^4294967295 == 0"] {
        assert_eq!(read(range), refused(27, 1), "{range}");
    }
    let table = table_of(one_byte("Kind (K): 8 bits; 6/K == 2.").as_bytes()).unwrap();
    assert_eq!(listing(&table, &[0]), b"refused 29 at 1\n");
    assert_eq!(listing(&table, &[3]), b"Kind: 0 8 3\nbits 8\n");
    let mut run = [7; 4];
    assert_eq!(read_partly(&table, &[0], &mut run), (refused(29, 1), 0));
    assert_eq!(run, [7; 4]);
}

#[test]
fn m10_tag_table_just_fits() {
    let page = one_byte("Kind (K): 1 byte; K == 7.");
    let mut out = [0xEE; 46];
    assert_eq!(write_table(page.as_bytes(), &mut out[..45]), refused(11, 0));
    assert_eq!(out, [0xEE; 46]);
    assert_eq!(write_table(page.as_bytes(), &mut out), Ok(46));
    assert_eq!(out[..13], *b"\x0D\0\x01\0\x08\0\x01\0\x03\0Tag");
    assert_eq!(out[13..19], [0x1D, 0, 12, 0, 0, 0]);
    assert_eq!(out[42..], [4, 0, 5, 0]);
    assert_eq!(check_table(&out), Ok(()));
}

#[test]
fn fields_and_their_bytes() {
    let table = blade();
    let fields = fields_of(&table, &M2).unwrap();
    assert_eq!(fields.len(), 7);
    assert_eq!(fields[4], Field { present: false, offset: 0, width: 0, value: 0 });
    assert_eq!(fields[5], Field { present: true, offset: 16, width: 16, value: 0 });
    assert_eq!(field_bytes(&table, &M1, 4), &M1[2..4]);
    assert_eq!(field_bytes(&table, &M1, 4).as_ptr(), M1[2..].as_ptr());
    for empty in [0, 2, 7, usize::MAX] {
        assert_eq!(field_bytes(&table, &M1, empty), &M1[..0]);
    }
    assert_eq!(field_bytes(&table, &M1[..7], 4), b"");
}

/// A page of so many fields `F1`, `F2` and so on, a byte each.
fn bytes_page(count: usize) -> String {
    let border = "+-+-+-+-+-+-+-+-+\n";
    let rows: String = (1..=count).map(|number| format!("|{:15}|\n{border}", format!("F{number}"))).collect();
    let lines: String = (1..=count).map(|number| format!("F{number}: 1 byte.\n")).collect();
    let head = "A Full is formatted as follows:\n\n 0\n 0 1 2 3 4 5 6 7\n";
    format!("{head}{border}{rows}\nwhere:\n\n{lines}")
}

#[test]
fn as_many_fields_as_may_be() {
    for count in [64, 65, 127, 128] {
        let table = table_of(bytes_page(count).as_bytes()).unwrap();
        assert_eq!(count_fields(&table), Ok(count));
        let packet: Vec<u8> = (0..count as u8).rev().collect();
        let fields = fields_of(&table, &packet).unwrap();
        assert_eq!(fields.len(), count);
        for ((field, index), byte) in fields.into_iter().zip(0..).zip(packet) {
            assert_eq!(field, Field { present: true, offset: 8 * index, width: 8, value: byte.into() });
        }
    }
    assert_eq!(table_of(bytes_page(129).as_bytes()), refused(4, 0));
}

#[test]
fn packets_as_long_as_may_be() {
    let text = "|      Len      |\n+-+-+-+-+-+-+-+-+\n:     Text      :\n";
    let lines = one_byte("Len: 8 bits.\nText: variable.");
    let table = table_of(lines.replace("|       K       |\n", text).as_bytes()).unwrap();
    for (length, bits) in [(2_048, 16_384), (2_049, 16_392), (8_191, 65_528)] {
        let packet = vec![7; length];
        let listed = format!("Len: 0 8 7\nText: 8 {}\nbits {bits}\n", bits - 8);
        assert_eq!(listing(&table, &packet), listed.as_bytes());
        assert_eq!(field_bytes(&table, &packet, 1).len(), length - 1);
    }
    assert_eq!(fields_of(&table, &[7; 8_192]), refused(22, 0));
    assert_eq!(listing(&table, &[7; 8_192]), b"refused 22 at 0\n");
}

#[test]
fn names_and_labels() {
    let table = blade();
    let labels = ["Version", "On Loan", "Cells", "Blade", "Borrower", "Readings", "Sum"];
    for (index, label) in labels.iter().enumerate() {
        assert_eq!(find_field(&table, label.as_bytes()), Ok(index));
        assert_eq!(field_label(&table, index), Some(label.as_bytes()));
    }
    assert_eq!(find_field(&table, b"N"), Ok(2));
    assert_eq!(find_field(&table, b"n"), refused(30, 0));
    assert_eq!(field_label(&table, 7), None);
    assert_eq!(find_field(b"no table", b"N"), refused(21, 0));
}

/// The answer to the blade report with a part of it replaced.
fn blade_with(from: &str, to: &str) -> Result<Vec<u8>, Refusal> {
    let page = std::str::from_utf8(BLADE).unwrap();
    assert_eq!(page.matches(from).count(), 1, "{from}");
    table_of(page.replace(from, to).as_bytes())
}

#[test]
fn labels_are_names_too() {
    for same in ["Readings: Cells bytes", "Readings: N bytes"] {
        assert_eq!(blade_with("Readings: N bytes", same), Ok(blade()), "{same}");
    }
    let by_label = blade_with("Readings: N bytes", "Readings: Blade - 5 bytes").unwrap();
    assert_eq!(listing(&by_label, &M1), listing(&blade(), &M1));
    assert_eq!(blade_with("(N): 5 bits; N <=", "(Cells): 5 bits; Cells <="), refused(9, 22));
    assert_eq!(blade_with("Readings: N", "Readings: Sum"), refused(9, 22));
    assert_eq!(blade_with("when L", "when On Loan"), refused(5, 21));
    assert_eq!(blade_with("(Bor)", "(Cells)"), refused(8, 21));
    let both = blade_with("Blade: 1", "Blade (Blade): 1").unwrap();
    assert_eq!((find_field(&both, b"Blade"), field_short(&both, 3)), (Ok(3), Some(&b"Blade"[..])));
    let mut clash = blade();
    let short = clash.windows(5).position(|part| part == b"\x03\0Bor").unwrap() + 2;
    clash[short..short + 3].copy_from_slice(b"Sum");
    assert_eq!(check_table(&clash), refused(21, 0));
}

#[test]
fn rows_of_several_lines() {
    let row = "| V |L|  Cells  |     Blade     |";
    let with = |lines: [&str; 3]| blade_with(row, &lines.join("\n"));
    let (blank, first) = ("|   | |         |               |", "|   |L|  Cells  |     Blade     |");
    assert_eq!(with([first, "| V | |         |               |", blank]), Ok(blade()));
    assert_eq!(with([row, blank, "|   | |     |   |               |"]), refused(3, 8));
    assert_eq!(with([first, blank, blank]), refused(3, 8));
    assert_eq!(with([first, blank, "| V | |     |   |               |"]), refused(3, 7));
    assert_eq!(with([row, blank, "|   | |  More   |               |"]), refused(7, 21));
    assert_eq!(blade_with(row, &[&[row][..], &[blank; 4]].concat().join("\n")), refused(3, 10));
    let long = ":            Readings           :";
    assert_eq!(blade_with(long, &[long, ":                               :"].join("\n")), refused(3, 11));
    let tcp = table_of(include_bytes!("../../examples/pages/tcp.txt")).unwrap();
    assert_eq!((find_field(&tcp, b"FIN"), field_short(&tcp, 13)), (Ok(13), None));
}

#[test]
fn kinds_and_short_names() {
    let (table, rest) = (blade(), table_of(include_bytes!("../../examples/pages/gait-burst.txt")).unwrap());
    let shorts: [Option<&[u8]>; 8] =
        [Some(b"V"), Some(b"L"), Some(b"N"), None, Some(b"Bor"), None, None, None];
    for (index, short) in shorts.into_iter().enumerate() {
        assert_eq!(field_short(&table, index), short);
        let kind = match index {
            5 => Ok(Kind::Measured),
            7 => refused(30, 0),
            _ => Ok(Kind::Fixed),
        };
        assert_eq!(field_kind(&table, index), kind);
    }
    assert_eq!((count_fields(&table), count_fields(b"no table")), (Ok(7), refused(21, 0)));
    assert_eq!((field_kind(b"", 0), field_short(b"", 0)), (refused(21, 0), None));
    let kinds: Vec<Kind> = (0..).map_while(|index| field_kind(&rest, index).ok()).collect();
    assert_eq!(kinds, [[Kind::Fixed; 4].as_slice(), &[Kind::Rest, Kind::Fixed]].concat());
}

/// The Tag's table as it was before records kept a number.
const OLD_TAG: &[u8] = b"\x0D\0\x01\0\x08\0\x01\0\x03\0Tag\
    \x1B\0\x02\0\x04\0Kind\x01\0K\x08\0\x08\0\x20\x02\0\x01\x07\0\0\0\0\0\x04\0\x05\0";

#[test]
fn how_often_fields_are_read() {
    let counts = |table: &[u8]| -> Vec<Result<usize, Refusal>> {
        (0..8).map(|index| count_readers(table, index)).collect()
    };
    let due = |numbers: [usize; 7]| numbers.into_iter().map(Ok).chain([refused(30, 0)]).collect::<Vec<_>>();
    assert_eq!(counts(&blade()), due([0, 1, 1, 0, 0, 0, 0]));
    let more = blade_with("Sum: 2 bytes.", "Sum: 2 bytes; L == 1 || V + V < N.").unwrap();
    assert_eq!(counts(&more), due([2, 2, 2, 0, 0, 0, 0]));
    assert_eq!(count_readers(&more, usize::MAX), refused(30, 0));
    // The number of Version, the first field, behind the head and its own length and kind.
    let mut wrong = more.clone();
    assert_eq!(wrong[22..28], [32, 0, 12, 0, 2, 0]);
    wrong[26] = 1;
    assert_eq!((check_table(&wrong), count_readers(&wrong, 0)), (refused(21, 0), refused(21, 0)));
}

#[test]
fn old_tables_are_converted() {
    let tag = table_of(one_byte("Kind (K): 1 byte; K == 7.").as_bytes()).unwrap();
    assert_eq!(check_table(OLD_TAG), refused(21, 0));
    let mut out = [0xEE; 50];
    assert_eq!(convert_table(OLD_TAG, &mut out[..45]), refused(11, 0));
    assert_eq!(convert_table(&tag, &mut out), refused(21, 0));
    assert_eq!(convert_table(&OLD_TAG[..43], &mut out), refused(21, 0));
    assert_eq!(out, [0xEE; 50]);
    assert_eq!(convert_table(OLD_TAG, &mut out), Ok(46));
    assert_eq!((&out[..46], &out[46..]), (&tag[..], &[0xEE; 4][..]));
    assert_eq!((converted(OLD_TAG), converted(&tag)), (Ok(tag), refused(21, 0)));
}

#[test]
fn empty_slices() {
    assert_eq!(write_table(b"", &mut []), refused(3, 1));
    assert_eq!(write_table(BLADE, &mut []), refused(11, 0));
    assert_eq!(check_table(b""), refused(21, 0));
    assert_eq!(read_packet(b"", b"", &mut []), refused(21, 0));
    assert_eq!(read_packet(&blade(), &M1, &mut []), refused(23, 0));
    assert_eq!(field_bytes(b"", b"", 0), b"");
    assert_eq!(list_packet(b"", b"", &mut []), refused(11, 0));
    assert_eq!(listing(b"", b""), b"refused 21 at 0\n");
    assert_eq!(find_field(&blade(), b""), refused(30, 0));
    assert_eq!(field_label(b"", 0), None);
    assert_eq!(count_readers(b"", 0), refused(21, 0));
    assert_eq!(convert_table(b"", &mut []), refused(21, 0));
    assert_eq!(convert_table(OLD_TAG, &mut []), refused(11, 0));
}
