//! Fields cut out of tables and put in [02, R-4]: what is due is the table of the page without or with the fields.

use umarekoza::*;

const BLADE: &str = include_str!("../../examples/pages/blade-report.txt");
const BORDER: &str = "+-+-+-+-+-+-+-+-+-+-+-+-+-+-+-+-+\n";
const OTHERS: [&str; 3] =
    ["Version (V): 2 bits; V == 1.\n", "On Loan (L): 1 bit.\n", "Cells (N): 5 bits; N <= 20.\n"];

fn refused<T>(number: u32, place: u32) -> Result<T, Refusal> {
    Err(Refusal { number, place })
}

fn table(page: &str) -> Vec<u8> {
    table_of(page.as_bytes()).unwrap()
}

/// The blade report's page with these parts left out, each of which stands there once.
fn blade_without(parts: &[&str]) -> String {
    parts.iter().fold(BLADE.to_string(), |page, part| {
        assert_eq!(page.matches(part).count(), 1, "{part}");
        page.replace(part, "")
    })
}

/// A row with its border.
fn row(row: &str) -> String {
    format!("{row}\n{BORDER}")
}

fn without_borrower() -> Vec<u8> {
    let borrower = row("|           Borrower            |");
    table(&blade_without(&[&borrower, "Borrower (Bor): 2 bytes; present only when L == 1.\n"]))
}

/// The records of fields of a table, by index.
fn records(table: &[u8], first: usize, last: usize) -> &[u8] {
    let length = |at: usize| usize::from(u16::from_le_bytes([table[at], table[at + 1]]));
    let start = |index: usize| (0..=index).fold(0, |at, _| at + length(at));
    &table[start(first)..start(last + 1)]
}

#[test]
fn what_is_left_is_the_table_of_the_page_without() {
    let blade = table(BLADE);
    assert_eq!(without_fields(&blade, 4, 4), Ok(without_borrower()));
    let long = [&row(":            Readings           :")[..], "Readings: N bytes.\n"];
    assert_eq!(without_fields(&blade, 5, 5), Ok(table(&blade_without(&long))));
    // Sum alone: what the others read is gone with them.
    let first = row("| V |L|  Cells  |     Blade     |");
    let borrower = row("|           Borrower            |");
    let lines = ["Blade: 1 byte.\n", "Borrower (Bor): 2 bytes; present only when L == 1.\n"];
    let parts = [&OTHERS[..], &lines, &long, &[&first, &borrower]].concat();
    assert_eq!(without_fields(&blade, 0, 5), Ok(table(&blade_without(&parts))));
}

#[test]
fn later_fields_get_their_new_indexes() {
    let page = |rows: &str, lines: &str| {
        let head = "A Chain is formatted as follows:\n\n 0\n 0 1 2 3 4 5 6 7\n+-+-+-+-+-+-+-+-+\n";
        let row = |label: char| match label {
            'D' => ":       D       :\n+-+-+-+-+-+-+-+-+\n".to_string(),
            label => format!("|       {label}       |\n+-+-+-+-+-+-+-+-+\n"),
        };
        let rows: String = rows.chars().map(row).collect();
        table(&format!("{head}{rows}\nwhere:\n\n{lines}"))
    };
    let chain = page("AND", "A: 1 byte.\nN: 1 byte; N < 9.\nD: N bytes.\n");
    let shorter = page("ND", "N: 1 byte; N < 9.\nD: N bytes.\n");
    assert_eq!(without_fields(&chain, 0, 0), Ok(shorter.clone()));
    assert_eq!(with_fields(&shorter, 0, records(&chain, 0, 0)), Ok(chain.clone()));
    // References in what is put in are by the new numbering: D of the chain reads field 1.
    let only_n = page("AN", "A: 1 byte.\nN: 1 byte; N < 9.\n");
    assert_eq!(without_fields(&chain, 2, 2), Ok(only_n.clone()));
    assert_eq!(with_fields(&only_n, 2, records(&chain, 2, 2)), Ok(chain.clone()));
    assert_eq!(with_fields(&shorter, 2, records(&chain, 2, 2)), refused(34, 0));
    assert_eq!(without_fields(&chain, 1, 1), refused(31, 3));
    assert_eq!(without_fields(&chain, 0, 1), refused(31, 3));
    assert_eq!(without_fields(&chain, 0, 2), refused(34, 0));
}

#[test]
fn refused_cuts_change_nothing() {
    let blade = table(BLADE);
    let mut out = [0xEE; 200];
    let mut cut = |table: &[u8], first, last, room: usize| cut_fields(table, first, last, &mut out[..room]);
    assert_eq!(cut(b"no table", 9, 0, 200), refused(21, 0));
    assert_eq!(cut(&blade[..214], 4, 4, 200), refused(21, 0));
    for (first, last) in [(1, 0), (7, 7), (0, 7), (6, 5), (0, usize::MAX), (usize::MAX, usize::MAX)] {
        assert_eq!(cut(&blade, first, last, 200), refused(30, 0), "{first} {last}");
    }
    // On Loan is read by Borrower, Cells by Readings; 31 goes before 34 and 11.
    for (first, last, place) in [(1, 1, 5), (2, 2, 6), (0, 3, 5), (0, 4, 6), (2, 4, 6)] {
        assert_eq!(cut(&blade, first, last, 0), refused(31, place), "{first} {last}");
    }
    for (first, last) in [(0, 0), (3, 3), (3, 4), (0, 6)] {
        assert_eq!(cut(&blade, first, last, 0), refused(34, 0), "{first} {last}");
    }
    assert_eq!(cut(&blade, 4, 4, 179), refused(11, 0));
    assert_eq!(cut(&blade, 4, 4, 0), refused(11, 0));
    assert_eq!(out, [0xEE; 200]);
    assert_eq!(cut_fields(&blade, 4, 4, &mut out), Ok(180));
    assert_eq!((&out[..180], &out[180..]), (&without_borrower()[..], &[0xEE; 20][..]));
}

#[test]
fn refused_records_change_nothing() {
    let (blade, shorter) = (table(BLADE), without_borrower());
    let borrower = records(&blade, 4, 4);
    let mut out = [0xEE; 250];
    let mut put = |table: &[u8], index, records: &[u8], room: usize| {
        put_fields(table, index, records, &mut out[..room])
    };
    assert_eq!(put(b"", 9, b"", 250), refused(21, 0));
    assert_eq!(put(&shorter, 4, b"", 250), refused(30, 0));
    assert_eq!(put(&shorter, 7, borrower, 250), refused(30, 0));
    assert_eq!(put(&shorter, usize::MAX, b"?", 250), refused(30, 0));
    let head = &blade[..22];
    let end = &blade[211..];
    for records in
        [&borrower[..34], b"?", head, end, &[borrower, b"\0"].concat(), &[borrower, borrower].concat()]
    {
        assert_eq!(put(&shorter, 4, records, 0), refused(34, 0), "{records:?}");
    }
    assert_eq!(put(&blade, 4, borrower, 0), refused(34, 0)); // its names are there
    assert_eq!(put(&shorter, 3, borrower, 0), refused(34, 0)); // across a row's end
    assert_eq!(put(&shorter, 1, borrower, 0), refused(34, 0)); // it would read itself
    assert_eq!(put(&shorter, 4, borrower, 214), refused(11, 0));
    assert_eq!(out, [0xEE; 250]);
    assert_eq!(put_fields(&shorter, 4, borrower, &mut out), Ok(215));
    assert_eq!((&out[..215], &out[215..]), (&blade[..], &[0xEE; 35][..]));
}

/// Whatever numbers the records have, the table has the right ones; cut out again, it is what it was.
#[test]
fn numbers_and_the_way_back() {
    let (blade, shorter) = (table(BLADE), without_borrower());
    let mut borrower = records(&blade, 4, 4).to_vec();
    for number in [0, 1, 255, 256, 0xFFFF] {
        borrower[4..6].copy_from_slice(&u16::to_le_bytes(number));
        assert_eq!(with_fields(&shorter, 4, &borrower), Ok(blade.clone()));
    }
    for (first, last) in [(4, 4), (5, 5), (6, 6), (5, 6), (4, 6), (0, 5)] {
        let cut = without_fields(&blade, first, last).unwrap();
        let back = with_fields(&cut, first, records(&blade, first, last)).unwrap();
        assert_eq!(back, blade, "{first} {last}");
        assert_eq!(without_fields(&back, first, last), Ok(cut), "{first} {last}");
    }
}

/// A run of each length of as many fields as may be, and one field too many.
#[test]
fn as_many_fields_as_may_be() {
    let head = "A Full is formatted as follows:\n\n 0\n 0 1 2 3 4 5 6 7\n+-+-+-+-+-+-+-+-+\n";
    let full = |from: usize, to: usize| {
        let row = |number| format!("|{:15}|\n+-+-+-+-+-+-+-+-+\n", format!("F{number}"));
        let rows: String = (from..to).map(row).collect();
        let lines: String = (from..to).map(|number| format!("F{number}: 1 byte.\n")).collect();
        table(&format!("{head}{rows}\nwhere:\n\n{lines}"))
    };
    let all = full(0, 128);
    for count in [1, 2, 63, 64, 65, 127] {
        assert_eq!(without_fields(&all, 0, count - 1), Ok(full(count, 128)), "{count}");
        assert_eq!(without_fields(&all, 128 - count, 127), Ok(full(0, 128 - count)), "{count}");
        assert_eq!(with_fields(&full(count, 128), 0, records(&all, 0, count - 1)), Ok(all.clone()));
        let behind = with_fields(&full(0, 128 - count), 128 - count, records(&all, 128 - count, 127));
        assert_eq!(behind, Ok(all.clone()));
    }
    assert_eq!(without_fields(&all, 0, 127), refused(34, 0));
    let one = full(200, 201);
    assert_eq!(with_fields(&all, 128, records(&one, 0, 0)), refused(34, 0));
    assert_eq!(with_fields(&one, 0, records(&all, 0, 127)), refused(34, 0));
}

#[test]
fn empty_slices() {
    let blade = table(BLADE);
    assert_eq!(cut_fields(b"", 0, 0, &mut []), refused(21, 0));
    assert_eq!(cut_fields(&blade, 4, 4, &mut []), refused(11, 0));
    assert_eq!(put_fields(b"", 0, b"", &mut []), refused(21, 0));
    assert_eq!(put_fields(&blade, 0, b"", &mut []), refused(30, 0));
}
