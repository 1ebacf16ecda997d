//! The comparison notices programs that go wrong only at the far ends of the limits: the library's functions, with
//! one fault in one of them at a time.

use umarekoza_compare::exports::{Answer, Exports, Span, LIBRARY};
use umarekoza_compare::runs::{generated, Settings};

/// No listing is longer than 7,947 bytes, and no good table than 54,454. A text has room for about half of that.
const LISTING_LIMIT: u64 = 7_800;
const TABLE_LIMIT: usize = 54_300;
const TEXT_TABLE_LIMIT: usize = 28_000;

const MANY_POWERS: usize = 200;

const NOT_GOOD: Answer = Answer { number: 21, place: 0, length: 0 };
const TOO_LONG: Answer = Answer { number: 22, place: 0, length: 0 };
const NOTHING: Span = Span { offset: 0, length: 0 };

/// A place of a text that fits some bits only, from this refusal number on.
unsafe fn folded(
    (from, places): (u32, u32),
    text: *const u8,
    text_len: usize,
    out: *mut u8,
    out_len: usize,
) -> Answer {
    let mut answer = (LIBRARY.write_table)(text, text_len, out, out_len);
    if answer.number >= from {
        answer.place %= places;
    }
    answer
}

unsafe extern "C" fn row_places(text: *const u8, n: usize, out: *mut u8, m: usize) -> Answer {
    folded((3, 512), text, n, out, m)
}

unsafe extern "C" fn last_places(text: *const u8, n: usize, out: *mut u8, m: usize) -> Answer {
    folded((3, 8192), text, n, out, m)
}

unsafe extern "C" fn line_places(text: *const u8, n: usize, out: *mut u8, m: usize) -> Answer {
    folded((5, 256), text, n, out, m)
}

unsafe extern "C" fn later_line_places(text: *const u8, n: usize, out: *mut u8, m: usize) -> Answer {
    folded((8, 256), text, n, out, m)
}

/// The place of a text in pieces fits a byte only.
unsafe extern "C" fn near_ends(state: *const u8, n: usize, out: *mut u8, m: usize) -> Answer {
    let mut answer = (LIBRARY.text_end)(state, n, out, m);
    answer.place %= 256;
    answer
}

/// Of a piece only so many bytes are taken as fit 13 bits.
unsafe extern "C" fn short_pieces(state: *mut u8, n: usize, piece: *const u8, m: usize) {
    (LIBRARY.text_piece)(state, n, piece, m.min((1 << 13) - 1));
}

/// A line of so many powers that it is too deep is a 6, even where its form is wrong further on.
unsafe extern "C" fn deep_first(text: *const u8, n: usize, out: *mut u8, m: usize) -> Answer {
    let mut answer = (LIBRARY.write_table)(text, n, out, m);
    if answer.number == 5 {
        let mut lines = std::slice::from_raw_parts(text, n).split(|byte| *byte == b'\n');
        let line = lines.nth(answer.place as usize - 1).unwrap_or_default();
        if line.iter().filter(|byte| **byte == b'^').count() > MANY_POWERS {
            answer.number = 6;
        }
    }
    answer
}

unsafe extern "C" fn no_long_table(text: *const u8, n: usize, out: *mut u8, m: usize) -> Answer {
    (LIBRARY.write_table)(text, n, out, m.min(TEXT_TABLE_LIMIT))
}

unsafe extern "C" fn long_not_good(table: *const u8, n: usize) -> Answer {
    if n > TABLE_LIMIT {
        return NOT_GOOD;
    }
    (LIBRARY.check_table)(table, n)
}

unsafe extern "C" fn long_not_read(
    table: *const u8,
    n: usize,
    packet: *const u8,
    m: usize,
    run: *mut u32,
    len: usize,
) -> Answer {
    if n > TABLE_LIMIT {
        return NOT_GOOD;
    }
    (LIBRARY.read_packet)(table, n, packet, m, run, len)
}

unsafe extern "C" fn no_long_listing(
    table: *const u8,
    n: usize,
    packet: *const u8,
    m: usize,
    out: *mut u8,
    len: usize,
) -> Answer {
    let mut answer = (LIBRARY.list_packet)(table, n, packet, m, out, len);
    answer.length = answer.length.min(LISTING_LIMIT);
    answer
}

unsafe extern "C" fn near_labels(table: *const u8, n: usize, index: usize) -> Span {
    let label = (LIBRARY.field_label)(table, n, index);
    if label.offset >= 1 << 15 {
        return NOTHING;
    }
    label
}

unsafe extern "C" fn early_fields(table: *const u8, n: usize, name: *const u8, m: usize) -> Answer {
    let mut answer = (LIBRARY.find_field)(table, n, name, m);
    answer.length %= 120;
    answer
}

/// The two-byte number at a place of a table.
fn number_in(table: &[u8], at: usize) -> Option<usize> {
    let two = table.get(at..at + 2)?;
    Some(usize::from(u16::from_le_bytes([two[0], two[1]])))
}

/// The index of the rest field of a good table, and the fixed bits behind it.
fn behind_rest(table: &[u8]) -> Option<(usize, u32)> {
    let number = |at: usize| number_in(table, at);
    let (mut at, mut index, mut found) = (number(0)?, 0, None);
    while number(at + 2)? != 5 {
        let short = at + 8 + number(at + 6)?;
        match (number(at + 2)?, &mut found) {
            (14, _) => found = Some((index, 0)),
            (12, Some((_, behind))) => *behind += number(short + 2 + number(short)?)? as u32,
            _ => {}
        }
        (at, index) = (at + number(at)?, index + 1);
    }
    found
}

/// The sum of the fixed widths behind a rest field is taken modulo 2,048.
unsafe extern "C" fn few_bits_behind(
    table: *const u8,
    n: usize,
    packet: *const u8,
    m: usize,
    run: *mut u32,
    len: usize,
) -> Answer {
    let answer = (LIBRARY.read_packet)(table, n, packet, m, run, len);
    let rest = if answer.number == 0 { behind_rest(std::slice::from_raw_parts(table, n)) } else { None };
    if let Some((index, behind)) = rest {
        *run.add(4 * index + 2) += behind - behind % 2048;
    }
    answer
}

/// Offsets of fields are taken modulo 32,768.
unsafe extern "C" fn near_offsets(
    table: *const u8,
    n: usize,
    packet: *const u8,
    m: usize,
    run: *mut u32,
    len: usize,
) -> Answer {
    let answer = (LIBRARY.read_packet)(table, n, packet, m, run, len);
    if answer.number == 0 {
        let fields = usize::from(*table.add(6));
        (0..fields).for_each(|index| *run.add(4 * index + 1) %= 32_768);
    }
    answer
}

/// The number of fields of a table whose records are as many as its head says.
fn fields_in(table: &[u8]) -> Option<usize> {
    let number = |at: usize| number_in(table, at);
    let (mut at, mut count) = (number(0)?, 0);
    while number(at + 2)? != 5 {
        (at, count) = (at + number(at)?.max(1), count + 1);
    }
    (number(6)? == count && at + 4 == table.len()).then_some(count)
}

/// Over 64 fields, document 01's most, are refused.
unsafe extern "C" fn few_fields_of_texts(text: *const u8, n: usize, out: *mut u8, m: usize) -> Answer {
    let answer = (LIBRARY.write_table)(text, n, out, m);
    if answer.number == 0 && *out.add(6) > 64 {
        return Answer { number: 4, place: 0, length: 0 };
    }
    answer
}

unsafe extern "C" fn few_fields(table: *const u8, n: usize) -> Answer {
    let answer = (LIBRARY.check_table)(table, n);
    if answer.number == 0 && *table.add(6) > 64 {
        return NOT_GOOD;
    }
    answer
}

unsafe extern "C" fn short_packets(
    table: *const u8,
    n: usize,
    packet: *const u8,
    m: usize,
    run: *mut u32,
    len: usize,
) -> Answer {
    let answer = (LIBRARY.read_packet)(table, n, packet, m, run, len);
    if answer.number == 0 && m > 2_048 {
        return TOO_LONG;
    }
    answer
}

unsafe extern "C" fn one_field_less(table: *const u8, n: usize) -> Answer {
    let answer = (LIBRARY.check_table)(table, n);
    if answer.number == 0 && *table.add(6) > 127 {
        return NOT_GOOD;
    }
    answer
}

/// A table of 129 fields is good, if there are as many records.
unsafe extern "C" fn one_field_more(table: *const u8, n: usize) -> Answer {
    if fields_in(std::slice::from_raw_parts(table, n)) == Some(129) {
        return Answer { number: 0, place: 0, length: n as u64 };
    }
    (LIBRARY.check_table)(table, n)
}

unsafe extern "C" fn one_byte_less(
    table: *const u8,
    n: usize,
    packet: *const u8,
    m: usize,
    run: *mut u32,
    len: usize,
) -> Answer {
    let answer = (LIBRARY.read_packet)(table, n, packet, m, run, len);
    if answer.number == 0 && m > 8_190 {
        return TOO_LONG;
    }
    answer
}

unsafe extern "C" fn one_byte_more(
    table: *const u8,
    n: usize,
    packet: *const u8,
    m: usize,
    run: *mut u32,
    len: usize,
) -> Answer {
    let answer = (LIBRARY.read_packet)(table, n, packet, m, run, len);
    if answer.number == 22 && m == 8_192 {
        return Answer { number: 28, place: 0, length: 0 };
    }
    answer
}

/// Numbers of readers are kept in a byte.
unsafe extern "C" fn few_readers(table: *const u8, n: usize, index: usize) -> Answer {
    let mut answer = (LIBRARY.count_readers)(table, n, index);
    answer.length %= 256;
    answer
}

/// A table of which a number of readers is over 255 is not good.
unsafe extern "C" fn small_numbers(table: *const u8, n: usize) -> Answer {
    let answer = (LIBRARY.check_table)(table, n);
    let fields = if answer.number == 0 { usize::from(*table.add(6)) } else { 0 };
    if (0..fields).any(|index| (LIBRARY.count_readers)(table, n, index).length > 255) {
        return NOT_GOOD;
    }
    answer
}

/// The readers of the last fields are not told.
unsafe extern "C" fn near_readers(table: *const u8, n: usize, index: usize) -> Answer {
    let answer = (LIBRARY.count_readers)(table, n, index);
    if answer.number == 0 && index > 126 {
        return Answer { number: 30, place: 0, length: 0 };
    }
    answer
}

/// An old table of 64 fields is not good.
unsafe extern "C" fn few_old_fields(table: *const u8, n: usize, out: *mut u8, m: usize) -> Answer {
    if n > 6 && *table.add(6) == 64 {
        return NOT_GOOD;
    }
    (LIBRARY.convert_table)(table, n, out, m)
}

const WRONG: [(&str, &str, Exports); 26] = [
    ("write_table", "places of rows modulo 512", Exports { write_table: row_places, ..LIBRARY }),
    ("write_table", "places of last lines modulo 8192", Exports { write_table: last_places, ..LIBRARY }),
    ("write_table", "places of 5 to 11 modulo 256", Exports { write_table: line_places, ..LIBRARY }),
    ("write_table", "places of 8 to 11 modulo 256", Exports { write_table: later_line_places, ..LIBRARY }),
    (
        "write_table",
        "a line that is too deep before its form",
        Exports { write_table: deep_first, ..LIBRARY },
    ),
    ("text_end", "places modulo 256", Exports { text_end: near_ends, ..LIBRARY }),
    ("text_end", "pieces of 13 bits", Exports { text_piece: short_pieces, ..LIBRARY }),
    ("write_table", "no table over the limit", Exports { write_table: no_long_table, ..LIBRARY }),
    ("check_table", "no table over the limit", Exports { check_table: long_not_good, ..LIBRARY }),
    ("read_packet", "no table over the limit", Exports { read_packet: long_not_read, ..LIBRARY }),
    (
        "read_packet",
        "bits behind a rest field modulo 2048",
        Exports { read_packet: few_bits_behind, ..LIBRARY },
    ),
    ("read_packet", "offsets modulo 32768", Exports { read_packet: near_offsets, ..LIBRARY }),
    ("list_packet", "no listing over the limit", Exports { list_packet: no_long_listing, ..LIBRARY }),
    ("find_field", "indexes modulo 120", Exports { find_field: early_fields, ..LIBRARY }),
    ("field_label", "no label beyond 32,768 bytes", Exports { field_label: near_labels, ..LIBRARY }),
    ("write_table", "over 64 fields are a 4", Exports { write_table: few_fields_of_texts, ..LIBRARY }),
    ("check_table", "over 64 fields are a 21", Exports { check_table: few_fields, ..LIBRARY }),
    ("check_table", "128 fields are a 21", Exports { check_table: one_field_less, ..LIBRARY }),
    ("check_table", "129 fields are good", Exports { check_table: one_field_more, ..LIBRARY }),
    ("read_packet", "over 2,048 bytes are a 22", Exports { read_packet: short_packets, ..LIBRARY }),
    ("read_packet", "8,191 bytes are a 22", Exports { read_packet: one_byte_less, ..LIBRARY }),
    ("read_packet", "8,192 bytes are no 22", Exports { read_packet: one_byte_more, ..LIBRARY }),
    ("count_readers", "readers modulo 256", Exports { count_readers: few_readers, ..LIBRARY }),
    ("check_table", "over 255 readers are a 21", Exports { check_table: small_numbers, ..LIBRARY }),
    ("count_readers", "field 128 is a 30", Exports { count_readers: near_readers, ..LIBRARY }),
    ("convert_table", "64 old fields are a 21", Exports { convert_table: few_old_fields, ..LIBRARY }),
];

#[test]
fn faults_at_the_far_ends_are_noticed() {
    for (call, fault, exports) in WRONG {
        let wrong = generated(Settings { cases: 40_000, seed: 1 }, exports).err();
        let wrong = wrong.unwrap_or_else(|| panic!("{call}, {fault}: not noticed"));
        assert!(wrong.contains(&format!(": {call}")), "{call}, {fault}: {wrong}");
    }
}
