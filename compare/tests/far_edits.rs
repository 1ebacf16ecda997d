//! The comparison notices programs that cut fields out or put them in wrongly only at the far ends of the limits: the
//! library's functions, with one fault in one of them at a time.

use umarekoza_compare::exports::{Answer, Exports, LIBRARY};
use umarekoza_compare::runs::{generated, Settings};

/// No good table is longer than 54,582 bytes.
const TABLE_LIMIT: usize = 54_300;
/// Lengths that fit 15 bits.
const SHORT: usize = 1 << 15;

fn refused(number: u32) -> Answer {
    Answer { number, place: 0, length: 0 }
}

/// The number of fields that the head of a table has, if there is one.
unsafe fn stated(table: *const u8, n: usize) -> usize {
    if n > 7 {
        usize::from(*table.add(6))
    } else {
        0
    }
}

/// Leaves the first byte of each number of readers in a table alone.
unsafe fn without_second_bytes(table: *mut u8, length: usize) {
    let number = |at: usize| usize::from(*table.add(at)) + 256 * usize::from(*table.add(at + 1));
    let mut at = number(0);
    while at + 4 < length {
        *table.add(at + 5) = 0;
        at += number(at);
    }
}

macro_rules! cuts {
    ($($name:ident($table:ident, $n:ident, $first:ident, $last:ident, $out:ident, $m:ident) $body:block)+) => {$(
        unsafe extern "C" fn $name(
            $table: *const u8,
            $n: usize,
            $first: usize,
            $last: usize,
            $out: *mut u8,
            $m: usize,
        ) -> Answer $body
    )+};
}

macro_rules! puts {
    ($($name:ident($table:ident, $n:ident, $index:ident, $records:ident, $k:ident, $out:ident, $m:ident)
        $body:block)+) => {$(
        unsafe extern "C" fn $name(
            $table: *const u8,
            $n: usize,
            $index: usize,
            $records: *const u8,
            $k: usize,
            $out: *mut u8,
            $m: usize,
        ) -> Answer $body
    )+};
}

cuts! {
    cut_few_fields(table, n, first, last, out, m) {
        if stated(table, n) > 64 {
            return refused(21);
        }
        (LIBRARY.cut_fields)(table, n, first, last, out, m)
    }
    cut_no_128(table, n, first, last, out, m) {
        if stated(table, n) == 128 {
            return refused(21);
        }
        (LIBRARY.cut_fields)(table, n, first, last, out, m)
    }
    cut_short_tables(table, n, first, last, out, m) {
        if n > TABLE_LIMIT {
            return refused(21);
        }
        (LIBRARY.cut_fields)(table, n, first, last, out, m)
    }
    cut_short_outputs(table, n, first, last, out, m) {
        (LIBRARY.cut_fields)(table, n, first, last, out, m.min(SHORT))
    }
    cut_short_runs(table, n, first, last, out, m) {
        let answer = (LIBRARY.cut_fields)(table, n, first, last, out, m);
        if answer.number != 21 && last >= first.saturating_add(64) {
            return refused(30);
        }
        answer
    }
    cut_near_places(table, n, first, last, out, m) {
        let mut answer = (LIBRARY.cut_fields)(table, n, first, last, out, m);
        answer.place %= 64;
        answer
    }
    cut_small_indexes(table, n, first, last, out, m) {
        (LIBRARY.cut_fields)(table, n, first % 256, last % 256, out, m)
    }
    cut_half_indexes(table, n, first, last, out, m) {
        (LIBRARY.cut_fields)(table, n, first % (1 << 16), last % (1 << 16), out, m)
    }
    cut_whole_indexes(table, n, first, last, out, m) {
        (LIBRARY.cut_fields)(table, n, first % (1 << 32), last % (1 << 32), out, m)
    }
    cut_few_readers(table, n, first, last, out, m) {
        let answer = (LIBRARY.cut_fields)(table, n, first, last, out, m);
        if answer.number == 0 {
            without_second_bytes(out, answer.length as usize);
        }
        answer
    }
}

puts! {
    put_few_fields(table, n, index, records, k, out, m) {
        let answer = (LIBRARY.put_fields)(table, n, index, records, k, out, m);
        if answer.number == 0 && *out.add(6) > 64 {
            return refused(34);
        }
        answer
    }
    put_no_128(table, n, index, records, k, out, m) {
        let answer = (LIBRARY.put_fields)(table, n, index, records, k, out, m);
        if answer.number == 0 && *out.add(6) == 128 {
            return refused(34);
        }
        answer
    }
    put_short_outputs(table, n, index, records, k, out, m) {
        (LIBRARY.put_fields)(table, n, index, records, k, out, m.min(TABLE_LIMIT))
    }
    put_short_records(table, n, index, records, k, out, m) {
        let answer = (LIBRARY.put_fields)(table, n, index, records, k, out, m);
        if answer.number == 0 && k > SHORT {
            return refused(34);
        }
        answer
    }
    put_small_indexes(table, n, index, records, k, out, m) {
        (LIBRARY.put_fields)(table, n, index % 256, records, k, out, m)
    }
    put_half_indexes(table, n, index, records, k, out, m) {
        (LIBRARY.put_fields)(table, n, index % (1 << 16), records, k, out, m)
    }
    put_whole_indexes(table, n, index, records, k, out, m) {
        (LIBRARY.put_fields)(table, n, index % (1 << 32), records, k, out, m)
    }
    put_few_readers(table, n, index, records, k, out, m) {
        let answer = (LIBRARY.put_fields)(table, n, index, records, k, out, m);
        if answer.number == 0 {
            without_second_bytes(out, answer.length as usize);
        }
        answer
    }
}

const WRONG: [(&str, &str, Exports); 18] = [
    ("cut_fields", "over 64 fields are a 21", Exports { cut_fields: cut_few_fields, ..LIBRARY }),
    ("cut_fields", "128 fields are a 21", Exports { cut_fields: cut_no_128, ..LIBRARY }),
    ("cut_fields", "no table over the limit", Exports { cut_fields: cut_short_tables, ..LIBRARY }),
    ("cut_fields", "outputs of 15 bits", Exports { cut_fields: cut_short_outputs, ..LIBRARY }),
    ("cut_fields", "runs of over 64 fields are a 30", Exports { cut_fields: cut_short_runs, ..LIBRARY }),
    ("cut_fields", "places modulo 64", Exports { cut_fields: cut_near_places, ..LIBRARY }),
    ("cut_fields", "indexes of a byte", Exports { cut_fields: cut_small_indexes, ..LIBRARY }),
    ("cut_fields", "indexes of two bytes", Exports { cut_fields: cut_half_indexes, ..LIBRARY }),
    ("cut_fields", "indexes of four bytes", Exports { cut_fields: cut_whole_indexes, ..LIBRARY }),
    ("cut_fields", "readers modulo 256", Exports { cut_fields: cut_few_readers, ..LIBRARY }),
    ("put_fields", "over 64 fields are a 34", Exports { put_fields: put_few_fields, ..LIBRARY }),
    ("put_fields", "128 fields are a 34", Exports { put_fields: put_no_128, ..LIBRARY }),
    ("put_fields", "no table over the limit", Exports { put_fields: put_short_outputs, ..LIBRARY }),
    ("put_fields", "records of 15 bits", Exports { put_fields: put_short_records, ..LIBRARY }),
    ("put_fields", "indexes of a byte", Exports { put_fields: put_small_indexes, ..LIBRARY }),
    ("put_fields", "indexes of two bytes", Exports { put_fields: put_half_indexes, ..LIBRARY }),
    ("put_fields", "indexes of four bytes", Exports { put_fields: put_whole_indexes, ..LIBRARY }),
    ("put_fields", "readers modulo 256", Exports { put_fields: put_few_readers, ..LIBRARY }),
];

#[test]
fn faults_at_the_far_ends_are_noticed() {
    let mut unnoticed = Vec::new();
    for (call, fault, exports) in WRONG {
        match generated(Settings { cases: 40_000, seed: 1 }, exports) {
            Ok(_) => unnoticed.push((call, fault)),
            Err(wrong) => assert!(wrong.contains(&format!(": {call}")), "{call}, {fault}: {wrong}"),
        }
    }
    assert!(unnoticed.is_empty(), "not noticed: {unnoticed:?}");
}
