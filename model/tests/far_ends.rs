//! The generated cases reach the far ends of the limits, and those of the limits before [02, R-10].

use std::collections::BTreeMap;
use umarekoza_model::generate::{packet, table, tail, text, Rng};
use umarekoza_model::{check_table, count_fields, list_packet, read_packet, write_table, Refusal};

/// A record with its number, a label of 40 bytes, a short name of 8, a width of 119 (no number can be stored in 120),
/// and a constraint and a condition of 120.
const LONGEST_RECORD: usize = 4 + 2 + 42 + 10 + 2 + 121 + 2 * 122;
/// The head, 128 such records and the end.
const LONGEST_TABLE: usize = 50 + 128 * LONGEST_RECORD + 4;
/// No text has room for 68 such records; some tables of texts are about as long.
const LONG_TABLE: usize = 50 + 66 * LONGEST_RECORD + 4;
const ROOM: usize = 1 << 16;
const RUN: usize = 4 * 128;

#[test]
fn tables_as_long_as_can_be() {
    let mut rng = Rng::new(1);
    let tables: Vec<Vec<u8>> = (0..20_000).map(|_| table(&mut rng)).collect();
    let longest: Vec<&Vec<u8>> = tables.iter().filter(|table| table.len() == LONGEST_TABLE).collect();
    let good = longest.iter().filter(|table| check_table(table).is_ok()).count();
    assert!(good >= 5, "{good} good tables of {LONGEST_TABLE} bytes");
    assert!(longest.len() > good, "all of them are good");
    let read = |table: &&&Vec<u8>| read_packet(table, &packet(&mut rng, table), RUN).is_ok();
    let accepted = longest.iter().filter(read).count();
    assert!(accepted > 2, "{accepted} packets are accepted");
    assert!(tables.iter().all(|table| table.len() <= LONGEST_TABLE || check_table(table).is_err()));
}

#[test]
fn texts_of_long_tables_and_of_many_lines() {
    let mut rng = Rng::new(2);
    let (mut long, mut rows, mut lines) = (0, 0, 0);
    let mut fields = [0; 11];
    for _ in 0..24_000 {
        match write_table(&text(&mut rng), ROOM) {
            Ok(table) => long += usize::from(table.len() >= LONG_TABLE),
            Err(Refusal { number: 3, place }) => {
                rows += usize::from((256..1000).contains(&place));
                lines += usize::from(place > 4096);
            }
            Err(Refusal { number, place }) if place > 256 => fields[number as usize] += 1,
            Err(_) => {}
        }
    }
    assert!(long > 5 && rows > 5 && lines > 5, "{long}, {rows}, {lines}");
    assert!(fields[5..=10].iter().all(|count| *count > 0), "{fields:?}");
}

/// How many texts or tables of each number of fields are accepted.
fn accepted(tables: impl Iterator<Item = Vec<u8>>) -> BTreeMap<usize, usize> {
    let mut counts = BTreeMap::new();
    for count in tables.filter_map(|table| count_fields(&table).ok()) {
        *counts.entry(count).or_default() += 1;
    }
    counts
}

#[test]
fn texts_and_tables_of_many_fields() {
    let mut rng = Rng::new(4);
    let mut over = 0;
    let texts = accepted((0..6000).filter_map(|_| match write_table(&text(&mut rng), ROOM) {
        Err(Refusal { number: 4, .. }) => {
            over += 1;
            None
        }
        answer => answer.ok(),
    }));
    assert!(over > 50, "{over} texts of over 128 fields");
    let tables = accepted((0..9000).map(|_| table(&mut rng)));
    for counts in [texts, tables] {
        for count in [64, 65, 127, 128] {
            assert!(counts.get(&count).is_some_and(|found| *found > 5), "{count} fields: {counts:?}");
        }
        assert!(counts.range(66..127).count() > 10 && counts.range(129..).next().is_none(), "{counts:?}");
    }
}

/// The number of fields that a table states.
fn stated(table: &[u8]) -> Option<usize> {
    Some(usize::from(u16::from_le_bytes([*table.get(6)?, *table.get(7)?])))
}

#[test]
fn tables_of_too_many_fields() {
    let mut rng = Rng::new(5);
    let tables: Vec<Vec<u8>> = (0..9000).map(|_| table(&mut rng)).collect();
    for count in [129, 130, 256, 257, 258] {
        let found = tables.iter().filter(|table| stated(table) == Some(count)).count();
        assert!(found > 0, "no table of {count} fields");
    }
}

#[test]
fn packets_at_their_limits() {
    let mut rng = Rng::new(6);
    let (mut read, mut refused) = (BTreeMap::new(), BTreeMap::new());
    for _ in 0..9000 {
        let table = table(&mut rng);
        let packet = packet(&mut rng, &table);
        match read_packet(&table, &packet, RUN) {
            Ok(_) => *read.entry(packet.len()).or_insert(0) += 1,
            Err(Refusal { number: 22, .. }) => *refused.entry(packet.len()).or_insert(0) += 1,
            Err(_) => {}
        }
    }
    for length in [2_047, 2_048, 2_049, 8_190, 8_191] {
        assert!(read.get(&length).is_some_and(|found| *found > 5), "{length} bytes: {read:?}");
    }
    assert!(read.range(2_050..8_190).count() > 5 && read.range(8_192..).next().is_none(), "{read:?}");
    assert!(refused.contains_key(&8_192) && refused.keys().all(|length| *length > 8_191), "{refused:?}");
}

#[test]
fn listings_as_long_as_can_be_and_many_bits_behind_a_rest_field() {
    let mut rng = Rng::new(3);
    let (mut long, mut missing, mut accepted) = (0, 0, 0);
    for _ in 0..200 {
        let (table, packet) = tail(&mut rng);
        long += usize::from(list_packet(&table, &packet).len() > 7_800);
        match read_packet(&table, &packet, RUN) {
            Ok(_) => accepted += 1,
            Err(Refusal { number, .. }) => missing += usize::from(number == 24),
        }
    }
    assert!(long > 20 && missing > 5 && accepted > 50, "{long}, {missing}, {accepted}");
}
