//! The stored cases of `vectors/`: the library answers every request as it stands there, and as the model does.

use crate::calls::{Calls, Settled, Wrong};
use crate::cases::Case;
use crate::comparisons::compare;
use std::fs;
use std::path::Path;
use umarekoza::LISTING_MOST;
use umarekoza_model::generate::{Cut, Put};
use umarekoza_model::protocol::from_hex;
use umarekoza_model::{Reading, Refusal};

/// The files of stored cases.
pub const FILES: [&str; 14] = [
    "base2.tsv",
    "large.tsv",
    "r9.tsv",
    "r1.tsv",
    "r4.tsv",
    "r5.tsv",
    "tables.tsv",
    "packets.tsv",
    "spelled.tsv",
    "edge.tsv",
    "mutated.tsv",
    "r10.tsv",
    "r2.tsv",
    "r7.tsv",
];

/// Compares all requests.
pub fn compare_all(calls: &mut Calls) -> Result<(), Wrong> {
    let folder = Path::new(env!("CARGO_MANIFEST_DIR")).join("../vectors");
    for file in FILES {
        let lines =
            fs::read_to_string(folder.join(file)).map_err(|error| format!("vectors/{file}: {error}"))?;
        for (number, line) in lines.lines().enumerate() {
            compare_line(calls, line)
                .map_err(|wrong| format!("vectors/{file}, line {}: {wrong}\n{line}", number + 1))?;
        }
    }
    Ok(())
}

fn compare_line(calls: &mut Calls, line: &str) -> Result<(), Wrong> {
    let no_request = || "no request with its answer".to_string();
    let (request, answer) = line.split_once('\t').ok_or_else(no_request)?;
    let words: Vec<&str> = request.split(' ').collect();
    compare_stored(calls, &words, answer).ok_or_else(no_request)??;
    compare(calls, &case(&words).ok_or_else(no_request)?)
}

/// The texts, tables and packets of a request.
fn case(words: &[&str]) -> Option<Case> {
    Some(match *words {
        ["text", _, text] => Case::Text(from_hex(text)?),
        ["pieces", _, pieces] => Case::Text(parts(pieces)?.concat()),
        ["table", table] | ["readers", _, table] => {
            Case::Packet { table: from_hex(table)?, packet: Vec::new() }
        }
        ["convert", _, table] => Case::Old(from_hex(table)?),
        ["cut", first, last, _, table] => {
            let (first, last) = (first.parse().ok()?, last.parse().ok()?);
            Case::Cut(Cut { table: from_hex(table)?, first, last })
        }
        ["put", index, _, table, records] => {
            let (table, records) = (from_hex(table)?, from_hex(records)?);
            Case::Put(Put { table, index: index.parse().ok()?, records })
        }
        ["read", _, table, packet] | ["part", _, table, packet] | ["list", table, packet] => {
            Case::Packet { table: from_hex(table)?, packet: from_hex(packet)? }
        }
        _ => return None,
    })
}

/// Compares what the library does on a request with the answer that stands there; none if these are none.
fn compare_stored(calls: &mut Calls, words: &[&str], answer: &str) -> Option<Result<(), Wrong>> {
    Some(match *words {
        ["text" | "pieces" | "convert" | "cut" | "put", ..] => return compare_written(calls, words, answer),
        ["table", table] => {
            let good = |rest: &str| rest.is_empty().then_some(());
            calls.check_table(&from_hex(table)?, &settled(answer, good)?)
        }
        ["read", run_len, table, packet] => {
            let (table, packet) = (from_hex(table)?, from_hex(packet)?);
            calls.read_packet((&table, &packet), run_len.parse().ok()?, &settled(answer, reading)?)
        }
        ["part", index, table, packet] => {
            let (table, packet) = (from_hex(table)?, from_hex(packet)?);
            let (start, length) = answer.strip_prefix("part ")?.split_once(' ')?;
            let part = (start.parse().ok()?, length.parse().ok()?);
            calls.field_bytes((&table, &packet), index.parse().ok()?, part)
        }
        ["list", table, packet] => {
            let (table, packet) = (from_hex(table)?, from_hex(packet)?);
            calls.list_packet((&table, &packet), LISTING_MOST, &Ok(from_hex(answer)?))
        }
        ["readers", index, table] => {
            let count = |rest: &str| rest.parse().ok();
            calls.count_readers(&from_hex(table)?, index.parse().ok()?, &settled(answer, count)?)
        }
        _ => return None,
    })
}

/// The same of a request that asks for a table.
fn compare_written(calls: &mut Calls, words: &[&str], answer: &str) -> Option<Result<(), Wrong>> {
    let due = settled(answer, from_hex)?;
    Some(match *words {
        ["text", room, text] => calls.write_table(&from_hex(text)?, room.parse().ok()?, &due),
        ["pieces", room, pieces] => {
            let parts = parts(pieces)?;
            let pieces: Vec<&[u8]> = parts.iter().map(Vec::as_slice).collect();
            calls.pieces(&pieces, room.parse().ok()?, &due)
        }
        ["convert", room, table] => calls.convert_table(&from_hex(table)?, room.parse().ok()?, &due),
        ["cut", first, last, room, table] => {
            let (run, room) = ((first.parse().ok()?, last.parse().ok()?), room.parse().ok()?);
            calls.cut_fields(&from_hex(table)?, run, room, &due)
        }
        ["put", index, room, table, records] => {
            let (table, records) = (from_hex(table)?, from_hex(records)?);
            let (index, room) = (index.parse().ok()?, room.parse().ok()?);
            calls.put_fields((&table, &records), index, room, &due)
        }
        _ => return None,
    })
}

/// The pieces of a text.
fn parts(pieces: &str) -> Option<Vec<Vec<u8>>> {
    pieces.split(',').map(from_hex).collect()
}

/// The refusal `refused N P`, or what stands behind `ok`.
fn settled<T>(answer: &str, accepted: impl Fn(&str) -> Option<T>) -> Option<Settled<T>> {
    if let Some(rest) = answer.strip_prefix("ok") {
        return accepted(rest.trim_start()).map(Ok);
    }
    let (number, place) = answer.strip_prefix("refused ")?.split_once(' ')?;
    Some(Err(Refusal { number: number.parse().ok()?, place: place.parse().ok()? }))
}

/// The bits, and then four numbers for each field.
fn reading(words: &str) -> Option<Reading> {
    let mut words = words.split(' ');
    let total = words.next()?.parse().ok()?;
    let four = |word: &str| -> Option<[u32; 4]> {
        let numbers: Option<Vec<u32>> = word.split(',').map(|number| number.parse().ok()).collect();
        numbers?.try_into().ok()
    };
    Some(Reading { fields: words.map(four).collect::<Option<_>>()?, total })
}
