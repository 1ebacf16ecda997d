//! The stored cases of `vectors/`: every function that has requests there answers each as it stands.

use std::fs;
use std::path::Path;
use umarekoza::*;

/// The files, and how many lines each has.
const FILES: [(&str, usize); 14] = [
    ("base2.tsv", 200),
    ("large.tsv", 24),
    ("r9.tsv", 150),
    ("r1.tsv", 300),
    ("r4.tsv", 400),
    ("r5.tsv", 300),
    ("tables.tsv", 512),
    ("packets.tsv", 494),
    ("spelled.tsv", 94),
    ("edge.tsv", 389),
    ("mutated.tsv", 540),
    ("r10.tsv", 47),
    ("r2.tsv", 181),
    ("r7.tsv", 187),
];

/// The bytes of a hex word, `-` for none.
fn bytes(word: &str) -> Vec<u8> {
    let word = word.trim_start_matches('-');
    (0..word.len()).step_by(2).map(|at| u8::from_str_radix(&word[at..at + 2], 16).unwrap()).collect()
}

fn hex(bytes: &[u8]) -> String {
    bytes.iter().map(|byte| format!("{byte:02x}")).collect()
}

fn number(word: &str) -> usize {
    word.parse().unwrap()
}

fn settled(answer: Result<String, Refusal>) -> String {
    answer.unwrap_or_else(|Refusal { number, place }| format!("refused {number} {place}"))
}

/// The answer to `text`; with room enough, `table_of` gives the same.
fn written(room: usize, text: &[u8]) -> String {
    let mut out = vec![0; room];
    let written = write_table(text, &mut out).map(|length| out[..length].to_vec());
    if !matches!(written, Err(Refusal { number: 11, .. })) {
        assert_eq!(table_of(text), written);
    }
    settled(written.map(|table| format!("ok {}", hex(&table))))
}

/// The answer to `read`; with a run that is long enough, `fields_of` answers the same.
fn read(run_len: usize, table: &[u8], packet: &[u8]) -> Result<String, Refusal> {
    let mut run = vec![0; run_len];
    let (answer, fields) = (read_packet(table, packet, &mut run), fields_of(table, packet));
    if !matches!(answer, Err(Refusal { number: 23, .. })) {
        assert_eq!(fields.as_ref().err(), answer.as_ref().err());
    }
    let mut line = format!("ok {}", answer?);
    for (field, four) in fields?.into_iter().zip(run.chunks_exact(4)) {
        assert_eq!(field, Field::from([four[0], four[1], four[2], four[3]]));
        line.push_str(&format!(" {},{},{},{}", four[0], four[1], four[2], four[3]));
    }
    Ok(line)
}

/// The answer to what writes a good table to an output of so many bytes; with room enough, `whole` gives the same.
fn made(
    room: usize,
    write: impl Fn(&mut [u8]) -> Result<usize, Refusal>,
    whole: impl Fn() -> Result<Vec<u8>, Refusal>,
) -> String {
    let mut out = vec![0; room];
    let made = write(&mut out).map(|length| out[..length].to_vec());
    match &made {
        Err(refusal) => assert!(out.iter().all(|byte| *byte == 0), "{refusal}"),
        Ok(table) => assert_eq!(check_table(table), Ok(())),
    }
    if !matches!(made, Err(Refusal { number: 11, .. })) {
        assert_eq!(whole(), made);
    }
    settled(made.map(|table| format!("ok {}", hex(&table))))
}

fn answer(request: &str) -> String {
    let words: Vec<&str> = request.split(' ').collect();
    match *words {
        ["table", table] => {
            let table = bytes(table);
            // The number of fields stands in the head, behind its length, kind and W.
            let count = |()| usize::from(u16::from_le_bytes([table[6], table[7]]));
            assert_eq!(count_fields(&table), check_table(&table).map(count));
            settled(check_table(&table).map(|()| "ok".to_string()))
        }
        ["read", run_len, table, packet] => settled(read(number(run_len), &bytes(table), &bytes(packet))),
        ["part", index, table, packet] => {
            let packet = bytes(packet);
            let part = field_bytes(&bytes(table), &packet, number(index));
            format!("part {} {}", part.as_ptr() as usize - packet.as_ptr() as usize, part.len())
        }
        ["list", table, packet] => hex(&listing(&bytes(table), &bytes(packet))),
        ["readers", index, table] => {
            settled(count_readers(&bytes(table), number(index)).map(|count| format!("ok {count}")))
        }
        _ => new_table(&words),
    }
}

/// The answer to a request for a new table.
fn new_table(words: &[&str]) -> String {
    match *words {
        ["text", room, text] => written(number(room), &bytes(text)),
        ["pieces", room, words] => {
            let mut pieces = Pieces::new();
            words.split(',').for_each(|word| pieces.piece(&bytes(word)));
            made(number(room), |out| pieces.end(out), || pieces.table())
        }
        ["convert", room, table] => {
            let old = bytes(table);
            made(number(room), |out| convert_table(&old, out), || converted(&old))
        }
        ["cut", first, last, room, table] => {
            let (first, last, table) = (number(first), number(last), bytes(table));
            let whole = || without_fields(&table, first, last);
            made(number(room), |out| cut_fields(&table, first, last, out), whole)
        }
        ["put", index, room, table, records] => {
            let (index, table, records) = (number(index), bytes(table), bytes(records));
            let whole = || with_fields(&table, index, &records);
            made(number(room), |out| put_fields(&table, index, &records, out), whole)
        }
        _ => panic!("no request: {words:?}"),
    }
}

#[test]
fn stored_cases_are_answered() {
    let folder = Path::new(env!("CARGO_MANIFEST_DIR")).join("../vectors");
    for (file, count) in FILES {
        let lines = fs::read_to_string(folder.join(file)).unwrap();
        assert_eq!(lines.lines().count(), count, "{file}");
        for (line, at) in lines.lines().zip(1..) {
            let (request, expected) = line.split_once('\t').unwrap();
            assert_eq!(answer(request), expected, "{file}, line {at}");
        }
    }
}
