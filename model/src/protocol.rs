//! The requests of the oracle and their answers, a line each; see `vectors/README.md`.

use crate::{
    check_table, convert_table, count_readers, cut_fields, field_bytes, list_packet, put_fields, read_packet,
    write_pieces, write_table, Reading, Refusal,
};

/// The answer to a request; `bad request` to a line that is none.
pub fn answer(request: &str) -> String {
    let words: Vec<&str> = request.split(' ').collect();
    answer_words(&words).unwrap_or_else(|| "bad request".to_string())
}

fn answer_words(words: &[&str]) -> Option<String> {
    let answer = match *words {
        ["text", room, text] => table_line(write_table(&from_hex(text)?, room.parse().ok()?)),
        ["pieces", room, pieces] => {
            let pieces: Vec<Vec<u8>> = pieces.split(',').map(from_hex).collect::<Option<_>>()?;
            let parts: Vec<&[u8]> = pieces.iter().map(Vec::as_slice).collect();
            table_line(write_pieces(&parts, room.parse().ok()?))
        }
        ["table", table] => settled(check_table(&from_hex(table)?).map(|()| "ok".to_string())),
        ["read", run_len, table, packet] => {
            let read = read_packet(&from_hex(table)?, &from_hex(packet)?, run_len.parse().ok()?);
            settled(read.map(|reading| reading_line(&reading)))
        }
        ["part", index, table, packet] => {
            let (start, length) = field_bytes(&from_hex(table)?, &from_hex(packet)?, index.parse().ok()?);
            format!("part {start} {length}")
        }
        ["list", table, packet] => to_hex(&list_packet(&from_hex(table)?, &from_hex(packet)?)),
        ["readers", index, table] => {
            let count = count_readers(&from_hex(table)?, index.parse().ok()?);
            settled(count.map(|count| format!("ok {count}")))
        }
        ["convert", room, table] => table_line(convert_table(&from_hex(table)?, room.parse().ok()?)),
        ["cut", first, last, room, table] => {
            let (first, last, room) = (first.parse().ok()?, last.parse().ok()?, room.parse().ok()?);
            table_line(cut_fields(&from_hex(table)?, first, last, room))
        }
        ["put", index, room, table, records] => {
            let (index, room) = (index.parse().ok()?, room.parse().ok()?);
            table_line(put_fields(&from_hex(table)?, index, &from_hex(records)?, room))
        }
        _ => return None,
    };
    Some(answer)
}

fn settled(answer: Result<String, Refusal>) -> String {
    answer.unwrap_or_else(|Refusal { number, place }| format!("refused {number} {place}"))
}

fn table_line(written: Result<Vec<u8>, Refusal>) -> String {
    settled(written.map(|table| format!("ok {}", to_hex(&table))))
}

fn reading_line(reading: &Reading) -> String {
    let mut line = format!("ok {}", reading.total);
    for [present, offset, width, value] in &reading.fields {
        line.push_str(&format!(" {present},{offset},{width},{value}"));
    }
    line
}

/// Lowercase hex, `-` for no bytes.
pub fn to_hex(bytes: &[u8]) -> String {
    if bytes.is_empty() {
        return "-".to_string();
    }
    let digit = |digit: u8| char::from(b"0123456789abcdef"[usize::from(digit & 15)]);
    bytes.iter().flat_map(|byte| [digit(byte >> 4), digit(*byte)]).collect()
}

/// The bytes of a hex word.
pub fn from_hex(word: &str) -> Option<Vec<u8>> {
    if word == "-" {
        return Some(Vec::new());
    }
    let digit = |digit: u8| char::from(digit).to_digit(16).map(|value| value as u8);
    let pair = |pair: &[u8]| match *pair {
        [high, low] => Some(digit(high)? << 4 | digit(low)?),
        _ => None,
    };
    word.as_bytes().chunks(2).map(pair).collect()
}
