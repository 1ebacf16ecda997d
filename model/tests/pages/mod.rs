//! Texts of a few field lines, and tables put together from records.
#![allow(dead_code)]

use umarekoza_model::{write_table, Refusal};

/// A text with a row of 8 bits for each line: a long row for a line that is not of `1 byte`. A cell shows the label.
pub fn page(lines: &[&str]) -> String {
    let border = "+-+-+-+-+-+-+-+-+\n";
    let row = |line: &&str| {
        let label = line.split([':', '(']).next().unwrap().trim_end();
        let bar = if line.contains(": 1 byte") { '|' } else { ':' };
        format!("{bar}{label:^15}{bar}\n{border}")
    };
    let rows: String = lines.iter().map(row).collect();
    let rulers = " 0\n 0 1 2 3 4 5 6 7\n";
    format!("A Tag is formatted as follows:\n\n{rulers}{border}{rows}\nwhere:\n\n{}\n", lines.join("\n"))
}

/// The refusal of a text of these field lines, its place as the field line from 1.
pub fn refusal(lines: &[&str]) -> Option<(u32, u32)> {
    let above = 8 + 2 * lines.len() as u32;
    let answer = write_table(page(lines).as_bytes(), 4096);
    answer.err().map(|Refusal { number, place }| (number, place - above))
}

/// A record: its length, its kind and the parts of its body.
pub fn record(kind: u8, parts: &[&[u8]]) -> Vec<u8> {
    let body = parts.concat();
    [&[body.len() as u8 + 4, 0, kind, 0], &body[..]].concat()
}

pub fn counted(part: &[u8]) -> Vec<u8> {
    [&[part.len() as u8, 0], part].concat()
}

/// The record of a fixed field of 8 bits, without a condition, which other fields do not read.
pub fn fixed(label: &str, short: &str, constraint: &[u8]) -> Vec<u8> {
    read_fixed(0, label, short, constraint)
}

/// The same of a field that other fields read so often.
pub fn read_fixed(readers: u8, label: &str, short: &str, constraint: &[u8]) -> Vec<u8> {
    let names = [counted(label.as_bytes()), counted(short.as_bytes())].concat();
    record(12, &[&[readers, 0], &names, &[8, 0], &counted(constraint), &[0, 0]])
}

pub fn table(fields: &[Vec<u8>]) -> Vec<u8> {
    let head = record(1, &[&[8, 0, fields.len() as u8, 0], &counted(b"Tag")]);
    [head, fields.concat(), record(5, &[])].concat()
}
