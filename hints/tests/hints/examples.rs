//! The pages of the examples in docs/PAGES.md.

use crate::common::{with, BLADE};

const TCP: &str = include_str!("../../../examples/pages/tcp.txt");

/// Refused pages, each with its number and place; 11 is none that the command can meet.
pub fn pages() -> Vec<(String, u32, u32)> {
    let remark = "x".repeat(16_385 - BLADE.len() - 1);
    let long = "x".repeat(1_030 - "Sum: 2 bytes. ".len());
    let fields: String = (8..=130).map(|field| format!("Field{field}: 1 byte.\n")).collect();
    let page = |from: &str, to: &str, number: u32, place: u32| (with(&[(from, to)]), number, place);
    let rest = ("Readings: N bytes", "Readings: variable");
    vec![
        page("Sum: 2 bytes.", &format!("Sum: 2 bytes. {remark}"), 1, 0),
        page("Blade: 1", "Blade:\t1", 2, 0),
        page("|  Cells  |     Blade     |", "|  Cells   |    Blade     |", 3, 6),
        page("Sum: 2 bytes.", &format!("Sum: 2 bytes. {long}"), 3, 23),
        (TCP.replace("|T|N|N|", "|T|N N|"), 3, 14),
        (TCP.replace("| Offset|", "| Off_et|"), 3, 14),
        (format!("{BLADE}{fields}"), 4, 0),
        page("V == 1", "V = 1", 5, 17),
        page("(L): 1 bit.", "(L): 1 bit; 1+1+1+1+1+1+1+1+1+1+1+1 == L.", 6, 18),
        page("(N): 5", "(N): 6", 7, 19),
        page("(Bor)", "(Cells)", 8, 21),
        page("Readings: N", "Readings: Sum", 9, 22),
        (with(&[rest, ("Sum: 2 bytes", "Sum: 2 bytes; present only when L == 1")]), 10, 23),
    ]
}
