//! The examples of docs/PAGES.md are what is told.

use crate::common::BLADE;
use crate::examples::pages;
use crate::packets::{blade_with, M1};
use umarekoza_hints::{packet_hint, page_hint, plain, plain_packet, Verdict};

const PAGES: &str = include_str!("../../../docs/PAGES.md");

/// A text as docs/PAGES.md has it, indented.
fn indented(text: &str) -> String {
    text.lines().map(|line| format!("    {line}\n")).collect()
}

#[test]
fn pages_are_told_as_documented() {
    for (page, number, place) in pages().into_iter().chain([(BLADE.to_string(), 11, 0)]) {
        let hint = page_hint(page.as_bytes(), Verdict { number, place });
        let told = plain(&hint, "my-page.txt", page.as_bytes());
        assert!(PAGES.contains(&format!("\n\n{}\n", indented(&told))), "{told}");
    }
}

/// The blade report's packet, with this width of `Readings`, is told as documented.
#[track_caller]
fn packet_told(readings: &[u8], packet: &[u8], before: &[[u32; 4]], number: u32, place: u32) {
    let hint = packet_hint(&blade_with(readings), packet, before, Verdict { number, place });
    let told = plain_packet(&hint, "my-packet.bin");
    assert!(PAGES.contains(&format!("\n\n{}", indented(&told))), "{told}");
}

#[test]
fn packets_are_told_as_documented() {
    let m2 = [[1, 0, 2, 1], [1, 2, 1, 0], [1, 3, 5, 2], [1, 8, 8, 7], [0; 4]];
    let m4 = [0x62, 0x07, 0x01, 0x2C, 0xAA, 0xBB, 0x00, 0x09, 0x00];
    packet_told(&[2, 2], &m4[..5], &M1[..5], 24, 6);
    packet_told(&[2, 2], &[0x55, 0x07], &[[1, 0, 2, 1], [1, 2, 1, 0]], 25, 3);
    packet_told(&[2, 4], &[0x42, 0x07, 0xAA, 0xBB, 0x00, 0x09], &m2, 26, 6);
    packet_told(&[0x11, 2, 2, 1, 3, 0, 0, 0], &m4[..8], &M1[..5], 27, 6);
    packet_told(&[2, 2], &m4, &M1, 28, 0);
    let none = [[1, 0, 2, 1], [1, 2, 1, 1], [1, 3, 5, 0], [1, 8, 8, 7], [1, 16, 16, 300]];
    packet_told(&[0x13, 1, 6, 0, 0, 0, 2, 2], &[0x60, 0x07, 0x01, 0x2C], &none, 29, 6);
}

#[test]
fn every_number_has_an_example() {
    for number in (1..=11).chain(24..=31).chain([34]) {
        assert!(PAGES.contains(&format!("\n\n    error[{number}]: ")), "{number}");
    }
}
