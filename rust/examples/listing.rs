//! Prints the listing of a packet by a page: `cargo run --example listing PAGE PACKET`, from files; without them the
//! blade report of document 01 and its first marked packet.

use std::error::Error;
use std::io::{self, Write};
use std::{env, fs};

const PAGE: &[u8] = include_bytes!("../../examples/pages/blade-report.txt");
const PACKET: [u8; 8] = [0x62, 0x07, 0x01, 0x2C, 0xAA, 0xBB, 0x00, 0x09];

fn main() -> Result<(), Box<dyn Error>> {
    let files: Vec<String> = env::args().skip(1).collect();
    let (page, packet) = match files.as_slice() {
        [] => (PAGE.to_vec(), PACKET.to_vec()),
        [page, packet] => (fs::read(page)?, fs::read(packet)?),
        _ => return Err("give a page and a packet, or nothing".into()),
    };
    let table = umarekoza::table_of(&page)?;
    io::stdout().write_all(&umarekoza::listing(&table, &packet))?;
    Ok(())
}
