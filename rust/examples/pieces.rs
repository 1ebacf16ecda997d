//! Prints the listing of a packet by a page that comes in pieces: `receive | cargo run --example pieces PACKET`.
//! Without a packet's file, the first marked packet of document 01.

use std::error::Error;
use std::io::{self, BufRead, Write};
use std::{env, fs};
use umarekoza::Pieces;

const PACKET: [u8; 8] = [0x62, 0x07, 0x01, 0x2C, 0xAA, 0xBB, 0x00, 0x09];

fn main() -> Result<(), Box<dyn Error>> {
    let packet = env::args().nth(1).map_or(Ok(PACKET.to_vec()), fs::read)?;
    let (mut input, mut pieces) = (io::stdin().lock(), Pieces::new());
    loop {
        let piece = input.fill_buf()?;
        let length = piece.len();
        if length == 0 {
            break;
        }
        pieces.piece(piece);
        input.consume(length);
    }
    let table = pieces.table()?;
    io::stdout().write_all(&umarekoza::listing(&table, &packet))?;
    Ok(())
}
