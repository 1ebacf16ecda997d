//! Packet diagrams as a person writes them, turned into field tables, and packets read by a table: safe calls of
//! the proved static library `libumarekoza.a`. Document 01 has the rules, the numbers and the places; [`Refusal`]
//! names the four numbers that it does not have.
//!
//! Every function answers for every input and panics for none. Functions that write to a lent slice change no
//! byte of it where they refuse, and nothing beyond what they write where they accept; [`read_partly`] alone writes
//! what it read before a refusal.
//!
//! A page that comes in pieces is read by [`Pieces`], one that is there whole by [`table_of`].
//!
//! The library uses the stack of the thread that calls it: a call may need up to some 100 kilobytes.
//!
//! ```
//! let page = "\
//! A Blade Report is formatted as follows:
//!
//!  0                   1
//!  0 1 2 3 4 5 6 7 8 9 0 1 2 3 4 5
//! +-+-+-+-+-+-+-+-+-+-+-+-+-+-+-+-+
//! | V |L|  Cells  |     Blade     |
//! +-+-+-+-+-+-+-+-+-+-+-+-+-+-+-+-+
//! |           Borrower            |
//! +-+-+-+-+-+-+-+-+-+-+-+-+-+-+-+-+
//! :            Readings           :
//! +-+-+-+-+-+-+-+-+-+-+-+-+-+-+-+-+
//! |             Sum               |
//! +-+-+-+-+-+-+-+-+-+-+-+-+-+-+-+-+
//!
//! where:
//!
//! Version (V): 2 bits; V == 1.
//! On Loan (L): 1 bit.
//! Cells (N): 5 bits; N <= 20.
//! Blade: 1 byte.
//! Borrower (Bor): 2 bytes; present only when L == 1.
//! Readings: N bytes.
//! Sum: 2 bytes.
//! ";
//! let table = umarekoza::table_of(page.as_bytes())?;
//! let packet = [0x62, 0x07, 0x01, 0x2C, 0xAA, 0xBB, 0x00, 0x09];
//! let readings = umarekoza::find_field(&table, b"Readings")?;
//! assert_eq!(umarekoza::field_bytes(&table, &packet, readings), [0xAA, 0xBB]);
//! assert!(umarekoza::listing(&table, &packet).starts_with(b"Version: 0 2 1\nOn Loan: 2 1 1\n"));
//! # Ok::<(), umarekoza::Refusal>(())
//! ```

#![warn(missing_docs)]

mod calls;
mod edits;
mod limits;
mod meanings;
mod packets;
mod pieces;
mod refusal;
mod tables;

pub use edits::{cut_fields, put_fields, with_fields, without_fields};
pub use limits::{
    FIELDS_MOST, LINE_MOST, LISTING_MOST, PACKET_MOST, RUN_MOST, STATE_BYTES, TABLE_MOST, TEXT_MOST,
};
pub use meanings::{meanings, Meaning};
pub use packets::{field_bytes, fields_of, list_packet, listing, read_packet, read_partly, Field};
pub use pieces::{text_end, text_piece, text_start, Pieces};
pub use refusal::Refusal;
pub use tables::{
    check_table, convert_table, converted, count_fields, count_readers, field_kind, field_label, field_short,
    find_field, table_of, write_table, Kind,
};

/// The version of this crate and of the library's header.
pub const VERSION: &str = env!("CARGO_PKG_VERSION");

/// What `write` writes to an output of `room` bytes.
fn written(room: usize, write: impl FnOnce(&mut [u8]) -> Result<usize, Refusal>) -> Result<Vec<u8>, Refusal> {
    let mut out = vec![0; room];
    let length = write(&mut out)?;
    out.truncate(length);
    Ok(out)
}
