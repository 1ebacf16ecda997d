//! The functions of the static library, each behind a safe one of the same name. All unsafe code is here.
//!
//! A slice crosses as its own pointer and its length; that of an empty one is not null, aligned, and valid for the
//! length 0. The library reads the shared slices only, writes within the lent ones only, and keeps no pointer;
//! Rust's borrows see to it that no two overlap.

use crate::Refusal;

#[repr(C)]
#[derive(Clone, Copy)]
pub struct Answer {
    number: u32,
    place: u32,
    length: u64,
}

#[repr(C)]
#[derive(Clone, Copy)]
pub struct Partial {
    number: u32,
    place: u32,
    length: u64,
    count: u64,
}

#[repr(C)]
#[derive(Clone, Copy)]
pub struct Span {
    offset: u64,
    length: u64,
}

impl Answer {
    /// The length that goes with an acceptance, or the refusal.
    pub fn settled(self) -> Result<u64, Refusal> {
        match self {
            Answer { number: 0, length, .. } => Ok(length),
            Answer { number, place, .. } => Err(Refusal { number, place }),
        }
    }
}

impl Partial {
    /// What goes with an acceptance, or the refusal; and how many fields were read.
    pub fn settled(self) -> (Result<u64, Refusal>, usize) {
        let Partial { number, place, length, count } = self;
        (Answer { number, place, length }.settled(), count as usize)
    }
}

impl Span {
    /// The part of `whole` that the span is.
    pub fn part_of(self, whole: &[u8]) -> &[u8] {
        &whole[self.offset as usize..][..self.length as usize]
    }
}

mod library {
    use super::{Answer, Partial, Span};

    extern "C" {
        pub fn umarekoza_write_table(
            text: *const u8,
            text_len: usize,
            out: *mut u8,
            out_len: usize,
        ) -> Answer;
        pub fn umarekoza_check_table(table: *const u8, table_len: usize) -> Answer;
        pub fn umarekoza_read_packet(
            table: *const u8,
            table_len: usize,
            packet: *const u8,
            packet_len: usize,
            run: *mut u32,
            run_len: usize,
        ) -> Answer;
        pub fn umarekoza_field_bytes(
            table: *const u8,
            table_len: usize,
            packet: *const u8,
            packet_len: usize,
            index: usize,
        ) -> Span;
        pub fn umarekoza_list_packet(
            table: *const u8,
            table_len: usize,
            packet: *const u8,
            packet_len: usize,
            out: *mut u8,
            out_len: usize,
        ) -> Answer;
        pub fn umarekoza_find_field(
            table: *const u8,
            table_len: usize,
            name: *const u8,
            name_len: usize,
        ) -> Answer;
        pub fn umarekoza_field_label(table: *const u8, table_len: usize, index: usize) -> Span;
        pub fn umarekoza_field_short(table: *const u8, table_len: usize, index: usize) -> Span;
        pub fn umarekoza_count_fields(table: *const u8, table_len: usize) -> Answer;
        pub fn umarekoza_field_kind(table: *const u8, table_len: usize, index: usize) -> Answer;
        pub fn umarekoza_count_readers(table: *const u8, table_len: usize, index: usize) -> Answer;
        pub fn umarekoza_convert_table(
            table: *const u8,
            table_len: usize,
            out: *mut u8,
            out_len: usize,
        ) -> Answer;
        pub fn umarekoza_cut_fields(
            table: *const u8,
            table_len: usize,
            first: usize,
            last: usize,
            out: *mut u8,
            out_len: usize,
        ) -> Answer;
        pub fn umarekoza_put_fields(
            table: *const u8,
            table_len: usize,
            index: usize,
            records: *const u8,
            records_len: usize,
            out: *mut u8,
            out_len: usize,
        ) -> Answer;
        pub fn umarekoza_read_partly(
            table: *const u8,
            table_len: usize,
            packet: *const u8,
            packet_len: usize,
            run: *mut u32,
            run_len: usize,
        ) -> Partial;
        pub fn umarekoza_text_start(state: *mut u8, state_len: usize);
        pub fn umarekoza_text_piece(state: *mut u8, state_len: usize, piece: *const u8, piece_len: usize);
        pub fn umarekoza_text_end(state: *const u8, state_len: usize, out: *mut u8, out_len: usize)
            -> Answer;
    }
}

pub fn write_table(text: &[u8], out: &mut [u8]) -> Answer {
    let (out, room) = (out.as_mut_ptr(), out.len());
    // SAFETY: both pointers are valid for their lengths, and `out` is lent for the call alone.
    unsafe { library::umarekoza_write_table(text.as_ptr(), text.len(), out, room) }
}

pub fn check_table(table: &[u8]) -> Answer {
    // SAFETY: the pointer is valid for its length.
    unsafe { library::umarekoza_check_table(table.as_ptr(), table.len()) }
}

pub fn read_packet(table: &[u8], packet: &[u8], run: &mut [u32]) -> Answer {
    let (run, run_len) = (run.as_mut_ptr(), run.len());
    let (table_at, packet_at) = (table.as_ptr(), packet.as_ptr());
    // SAFETY: all pointers are valid for their lengths, and `run` is aligned and lent for the call alone.
    unsafe { library::umarekoza_read_packet(table_at, table.len(), packet_at, packet.len(), run, run_len) }
}

pub fn field_bytes(table: &[u8], packet: &[u8], index: usize) -> Span {
    let (table_at, packet_at) = (table.as_ptr(), packet.as_ptr());
    // SAFETY: both pointers are valid for their lengths.
    unsafe { library::umarekoza_field_bytes(table_at, table.len(), packet_at, packet.len(), index) }
}

pub fn list_packet(table: &[u8], packet: &[u8], out: &mut [u8]) -> Answer {
    let (out, room) = (out.as_mut_ptr(), out.len());
    let (table_at, packet_at) = (table.as_ptr(), packet.as_ptr());
    // SAFETY: all pointers are valid for their lengths, and `out` is lent for the call alone.
    unsafe { library::umarekoza_list_packet(table_at, table.len(), packet_at, packet.len(), out, room) }
}

pub fn find_field(table: &[u8], name: &[u8]) -> Answer {
    // SAFETY: both pointers are valid for their lengths.
    unsafe { library::umarekoza_find_field(table.as_ptr(), table.len(), name.as_ptr(), name.len()) }
}

pub fn field_label(table: &[u8], index: usize) -> Span {
    // SAFETY: the pointer is valid for its length.
    unsafe { library::umarekoza_field_label(table.as_ptr(), table.len(), index) }
}

pub fn field_short(table: &[u8], index: usize) -> Span {
    // SAFETY: the pointer is valid for its length.
    unsafe { library::umarekoza_field_short(table.as_ptr(), table.len(), index) }
}

pub fn count_fields(table: &[u8]) -> Answer {
    // SAFETY: the pointer is valid for its length.
    unsafe { library::umarekoza_count_fields(table.as_ptr(), table.len()) }
}

pub fn field_kind(table: &[u8], index: usize) -> Answer {
    // SAFETY: the pointer is valid for its length.
    unsafe { library::umarekoza_field_kind(table.as_ptr(), table.len(), index) }
}

pub fn count_readers(table: &[u8], index: usize) -> Answer {
    // SAFETY: the pointer is valid for its length.
    unsafe { library::umarekoza_count_readers(table.as_ptr(), table.len(), index) }
}

pub fn convert_table(table: &[u8], out: &mut [u8]) -> Answer {
    let (out, room) = (out.as_mut_ptr(), out.len());
    // SAFETY: both pointers are valid for their lengths, and `out` is lent for the call alone.
    unsafe { library::umarekoza_convert_table(table.as_ptr(), table.len(), out, room) }
}

pub fn cut_fields(table: &[u8], first: usize, last: usize, out: &mut [u8]) -> Answer {
    let (out, room) = (out.as_mut_ptr(), out.len());
    // SAFETY: both pointers are valid for their lengths, and `out` is lent for the call alone.
    unsafe { library::umarekoza_cut_fields(table.as_ptr(), table.len(), first, last, out, room) }
}

pub fn put_fields(table: &[u8], index: usize, records: &[u8], out: &mut [u8]) -> Answer {
    let (out, room) = (out.as_mut_ptr(), out.len());
    let (table_at, records_at) = (table.as_ptr(), records.as_ptr());
    // SAFETY: all pointers are valid for their lengths, and `out` is lent for the call alone.
    unsafe {
        library::umarekoza_put_fields(table_at, table.len(), index, records_at, records.len(), out, room)
    }
}

pub fn read_partly(table: &[u8], packet: &[u8], run: &mut [u32]) -> Partial {
    let (run, run_len) = (run.as_mut_ptr(), run.len());
    let (table_at, packet_at) = (table.as_ptr(), packet.as_ptr());
    // SAFETY: all pointers are valid for their lengths, and `run` is aligned and lent for the call alone.
    unsafe { library::umarekoza_read_partly(table_at, table.len(), packet_at, packet.len(), run, run_len) }
}

pub fn text_start(state: &mut [u8]) {
    // SAFETY: the pointer is valid for its length, and `state` is lent for the call alone.
    unsafe { library::umarekoza_text_start(state.as_mut_ptr(), state.len()) }
}

pub fn text_piece(state: &mut [u8], piece: &[u8]) {
    let (state, state_len) = (state.as_mut_ptr(), state.len());
    // SAFETY: both pointers are valid for their lengths, and `state` is lent for the call alone.
    unsafe { library::umarekoza_text_piece(state, state_len, piece.as_ptr(), piece.len()) }
}

pub fn text_end(state: &[u8], out: &mut [u8]) -> Answer {
    let (out, room) = (out.as_mut_ptr(), out.len());
    // SAFETY: both pointers are valid for their lengths, and `out` is lent for the call alone.
    unsafe { library::umarekoza_text_end(state.as_ptr(), state.len(), out, room) }
}
