//! The exports as the header declares them, with all that they answer. Of the safe crate `umarekoza` only the
//! limits are used here, and its link: it drops parts of an answer, so its functions are left to its own tests.

use umarekoza as _;

/// Number 0: accepted, with place 0 and a length. Else a refusal, with length 0.
#[repr(C)]
#[derive(Clone, Copy, Debug, PartialEq, Eq)]
pub struct Answer {
    pub number: u32,
    pub place: u32,
    pub length: u64,
}

/// An answer, and the number of fields that were read before a refusal.
#[repr(C)]
#[derive(Clone, Copy, Debug, PartialEq, Eq)]
pub struct Partial {
    pub number: u32,
    pub place: u32,
    pub length: u64,
    pub count: u64,
}

/// A part of a lent slice.
#[repr(C)]
#[derive(Clone, Copy, Debug, PartialEq, Eq)]
pub struct Span {
    pub offset: u64,
    pub length: u64,
}

type Check = unsafe extern "C" fn(*const u8, usize) -> Answer;
type Write = unsafe extern "C" fn(*const u8, usize, *mut u8, usize) -> Answer;
type Find = unsafe extern "C" fn(*const u8, usize, *const u8, usize) -> Answer;
type Read = unsafe extern "C" fn(*const u8, usize, *const u8, usize, *mut u32, usize) -> Answer;
type List = unsafe extern "C" fn(*const u8, usize, *const u8, usize, *mut u8, usize) -> Answer;
type Part = unsafe extern "C" fn(*const u8, usize, *const u8, usize, usize) -> Span;
type Name = unsafe extern "C" fn(*const u8, usize, usize) -> Span;
type Kind = unsafe extern "C" fn(*const u8, usize, usize) -> Answer;
type Cut = unsafe extern "C" fn(*const u8, usize, usize, usize, *mut u8, usize) -> Answer;
type Put = unsafe extern "C" fn(*const u8, usize, usize, *const u8, usize, *mut u8, usize) -> Answer;
type Start = unsafe extern "C" fn(*mut u8, usize);
type Piece = unsafe extern "C" fn(*mut u8, usize, *const u8, usize);
type ReadPartly = unsafe extern "C" fn(*const u8, usize, *const u8, usize, *mut u32, usize) -> Partial;

/// The functions that are compared with the model.
#[derive(Clone, Copy)]
pub struct Exports {
    pub write_table: Write,
    pub check_table: Check,
    pub read_packet: Read,
    pub field_bytes: Part,
    pub list_packet: List,
    pub find_field: Find,
    pub field_label: Name,
    pub field_short: Name,
    pub count_fields: Check,
    pub field_kind: Kind,
    pub count_readers: Kind,
    pub convert_table: Write,
    pub cut_fields: Cut,
    pub put_fields: Put,
    pub read_partly: ReadPartly,
    pub text_start: Start,
    pub text_piece: Piece,
    pub text_end: Write,
}

/// Those of the library.
pub const LIBRARY: Exports = Exports {
    write_table: umarekoza_write_table,
    check_table: umarekoza_check_table,
    read_packet: umarekoza_read_packet,
    field_bytes: umarekoza_field_bytes,
    list_packet: umarekoza_list_packet,
    find_field: umarekoza_find_field,
    field_label: umarekoza_field_label,
    field_short: umarekoza_field_short,
    count_fields: umarekoza_count_fields,
    field_kind: umarekoza_field_kind,
    count_readers: umarekoza_count_readers,
    convert_table: umarekoza_convert_table,
    cut_fields: umarekoza_cut_fields,
    put_fields: umarekoza_put_fields,
    read_partly: umarekoza_read_partly,
    text_start: umarekoza_text_start,
    text_piece: umarekoza_text_piece,
    text_end: umarekoza_text_end,
};

#[rustfmt::skip]
extern "C" {
    fn umarekoza_write_table(text: *const u8, text_len: usize, out: *mut u8, out_len: usize) -> Answer;
    fn umarekoza_check_table(table: *const u8, table_len: usize) -> Answer;
    fn umarekoza_read_packet(table: *const u8, table_len: usize, packet: *const u8, packet_len: usize,
                             run: *mut u32, run_len: usize) -> Answer;
    fn umarekoza_field_bytes(table: *const u8, table_len: usize, packet: *const u8, packet_len: usize,
                             index: usize) -> Span;
    fn umarekoza_list_packet(table: *const u8, table_len: usize, packet: *const u8, packet_len: usize,
                             out: *mut u8, out_len: usize) -> Answer;
    fn umarekoza_find_field(table: *const u8, table_len: usize, name: *const u8, name_len: usize) -> Answer;
    fn umarekoza_field_label(table: *const u8, table_len: usize, index: usize) -> Span;
    fn umarekoza_field_short(table: *const u8, table_len: usize, index: usize) -> Span;
    fn umarekoza_count_fields(table: *const u8, table_len: usize) -> Answer;
    fn umarekoza_field_kind(table: *const u8, table_len: usize, index: usize) -> Answer;
    fn umarekoza_count_readers(table: *const u8, table_len: usize, index: usize) -> Answer;
    fn umarekoza_convert_table(table: *const u8, table_len: usize, out: *mut u8, out_len: usize) -> Answer;
    fn umarekoza_cut_fields(table: *const u8, table_len: usize, first: usize, last: usize,
                            out: *mut u8, out_len: usize) -> Answer;
    fn umarekoza_put_fields(table: *const u8, table_len: usize, index: usize,
                            records: *const u8, records_len: usize, out: *mut u8, out_len: usize) -> Answer;
    fn umarekoza_read_partly(table: *const u8, table_len: usize, packet: *const u8, packet_len: usize,
                             run: *mut u32, run_len: usize) -> Partial;
    fn umarekoza_text_start(state: *mut u8, state_len: usize);
    fn umarekoza_text_piece(state: *mut u8, state_len: usize, piece: *const u8, piece_len: usize);
    fn umarekoza_text_end(state: *const u8, state_len: usize, out: *mut u8, out_len: usize) -> Answer;
}
