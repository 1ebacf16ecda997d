//! The limits that a page or a packet can exceed.

/// Bytes of a page, bytes of its line without the LF, fields, bytes of a packet.
pub const TEXT_MOST: usize = 16_384;
pub const LINE_MOST: usize = 1_024;
pub const FIELDS_MOST: usize = 128;
pub const PACKET_MOST: usize = 8_191;
/// Lines of a row between `|`.
pub const ROW_LINES: usize = 4;
/// Bytes of a label and of a short name.
pub const LABEL_MOST: usize = 40;
pub const SHORT_MOST: usize = 8;
/// Of an expression: open parentheses, the depth of its tree, the bytes of its stored form.
pub const OPEN_MOST: usize = 12;
pub const DEPTH_MOST: usize = 12;
pub const STORED_MOST: usize = 120;
