//! The limits of documents 01 and 02 that a caller meets, and how long a lent buffer has to be at most.

/// The most bytes of a page text.
pub const TEXT_MOST: usize = 16_384;
/// The most bytes of a page's line, its LF not counted.
pub const LINE_MOST: usize = 1_024;
/// The most fields of a page or a table.
pub const FIELDS_MOST: usize = 128;
/// The most bytes of a packet.
pub const PACKET_MOST: usize = 8_191;

const LABEL_MOST: usize = 40;
const SHORT_MOST: usize = 8;
const STORED_MOST: usize = 120;

/// A run of so many numbers is long enough for every table: four for each field.
pub const RUN_MOST: usize = 4 * FIELDS_MOST;
/// An output of so many bytes has room for every table: the head, the records of the fields, and the end.
pub const TABLE_MOST: usize = 10 + LABEL_MOST + FIELDS_MOST * RECORD_MOST + 4;
/// Length, kind and number, label, short name, unit, and three expressions, each behind its length.
const RECORD_MOST: usize = 6 + (2 + LABEL_MOST) + (2 + SHORT_MOST) + 2 + 3 * (2 + STORED_MOST);
/// An output of so many bytes has room for every listing: the line of each field, and `bits 65528` with its LF.
pub const LISTING_MOST: usize = FIELDS_MOST * LISTED_MOST + 11;
/// A label, `: `, an offset of five digits, a width of two, a value of ten, two spaces and LF. The line of a long field
/// is shorter: its width has five digits at most, and it has no value.
const LISTED_MOST: usize = LABEL_MOST + 2 + 5 + 2 + 10 + 2 + 1;

/// A state of so many bytes holds what is kept of a text between its pieces; [`crate::Pieces`] has one.
pub const STATE_BYTES: usize = 70_411;
