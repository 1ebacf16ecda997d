use crate::{calls, written, Refusal, TABLE_MOST};

/// Writes the table of the description that a page text spells to the start of `out` and answers its length.
///
/// Refuses by 1 to 11. A refusal leaves `out` as it was; bytes beyond the table stay too.
///
/// ```
/// use umarekoza::{write_table, Refusal};
/// # let tag = "A Tag is formatted as follows:\n\n 0\n 0 1 2 3 4 5 6 7\n+-+-+-+-+-+-+-+-+\n\
/// # |       K       |\n+-+-+-+-+-+-+-+-+\n\nwhere:\n\nKind (K): 1 byte; K == 7.\n";
/// let mut out = [0; 64];
/// assert_eq!(write_table(tag.as_bytes(), &mut out), Ok(46));
/// assert_eq!(out[46..], [0; 18]);
/// assert_eq!(write_table(tag.as_bytes(), &mut out[..45]), Err(Refusal { number: 11, place: 0 }));
/// ```
pub fn write_table(text: &[u8], out: &mut [u8]) -> Result<usize, Refusal> {
    calls::write_table(text, out).settled().map(|length| length as usize)
}

/// The table of the description that a page text spells.
///
/// ```
/// let tag = "\
/// A Tag is formatted as follows:
///
///  0
///  0 1 2 3 4 5 6 7
/// +-+-+-+-+-+-+-+-+
/// |       K       |
/// +-+-+-+-+-+-+-+-+
///
/// where:
///
/// Kind (K): 1 byte; K == 7.
/// ";
/// let table = umarekoza::table_of(tag.as_bytes())?;
/// assert_eq!(
///     table,
///     [
///         0x0D, 0x00, 0x01, 0x00, 0x08, 0x00, 0x01, 0x00, 0x03, 0x00, 0x54, 0x61, 0x67, // the head
///         0x1D, 0x00, 0x0C, 0x00, 0x00, 0x00, 0x04, 0x00, 0x4B, 0x69, 0x6E, 0x64, 0x01, 0x00, 0x4B, 0x08,
///         0x00, 0x08, 0x00, 0x20, 0x02, 0x00, 0x01, 0x07, 0x00, 0x00, 0x00, 0x00, 0x00, // the field Kind
///         0x04, 0x00, 0x05, 0x00, // the end
///     ]
/// );
/// # Ok::<(), umarekoza::Refusal>(())
/// ```
pub fn table_of(text: &[u8]) -> Result<Vec<u8>, Refusal> {
    written(TABLE_MOST, |out| write_table(text, out))
}

/// Refuses a table that is not good, by 21.
///
/// ```
/// use umarekoza::{check_table, Refusal};
/// assert_eq!(check_table(b"no table"), Err(Refusal { number: 21, place: 0 }));
/// ```
pub fn check_table(table: &[u8]) -> Result<(), Refusal> {
    calls::check_table(table).settled().map(|_| ())
}

/// The index, from 0, of the field with this label or short name; no two fields of a good table share a name. Refuses
/// by 21, and by 30 if there is none.
///
/// ```
/// # let page = include_bytes!("../../examples/pages/blade-report.txt");
/// # let table = umarekoza::table_of(page)?;
/// assert_eq!(umarekoza::find_field(&table, b"Borrower"), Ok(4));
/// assert_eq!(umarekoza::find_field(&table, b"Bor"), Ok(4));
/// # Ok::<(), umarekoza::Refusal>(())
/// ```
pub fn find_field(table: &[u8], name: &[u8]) -> Result<usize, Refusal> {
    calls::find_field(table, name).settled().map(|index| index as usize)
}

/// The label of the field with this index, as that part of the table. None if the table is not good or has no
/// such field.
///
/// ```
/// # let page = include_bytes!("../../examples/pages/blade-report.txt");
/// # let table = umarekoza::table_of(page)?;
/// assert_eq!(umarekoza::field_label(&table, 1), Some(&b"On Loan"[..]));
/// assert_eq!(umarekoza::field_label(&table, 7), None);
/// # Ok::<(), umarekoza::Refusal>(())
/// ```
pub fn field_label(table: &[u8], index: usize) -> Option<&[u8]> {
    Some(calls::field_label(table, index).part_of(table)).filter(|label| !label.is_empty())
}

/// The kind of a field [01, The stored table] [02, R-5].
#[derive(Clone, Copy, Debug, PartialEq, Eq, Hash)]
pub enum Kind {
    /// A number of bits that the page fixes, 1 to 32: the field has a value.
    Fixed,
    /// As many bits as an expression says: a long field, which has no value.
    Measured,
    /// All that is left: a long field, which has no value.
    Rest,
}

/// The number of a table's fields. Refuses by 21.
///
/// ```
/// # let page = include_bytes!("../../examples/pages/blade-report.txt");
/// # let table = umarekoza::table_of(page)?;
/// assert_eq!(umarekoza::count_fields(&table), Ok(7));
/// # Ok::<(), umarekoza::Refusal>(())
/// ```
pub fn count_fields(table: &[u8]) -> Result<usize, Refusal> {
    calls::count_fields(table).settled().map(|count| count as usize)
}

/// The kind of the field with this index. Refuses by 21, and by 30 if there is no such field.
///
/// ```
/// use umarekoza::{field_kind, Kind};
/// # let page = include_bytes!("../../examples/pages/blade-report.txt");
/// # let table = umarekoza::table_of(page)?;
/// assert_eq!(field_kind(&table, 4), Ok(Kind::Fixed)); // Borrower
/// assert_eq!(field_kind(&table, 5), Ok(Kind::Measured)); // Readings
/// # Ok::<(), umarekoza::Refusal>(())
/// ```
pub fn field_kind(table: &[u8], index: usize) -> Result<Kind, Refusal> {
    Ok(match calls::field_kind(table, index).settled()? {
        12 => Kind::Fixed,
        13 => Kind::Measured,
        _ => Kind::Rest,
    })
}

/// How many places read the field with this index: the references to it in the expressions of other fields, every one
/// counted. Refuses by 21, and by 30 if there is no such field.
///
/// ```
/// use umarekoza::{count_readers, Refusal};
/// # let page = include_bytes!("../../examples/pages/blade-report.txt");
/// # let table = umarekoza::table_of(page)?;
/// assert_eq!(count_readers(&table, 0), Ok(0)); // Version, which its own constraint alone reads
/// assert_eq!(count_readers(&table, 2), Ok(1)); // Cells, which the width of Readings reads
/// assert_eq!(count_readers(&table, 7), Err(Refusal { number: 30, place: 0 }));
/// # Ok::<(), umarekoza::Refusal>(())
/// ```
pub fn count_readers(table: &[u8], index: usize) -> Result<usize, Refusal> {
    calls::count_readers(table, index).settled().map(|count| count as usize)
}

/// Writes the new table of an old one, whose records keep no number of readers, to the start of `out` and answers its
/// length.
///
/// Refuses by 21 what is no good table by the rules for old ones, a table in the form in force too, and by 11 if `out`
/// is too short. A refusal leaves `out` as it was; bytes beyond the table stay too.
///
/// ```
/// use umarekoza::{convert_table, Refusal};
/// let old = b"\x0D\0\x01\0\x08\0\x01\0\x03\0Tag\x13\0\x02\0\x04\0Kind\x01\0K\x08\0\0\0\0\0\x04\0\x05\0";
/// let mut out = [0; 64];
/// assert_eq!(convert_table(old, &mut out), Ok(38));
/// assert_eq!(&out[13..25], b"\x15\0\x0C\0\0\0\x04\0Kind"); // its length and kind, its number, its label
/// assert_eq!(convert_table(old, &mut out[..37]), Err(Refusal { number: 11, place: 0 }));
/// assert_eq!(convert_table(b"no table", &mut out), Err(Refusal { number: 21, place: 0 }));
/// ```
pub fn convert_table(old: &[u8], out: &mut [u8]) -> Result<usize, Refusal> {
    calls::convert_table(old, out).settled().map(|length| length as usize)
}

/// The new table of an old one. Refuses by 21.
///
/// ```
/// let old = b"\x0D\0\x01\0\x08\0\x01\0\x03\0Tag\x13\0\x02\0\x04\0Kind\x01\0K\x08\0\0\0\0\0\x04\0\x05\0";
/// assert!(umarekoza::check_table(old).is_err());
/// let table = umarekoza::converted(old)?;
/// assert_eq!(umarekoza::listing(&table, &[7]), b"Kind: 0 8 7\nbits 8\n");
/// # Ok::<(), umarekoza::Refusal>(())
/// ```
pub fn converted(old: &[u8]) -> Result<Vec<u8>, Refusal> {
    written(TABLE_MOST, |out| convert_table(old, out))
}

/// The short name of the field with this index, as that part of the table. None if it has none, the table is not
/// good, or there is no such field.
///
/// ```
/// # let page = include_bytes!("../../examples/pages/blade-report.txt");
/// # let table = umarekoza::table_of(page)?;
/// assert_eq!(umarekoza::field_short(&table, 4), Some(&b"Bor"[..]));
/// assert_eq!(umarekoza::field_short(&table, 5), None);
/// # Ok::<(), umarekoza::Refusal>(())
/// ```
pub fn field_short(table: &[u8], index: usize) -> Option<&[u8]> {
    Some(calls::field_short(table, index).part_of(table)).filter(|short| !short.is_empty())
}
