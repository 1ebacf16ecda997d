use crate::{calls, written, Refusal, TABLE_MOST};

/// Writes the table of a good one without its fields from the index `first` to the index `last`, both from 0 and both
/// cut out, to the start of `out` and answers its length. Later fields get the indexes that they then have, in what
/// reads them too.
///
/// Refuses by 21; by 30 if `first` is over `last` or `last` is no field's index; by 31 at the first field that is left
/// and reads one that is cut out, counted from 1 as the table is; by 34 if what is left is no good table for another
/// reason; by 11 if `out` is too short. A refusal leaves `out` as it was; bytes beyond the table stay too.
///
/// ```
/// use umarekoza::{cut_fields, find_field, Refusal};
/// # let page = include_bytes!("../../examples/pages/blade-report.txt");
/// # let table = umarekoza::table_of(page)?;
/// let mut out = [0; 256];
/// let length = cut_fields(&table, 4, 4, &mut out)?; // Borrower
/// assert_eq!(length, table.len() - 35);
/// assert_eq!(find_field(&out[..length], b"Sum"), Ok(5));
/// assert_eq!(cut_fields(&table, 2, 2, &mut out), Err(Refusal { number: 31, place: 6 })); // Cells, read by Readings
/// assert_eq!(cut_fields(&table, 3, 3, &mut out), Err(Refusal { number: 34, place: 0 })); // half a row is left
/// assert_eq!(cut_fields(&table, 4, 7, &mut out), Err(Refusal { number: 30, place: 0 }));
/// # Ok::<(), umarekoza::Refusal>(())
/// ```
pub fn cut_fields(table: &[u8], first: usize, last: usize, out: &mut [u8]) -> Result<usize, Refusal> {
    calls::cut_fields(table, first, last, out).settled().map(|length| length as usize)
}

/// The table of a good one without its fields from the index `first` to the index `last`. Refuses by 21, 30, 31 and 34
/// as [`cut_fields`] does.
///
/// ```
/// # let page = include_bytes!("../../examples/pages/blade-report.txt");
/// # let table = umarekoza::table_of(page)?;
/// let shorter = umarekoza::without_fields(&table, 5, 6)?; // Readings and Sum
/// assert_eq!(umarekoza::count_fields(&shorter), Ok(5));
/// assert_eq!(umarekoza::count_readers(&shorter, 2), Ok(0)); // Cells, which Readings has read
/// # Ok::<(), umarekoza::Refusal>(())
/// ```
pub fn without_fields(table: &[u8], first: usize, last: usize) -> Result<Vec<u8>, Refusal> {
    written(TABLE_MOST, |out| cut_fields(table, first, last, out))
}

/// Writes the table of a good one with the fields of `records` to the start of `out` and answers its length. They come
/// before the field of the index, from 0, or behind the last one where the index is the number of fields. Later fields
/// get the indexes that they then have, in what reads them too.
///
/// The records are whole ones, one behind the other. Their references are by the numbering of the new table, and their
/// numbers of readers may be any: the new table has the right ones.
///
/// Refuses by 21; by 30 if there are no records or the index is over the number of fields; by 34 if the records are not
/// such ones or the fields are no good table together; by 11 if `out` is too short. A refusal leaves `out` as it was;
/// bytes beyond the table stay too.
///
/// ```
/// use umarekoza::{cut_fields, put_fields, Refusal};
/// # let page = include_bytes!("../../examples/pages/blade-report.txt");
/// # let table = umarekoza::table_of(page)?;
/// let grade = b"\x15\0\x0C\0\0\0\x05\0Grade\0\0\x10\0\0\0\0\0"; // 2 bytes
/// let mut out = [0; 256];
/// let length = put_fields(&table, 5, grade, &mut out)?; // before Readings
/// assert_eq!(length, table.len() + grade.len());
/// assert_eq!(umarekoza::field_label(&out[..length], 5), Some(&b"Grade"[..]));
/// assert_eq!(put_fields(&table, 8, grade, &mut out), Err(Refusal { number: 30, place: 0 }));
/// assert_eq!(put_fields(&table, 3, grade, &mut out), Err(Refusal { number: 34, place: 0 })); // across a row's end
///
/// let mut again = [0; 256];
/// let length = cut_fields(&out[..length], 5, 5, &mut again)?;
/// assert_eq!(again[..length], table);
/// # Ok::<(), umarekoza::Refusal>(())
/// ```
pub fn put_fields(table: &[u8], index: usize, records: &[u8], out: &mut [u8]) -> Result<usize, Refusal> {
    calls::put_fields(table, index, records, out).settled().map(|length| length as usize)
}

/// The table of a good one with the fields of `records` before the field of the index, or behind the last one. Refuses
/// by 21, 30 and 34 as [`put_fields`] does.
///
/// ```
/// # let page = include_bytes!("../../examples/pages/blade-report.txt");
/// # let table = umarekoza::table_of(page)?;
/// let grade = b"\x15\0\x0C\0\0\0\x05\0Grade\0\0\x10\0\0\0\0\0"; // 2 bytes
/// let longer = umarekoza::with_fields(&table, 7, grade)?; // behind Sum
/// assert_eq!(umarekoza::find_field(&longer, b"Grade"), Ok(7));
/// # Ok::<(), umarekoza::Refusal>(())
/// ```
pub fn with_fields(table: &[u8], index: usize, records: &[u8]) -> Result<Vec<u8>, Refusal> {
    written(TABLE_MOST, |out| put_fields(table, index, records, out))
}
