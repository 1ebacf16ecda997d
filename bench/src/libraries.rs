//! The functions that are timed: those of the library and, where it is linked, those of another one.

#[cfg(before)]
use crate::before;

use umarekoza::TABLE_MOST;

/// The number that goes with an acceptance.
type Accepted = Option<u64>;

pub struct Library {
    pub check_table: fn(&[u8]) -> Accepted,
    pub read_packet: fn(&[u8], &[u8], &mut [u32]) -> Accepted,
    pub write_table: fn(&[u8], &mut [u8]) -> Accepted,
    pub find_field: fn(&[u8], &[u8]) -> Accepted,
}

impl Library {
    /// The table of a page as this library stores it.
    pub fn table(&self, page: &[u8]) -> Vec<u8> {
        let mut out = vec![0; TABLE_MOST];
        let length = (self.write_table)(page, &mut out).expect("a page of the bench is right");
        out.truncate(length as usize);
        out
    }
}

pub static NOW: Library = Library {
    check_table: |table| umarekoza::check_table(table).ok().map(|()| table.len() as u64),
    read_packet: |table, packet, run| umarekoza::read_packet(table, packet, run).ok(),
    write_table: |text, out| umarekoza::write_table(text, out).ok().map(|length| length as u64),
    find_field: |table, name| umarekoza::find_field(table, name).ok().map(|index| index as u64),
};

#[cfg(before)]
pub static BEFORE: Option<Library> = Some(Library {
    check_table: before::check_table,
    read_packet: before::read_packet,
    write_table: before::write_table,
    find_field: before::find_field,
});

#[cfg(not(before))]
pub static BEFORE: Option<Library> = None;
