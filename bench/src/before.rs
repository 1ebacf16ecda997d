//! The functions of another library, linked beside this one's to be timed in the same run.

#[repr(C)]
struct Answer {
    number: u32,
    place: u32,
    length: u64,
}

extern "C" {
    fn before_check_table(table: *const u8, table_len: usize) -> Answer;
    fn before_read_packet(
        table: *const u8,
        table_len: usize,
        packet: *const u8,
        packet_len: usize,
        run: *mut u32,
        run_len: usize,
    ) -> Answer;
    fn before_write_table(text: *const u8, text_len: usize, out: *mut u8, out_len: usize) -> Answer;
    fn before_find_field(table: *const u8, table_len: usize, name: *const u8, name_len: usize) -> Answer;
}

impl Answer {
    /// The length that goes with an acceptance.
    fn accepted(self) -> Option<u64> {
        (self.number == 0 && self.place == 0).then_some(self.length)
    }
}

pub fn check_table(table: &[u8]) -> Option<u64> {
    // SAFETY: the pointer is valid for the length, and the library reads no further.
    unsafe { before_check_table(table.as_ptr(), table.len()) }.accepted()
}

pub fn read_packet(table: &[u8], packet: &[u8], run: &mut [u32]) -> Option<u64> {
    let (run, numbers) = (run.as_mut_ptr(), run.len());
    // SAFETY: each pointer is valid for its length; the run is lent to this call alone.
    unsafe { before_read_packet(table.as_ptr(), table.len(), packet.as_ptr(), packet.len(), run, numbers) }
        .accepted()
}

pub fn write_table(text: &[u8], out: &mut [u8]) -> Option<u64> {
    let (out, bytes) = (out.as_mut_ptr(), out.len());
    // SAFETY: each pointer is valid for its length; the output is lent to this call alone.
    unsafe { before_write_table(text.as_ptr(), text.len(), out, bytes) }.accepted()
}

pub fn find_field(table: &[u8], name: &[u8]) -> Option<u64> {
    // SAFETY: both pointers are valid for their lengths, and the library reads no further.
    unsafe { before_find_field(table.as_ptr(), table.len(), name.as_ptr(), name.len()) }.accepted()
}
