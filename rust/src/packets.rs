use crate::{calls, written, Refusal, LISTING_MOST, RUN_MOST};

/// One field of a reading. Offset and width are in bits; an absent field has 0 for all, a long one the value 0.
#[derive(Clone, Copy, Debug, PartialEq, Eq, Hash)]
pub struct Field {
    /// Whether the packet has the field.
    pub present: bool,
    /// The bit at which it starts.
    pub offset: u32,
    /// How many bits it has.
    pub width: u32,
    /// What a fixed field holds.
    pub value: u32,
}

impl From<[u32; 4]> for Field {
    /// The field of four numbers of a run.
    fn from([present, offset, width, value]: [u32; 4]) -> Self {
        Field { present: present == 1, offset, width, value }
    }
}

/// Reads a packet by a table: four numbers a field to the start of `run`, namely present (1 or 0), offset, width
/// and value. Answers the bits of the packet.
///
/// Refuses by 21 to 29. A refusal leaves `run` as it was; numbers beyond those of the fields stay too.
///
/// ```
/// # let page = include_bytes!("../../examples/pages/blade-report.txt");
/// # let table = umarekoza::table_of(page)?;
/// let mut run = [0; 28];
/// let packet = [0x62, 0x07, 0x01, 0x2C, 0xAA, 0xBB, 0x00, 0x09];
/// assert_eq!(umarekoza::read_packet(&table, &packet, &mut run), Ok(64));
/// assert_eq!(run[16..20], [1, 16, 16, 300]); // Borrower
/// # Ok::<(), umarekoza::Refusal>(())
/// ```
pub fn read_packet(table: &[u8], packet: &[u8], run: &mut [u32]) -> Result<u64, Refusal> {
    calls::read_packet(table, packet, run).settled()
}

/// Reads a packet by a table as far as it goes. Answers what [`read_packet`] answers, and how many fields' numbers are
/// at the start of `run`: those before the first refused one, or all where bits are left over or the packet is
/// accepted.
///
/// 21, 22 and 23 leave `run` as it was; numbers beyond those of the fields stay too.
///
/// ```
/// use umarekoza::{read_partly, Refusal};
/// # let page = include_bytes!("../../examples/pages/blade-report.txt");
/// # let table = umarekoza::table_of(page)?;
/// let mut run = [0; 28];
/// let packet = [0x62, 0x07, 0x01, 0x2C, 0xAA, 0xBB, 0x00]; // half of Sum
/// assert_eq!(read_partly(&table, &packet, &mut run), (Err(Refusal { number: 24, place: 7 }), 6));
/// assert_eq!(run[16..], [1, 16, 16, 300, 1, 32, 16, 0, 0, 0, 0, 0]); // Borrower, Readings
/// # Ok::<(), umarekoza::Refusal>(())
/// ```
pub fn read_partly(table: &[u8], packet: &[u8], run: &mut [u32]) -> (Result<u64, Refusal>, usize) {
    calls::read_partly(table, packet, run).settled()
}

/// The fields of a packet, in the order of the table. Refuses by 21, 22 and 24 to 29.
///
/// ```
/// use umarekoza::{fields_of, Field};
/// # let page = include_bytes!("../../examples/pages/blade-report.txt");
/// # let table = umarekoza::table_of(page)?;
/// let fields = fields_of(&table, &[0x62, 0x07, 0x01, 0x2C, 0xAA, 0xBB, 0x00, 0x09])?;
/// assert_eq!(fields.len(), 7);
/// assert_eq!(fields[4], Field { present: true, offset: 16, width: 16, value: 300 });
/// # Ok::<(), umarekoza::Refusal>(())
/// ```
pub fn fields_of(table: &[u8], packet: &[u8]) -> Result<Vec<Field>, Refusal> {
    const UNTOUCHED: u32 = u32::MAX;
    let mut run = [UNTOUCHED; RUN_MOST];
    read_packet(table, packet, &mut run)?;
    let fours = run.chunks_exact(4).map(|four| [four[0], four[1], four[2], four[3]]);
    Ok(fours.take_while(|four| four[0] != UNTOUCHED).map(Field::from).collect())
}

/// The bytes of the field with this index, as that very part of the packet: if the packet is accepted and the
/// field is present, starts on a byte and has whole bytes. Else the empty part at the packet's start.
///
/// ```
/// # let page = include_bytes!("../../examples/pages/blade-report.txt");
/// # let table = umarekoza::table_of(page)?;
/// let packet = [0x62, 0x07, 0x01, 0x2C, 0xAA, 0xBB, 0x00, 0x09];
/// assert_eq!(umarekoza::field_bytes(&table, &packet, 5), [0xAA, 0xBB]); // Readings
/// # Ok::<(), umarekoza::Refusal>(())
/// ```
pub fn field_bytes<'a>(table: &[u8], packet: &'a [u8], index: usize) -> &'a [u8] {
    calls::field_bytes(table, packet, index).part_of(packet)
}

/// Writes the listing of a packet to the start of `out` and answers its length. The listing of a refused packet
/// is the line of its refusal. Refuses only by 11, if `out` is too short.
///
/// ```
/// use umarekoza::{list_packet, Refusal};
/// # let page = include_bytes!("../../examples/pages/blade-report.txt");
/// # let table = umarekoza::table_of(page)?;
/// let packet = [0x62, 0x07, 0x01, 0x2C, 0xAA, 0xBB, 0x00, 0x09];
/// let listing = "\
/// Version: 0 2 1
/// On Loan: 2 1 1
/// Cells: 3 5 2
/// Blade: 8 8 7
/// Borrower: 16 16 300
/// Readings: 32 16
/// Sum: 48 16 9
/// bits 64
/// ";
/// let mut out = [b'?'; 200];
/// let length = list_packet(&table, &packet, &mut out)?;
/// assert_eq!(&out[..length], listing.as_bytes());
/// assert!(out[length..].iter().all(|byte| *byte == b'?'));
/// assert_eq!(list_packet(&table, &packet, &mut out[..length - 1]), Err(Refusal { number: 11, place: 0 }));
/// # Ok::<(), umarekoza::Refusal>(())
/// ```
pub fn list_packet(table: &[u8], packet: &[u8], out: &mut [u8]) -> Result<usize, Refusal> {
    calls::list_packet(table, packet, out).settled().map(|length| length as usize)
}

/// The listing of a packet, or the line of its refusal.
///
/// ```
/// # let page = include_bytes!("../../examples/pages/blade-report.txt");
/// # let table = umarekoza::table_of(page)?;
/// let packet = [0x62, 0x07, 0x01, 0x2C, 0xAA, 0xBB, 0x00, 0x09];
/// let listing = "\
/// Version: 0 2 1
/// On Loan: 2 1 1
/// Cells: 3 5 2
/// Blade: 8 8 7
/// Borrower: 16 16 300
/// Readings: 32 16
/// Sum: 48 16 9
/// bits 64
/// ";
/// assert_eq!(umarekoza::listing(&table, &packet), listing.as_bytes());
/// assert_eq!(umarekoza::listing(&table, &packet[..7]), b"refused 24 at 7\n");
/// # Ok::<(), umarekoza::Refusal>(())
/// ```
pub fn listing(table: &[u8], packet: &[u8]) -> Vec<u8> {
    match written(LISTING_MOST, |out| list_packet(table, packet, out)) {
        Ok(listing) => listing,
        Err(refusal) => format!("{refusal}\n").into_bytes(),
    }
}
