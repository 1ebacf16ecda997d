//! Packets read by a table [01, Reading a packet].

use crate::descriptions::{Description, Field, Width};
use crate::evaluation::value;
use crate::refusals::{refused, Refusal};
use crate::tables::good_description;

pub const LONGEST_PACKET: usize = 8_191;
const BITS_MISSING: u32 = 24;
const CONSTRAINT_FALSE: u32 = 25;

/// What a packet reads to: for each field present (1 or 0), offset, width and value, all 0 if absent.
#[derive(Clone, Debug, PartialEq, Eq)]
pub struct Reading {
    pub fields: Vec<[u32; 4]>,
    /// The bits of the packet.
    pub total: u32,
}

/// The reading of a packet by a table, for a run of `run_len` numbers.
pub fn read_packet(table: &[u8], packet: &[u8], run_len: usize) -> Result<Reading, Refusal> {
    read_described(table, packet, run_len).map(|(_, reading)| reading)
}

/// The description that a table holds, and the reading of a packet by it.
pub fn read_described<'a>(
    table: &'a [u8],
    packet: &[u8],
    run_len: usize,
) -> Result<(Description<'a>, Reading), Refusal> {
    let description = described(table, packet, run_len)?;
    let reading = read_fields(&description, packet)?;
    Ok((description, reading))
}

/// The numbers of the fields before the first refused one, and the packet's bits or the refusal.
pub type Partly = (Vec<[u32; 4]>, Result<u32, Refusal>);

/// What is read of a packet by a table as far as it goes, for a run of `run_len` numbers.
pub fn read_partly(table: &[u8], packet: &[u8], run_len: usize) -> Partly {
    match described(table, packet, run_len) {
        Ok(description) => fields_before(&description, packet),
        Err(refusal) => (Vec::new(), Err(refusal)),
    }
}

/// The description that a table holds, for a packet that is not too long and a run that is long enough.
fn described<'a>(table: &'a [u8], packet: &[u8], run_len: usize) -> Result<Description<'a>, Refusal> {
    let description = good_description(table)?;
    if packet.len() > LONGEST_PACKET {
        return refused(22, 0);
    }
    if run_len < 4 * description.fields.len() {
        return refused(23, 0);
    }
    Ok(description)
}

/// Start and length of the bytes of a field, if the packet is accepted and the field is present, starts on a
/// byte and has whole bytes; else 0, 0.
pub fn field_bytes(table: &[u8], packet: &[u8], index: usize) -> (usize, usize) {
    let Ok(reading) = read_packet(table, packet, usize::MAX) else { return (0, 0) };
    match reading.fields.get(index) {
        Some(&[1, offset, width, _]) if offset % 8 == 0 && width % 8 == 0 => {
            (offset as usize / 8, width as usize / 8)
        }
        _ => (0, 0),
    }
}

/// The reading of a packet that is not too long, by a description within the limits.
pub fn read_fields(description: &Description, packet: &[u8]) -> Result<Reading, Refusal> {
    let (fields, total) = fields_before(description, packet);
    Ok(Reading { fields, total: total? })
}

/// The same as far as it goes.
fn fields_before(description: &Description, packet: &[u8]) -> Partly {
    let mut walk = Walk::new(packet);
    let mut fields = Vec::with_capacity(description.fields.len());
    for (index, field) in description.fields.iter().enumerate() {
        match walk.field(field, &description.fields[index + 1..]) {
            Ok(numbers) => fields.push(numbers),
            Err(number) => return (fields, refused(number, index as u32 + 1)),
        }
    }
    let total = if walk.place < walk.total { refused(28, 0) } else { Ok(walk.total as u32) };
    (fields, total)
}

/// A walk through a packet: the place reached, and the value of each fixed field so far that is present.
struct Walk<'a> {
    packet: &'a [u8],
    total: u64,
    place: u64,
    values: Vec<Option<u32>>,
}

impl<'a> Walk<'a> {
    fn new(packet: &'a [u8]) -> Self {
        Walk { packet, total: 8 * packet.len() as u64, place: 0, values: Vec::new() }
    }

    /// Reads the next field, `after` being those behind it; or the number of its first fault.
    fn field(&mut self, field: &Field<usize>, after: &[Field<usize>]) -> Result<[u32; 4], u32> {
        if let Some(condition) = &field.condition {
            if value(condition, &self.values)? == 0 {
                self.values.push(None);
                return Ok([0; 4]);
            }
        }
        let width = self.width(field, after)?;
        if width > self.total - self.place {
            return Err(BITS_MISSING);
        }
        let fixed = field.fixed_bits().map(|_| bits(self.packet, self.place, width));
        self.values.push(fixed);
        if let Some(constraint) = &field.constraint {
            if value(constraint, &self.values)? == 0 {
                return Err(CONSTRAINT_FALSE);
            }
        }
        let numbers = [1, self.place as u32, width as u32, fixed.unwrap_or(0)];
        self.place += width;
        Ok(numbers)
    }

    fn width(&self, field: &Field<usize>, after: &[Field<usize>]) -> Result<u64, u32> {
        match &field.width {
            Width::Fixed(bits) => Ok(u64::from(*bits)),
            Width::Measured { unit, tree } => Ok(u64::from(*unit) * u64::from(value(tree, &self.values)?)),
            Width::Rest => {
                let behind: u64 = after.iter().filter_map(Field::fixed_bits).map(u64::from).sum();
                (self.total - self.place).checked_sub(behind).ok_or(BITS_MISSING)
            }
        }
    }
}

/// The number in `width` bits, at most 32, from bit `place` on, the most significant first.
fn bits(packet: &[u8], place: u64, width: u64) -> u32 {
    let end = place + width;
    let bytes = &packet[place as usize / 8..(end as usize).div_ceil(8)];
    let whole = bytes.iter().fold(0u64, |whole, byte| whole << 8 | u64::from(*byte));
    let beyond = end.div_ceil(8) * 8 - end;
    (whole >> beyond & ((1 << width) - 1)) as u32
}

#[cfg(test)]
mod tests {
    use super::bits;

    #[test]
    fn bits_of_bytes() {
        let packet = [0x62, 0x07, 0x01, 0x2C, 0xFF];
        assert_eq!(bits(&packet, 0, 2), 1);
        assert_eq!(bits(&packet, 3, 5), 2);
        assert_eq!(bits(&packet, 16, 16), 300);
        assert_eq!(bits(&packet, 7, 32), 0x0380_967F);
        assert_eq!(bits(&packet, 8, 32), 0x0701_2CFF);
    }
}
