//! The listing of a packet [01, The blade report, marked cases and listing].

use crate::descriptions::Description;
use crate::reading::{read_described, Reading};
use crate::refusals::Refusal;

/// The lines that are printed for a packet, each ending in LF.
pub fn list_packet(table: &[u8], packet: &[u8]) -> Vec<u8> {
    match read_described(table, packet, usize::MAX) {
        Ok((description, reading)) => list_reading(&description, &reading),
        Err(Refusal { number, place }) => format!("refused {number} at {place}\n").into_bytes(),
    }
}

fn list_reading(description: &Description, reading: &Reading) -> Vec<u8> {
    let mut listing = Vec::new();
    for (field, numbers) in description.fields.iter().zip(&reading.fields) {
        let [present, offset, width, value] = numbers;
        listing.extend_from_slice(field.label);
        let rest = match (present, field.fixed_bits()) {
            (0, _) => ": absent\n".to_string(),
            (_, Some(_)) => format!(": {offset} {width} {value}\n"),
            (_, None) => format!(": {offset} {width}\n"),
        };
        listing.extend_from_slice(rest.as_bytes());
    }
    listing.extend_from_slice(format!("bits {}\n", reading.total).as_bytes());
    listing
}
