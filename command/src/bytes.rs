//! The verb `bytes`. Standard output has the field's bytes and nothing else; all else goes to standard error.

use crate::fields::{described, index_of, whole_bytes};
use crate::packets::Packets;
use crate::sources::SourceName;
use crate::{explain, hex, outputs, Failure, Status};
use std::ffi::OsStr;
use umarekoza::Refusal;

pub fn run(source: &SourceName, packets: &Packets, field: &OsStr, as_hex: bool) -> Result<Status, Failure> {
    let source = source.read()?;
    let table = match source.table() {
        Ok(table) => table,
        Err(refusal) => return Ok(refuse(refusal, || explain::source(&source, refusal))),
    };
    let described = described(&table);
    let index = match index_of(&table, field) {
        Ok(index) => index,
        Err(refusal) => {
            return Ok(refuse(refusal, || explain::field(&source.input, &described, field, refusal)));
        }
    };
    let (name, packet) = packets.only().map_err(Failure::Said)?;
    let fields = match umarekoza::fields_of(&table, &packet) {
        Ok(fields) => fields,
        Err(refusal) => return Ok(refuse(refusal, || explain::packet(&name, &table, &packet, refusal, &[]))),
    };
    match whole_bytes(&fields[index], umarekoza::field_bytes(&table, &packet, index)) {
        Some(bytes) if as_hex => outputs::print_line(&hex::written(bytes)),
        Some(bytes) => outputs::print(bytes),
        None => {
            explain::no_bytes(&name, &described[index], &fields[index]);
            Ok(Status::Refused)
        }
    }
}

fn refuse(refusal: Refusal, explain: impl FnOnce()) -> Status {
    outputs::complain(&refusal.to_string());
    explain();
    Status::Refused
}
