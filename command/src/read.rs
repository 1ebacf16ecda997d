//! The verb `read`.

use crate::fields::{described, index_of, whole_bytes, Described};
use crate::packets::{Name, Packets};
use crate::requests::Form;
use crate::sources::{Source, SourceName};
use crate::{explain, hex, json, outputs, Failure, Status};
use std::ffi::OsStr;
use umarekoza::{fields_of, Refusal};

pub fn run(source: &SourceName, packets: &Packets, form: &Form) -> Result<Status, Failure> {
    let source = source.read()?;
    let table = match source.table() {
        Ok(table) => table,
        Err(refusal) => return refuse_source(&source, refusal, form),
    };
    let fields = described(&table);
    let index = match form {
        Form::Field(field) => match index_of(&table, field) {
            Ok(index) => index,
            Err(refusal) => return refuse_field(&source, &fields, field, refusal),
        },
        _ => 0,
    };
    let reader = Reader { table: &table, fields: &fields, form, index, is_named: packets.are_named() };
    let mut worst = Status::Accepted;
    packets.each(&mut |name, packet| {
        worst = worst.max(reader.tell(name, packet)?);
        Ok(())
    })?;
    Ok(worst)
}

/// Prints and explains the refusal of a page or a table.
fn refuse_source(source: &Source, refusal: Refusal, form: &Form) -> Result<Status, Failure> {
    if matches!(form, Form::Json) {
        outputs::print_line(&json::source(source, &Err(refusal)).to_string())?;
    } else {
        outputs::print_line(&refusal.to_string())?;
        explain::source(source, refusal);
    }
    Ok(Status::Refused)
}

fn refuse_field(
    source: &Source,
    fields: &[Described],
    field: &OsStr,
    refusal: Refusal,
) -> Result<Status, Failure> {
    outputs::print_line(&refusal.to_string())?;
    explain::field(&source.input, fields, field, refusal);
    Ok(Status::Refused)
}

/// How each packet is read and printed.
struct Reader<'a> {
    table: &'a [u8],
    fields: &'a [Described],
    form: &'a Form,
    /// Of the field that is asked for, if one is.
    index: usize,
    is_named: bool,
}

impl Reader<'_> {
    fn tell(&self, name: &Name<'_>, packet: Result<&[u8], &str>) -> Result<Status, Failure> {
        let packet = match packet {
            Ok(packet) => packet,
            Err(why) => return self.fail(name, why),
        };
        match self.form {
            Form::Listing => self.list(name, packet),
            Form::Json => self.object(name, packet),
            Form::Field(_) => self.value(name, packet),
        }
    }

    fn fail(&self, name: &Name<'_>, why: &str) -> Result<Status, Failure> {
        match self.form {
            Form::Listing => self.head(name)?,
            Form::Json => outputs::print_line(&json::failed(&name.plain(), why).to_string())?,
            Form::Field(_) => outputs::print_line("not read")?,
        };
        outputs::complain(&format!("{name}: {why}"));
        Ok(Status::Failed)
    }

    /// The line that names a packet, where there can be several.
    fn head(&self, name: &Name<'_>) -> Result<Status, Failure> {
        if self.is_named {
            return outputs::print_line(&format!("==> {name} <=="));
        }
        Ok(Status::Accepted)
    }

    fn list(&self, name: &Name<'_>, packet: &[u8]) -> Result<Status, Failure> {
        self.head(name)?;
        outputs::print(&umarekoza::listing(self.table, packet))?;
        match fields_of(self.table, packet) {
            Ok(_) => Ok(Status::Accepted),
            Err(refusal) => Ok(self.refuse(name, packet, refusal)),
        }
    }

    fn object(&self, name: &Name<'_>, packet: &[u8]) -> Result<Status, Failure> {
        let (object, status) = match json::packet(&name.plain(), self.table, packet, self.fields) {
            Ok(object) => (object, Status::Accepted),
            Err(object) => (object, Status::Refused),
        };
        outputs::print_line(&object.to_string())?;
        Ok(status)
    }

    /// One field alone: its value, or the bytes of a long field.
    fn value(&self, name: &Name<'_>, packet: &[u8]) -> Result<Status, Failure> {
        let fields = match fields_of(self.table, packet) {
            Ok(fields) => fields,
            Err(refusal) => {
                outputs::print_line(&refusal.to_string())?;
                return Ok(self.refuse(name, packet, refusal));
            }
        };
        let (described, field) = (&self.fields[self.index], &fields[self.index]);
        let bytes = umarekoza::field_bytes(self.table, packet, self.index);
        match whole_bytes(field, bytes) {
            _ if !field.present => outputs::print_line("absent"),
            _ if described.is_fixed() => outputs::print_line(&field.value.to_string()),
            Some(bytes) => outputs::print_line(&hex::written(bytes)),
            None => {
                outputs::print_line("no whole bytes")?;
                explain::no_bytes(name, described, field);
                Ok(Status::Refused)
            }
        }
    }

    fn refuse(&self, name: &Name<'_>, packet: &[u8], refusal: Refusal) -> Status {
        explain::packet(name, self.table, packet, refusal, self.fields);
        Status::Refused
    }
}
