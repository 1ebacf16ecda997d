//! Answers as objects of JSON.

use crate::draw::Told;
use crate::explain::{field_of, OLD};
use crate::fields::{reading, whole_bytes, Described};
use crate::hex::written;
use crate::sources::Source;
use serde_json::{json, Map, Value};
use umarekoza::{Field, Kind, Refusal};

/// A packet, accepted with its fields; or refused, with the label of the field that is, and the fields before it.
pub fn packet(name: &str, table: &[u8], packet: &[u8], described: &[Described]) -> Result<Value, Value> {
    let (answer, fields) = reading(table, packet);
    let objects = objects(described, &fields, packet);
    match answer {
        Ok(bits) => Ok(json!({ "name": name, "result": "accepted", "bits": bits, "fields": objects })),
        Err(refusal) => {
            let mut object = refused(name, refusal);
            object.insert("field".to_string(), json!(field_of(described, refusal)));
            object.insert("fields".to_string(), json!(objects));
            Err(Value::Object(object))
        }
    }
}

/// The fields that were read, long ones with their bytes.
fn objects(described: &[Described], fields: &[Field], packet: &[u8]) -> Vec<Value> {
    let object = |(described, field): (&Described, &Field)| {
        let bytes = || packet[field.offset as usize / 8..][..field.width as usize / 8].as_ref();
        let bytes = (!described.is_fixed()).then(bytes).and_then(|bytes| whole_bytes(field, bytes));
        field_object(described, field, bytes.map(written))
    };
    described.iter().zip(fields).map(object).collect()
}

/// A field; what an absent one has not, and what a field of its kind has not, is null.
fn field_object(described: &Described, field: &Field, bytes: Option<String>) -> Value {
    let present = |number: u32| field.present.then_some(number);
    json!({
        "label": described.label,
        "short": described.short,
        "kind": kind(described.kind),
        "present": field.present,
        "offset": present(field.offset),
        "width": present(field.width),
        "value": present(field.value).filter(|_| described.is_fixed()),
        "bytes": bytes,
    })
}

fn kind(kind: Kind) -> &'static str {
    match kind {
        Kind::Fixed => "fixed",
        Kind::Measured => "measured",
        Kind::Rest => "rest",
    }
}

/// A page or table, accepted with the length of its table, or refused; of an old table it is said that it is one.
pub fn source(source: &Source, table: &Result<Vec<u8>, Refusal>) -> Value {
    let name = source.input.name().to_string_lossy();
    let mut object = match table {
        Ok(table) => object(json!({ "name": name, "result": "accepted", "bytes": table.len() })),
        Err(refusal) => refused(&name, *refusal),
    };
    if table.is_err() && source.is_old() {
        object.insert("meaning".to_string(), json!(OLD));
    }
    object.insert("kind".to_string(), json!(source.kind()));
    Value::Object(object)
}

/// Fields that cannot be cut out or put in, with the label of the field that still reads and what is said of that.
pub fn edit(name: &str, refusal: Refusal, field: Option<&str>, told: &Told) -> Value {
    let mut object = refused(name, refusal);
    object.insert("field".to_string(), json!(field));
    object.insert("message".to_string(), json!(told.message));
    object.insert("notes".to_string(), json!(told.notes));
    Value::Object(object)
}

/// A file that could not be read.
pub fn failed(name: &str, why: &str) -> Value {
    json!({ "name": name, "result": "not read", "error": why })
}

fn refused(name: &str, refusal: Refusal) -> Map<String, Value> {
    let meaning = refusal.meaning().map(|meaning| meaning.what);
    let Refusal { number, place } = refusal;
    object(json!({ "name": name, "result": "refused", "number": number, "place": place, "meaning": meaning }))
}

fn object(value: Value) -> Map<String, Value> {
    match value {
        Value::Object(object) => object,
        _ => Map::new(),
    }
}
