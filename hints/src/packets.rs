//! The hint for a refused packet: which bits are missing or left over, or which rule is broken by which values.

mod mends;
mod values;

use crate::hint::Verdict;
use crate::limits::PACKET_MOST;
use crate::meanings::meaning_of;
use crate::operators::Broken;
use crate::shown::{counted, quoted, shown, shown_name, spelled};
use crate::stored::{fields_of, StoredField, StoredWidth, Tree};
use crate::written::{name_of, written};
use values::{value_of, Fault};

/// What is said of a refused packet.
#[derive(Clone, Debug, Default, PartialEq, Eq)]
pub struct PacketHint {
    pub number: u32,
    /// The field, from 1; 0 where it is none.
    pub field: usize,
    /// The field's label; empty where it is none.
    pub label: String,
    pub message: String,
    pub notes: Vec<String>,
}

/// What a packet is refused for. `before` has the numbers of the fields before the refused one, or of all fields
/// for 28: present, offset, width and value of each. Where these do not lead to the verdict, only the meaning of the
/// number is told.
///
/// ```
/// use umarekoza_hints::{packet_hint, Verdict};
/// let table = [
///     0x0D, 0x00, 0x01, 0x00, 0x08, 0x00, 0x01, 0x00, 0x03, 0x00, 0x54, 0x61, 0x67, // the head
///     0x1D, 0x00, 0x0C, 0x00, 0x00, 0x00, 0x04, 0x00, 0x4B, 0x69, 0x6E, 0x64, 0x01, 0x00, 0x4B, 0x08,
///     0x00, 0x08, 0x00, 0x20, 0x02, 0x00, 0x01, 0x07, 0x00, 0x00, 0x00, 0x00, 0x00, // the field Kind
///     0x04, 0x00, 0x05, 0x00, // the end
/// ];
/// let hint = packet_hint(&table, &[0x08], &[], Verdict { number: 25, place: 1 });
/// assert_eq!(hint.message, "the constraint of `Kind` does not hold: `K == 7`");
/// assert_eq!(hint.notes, ["`K` (Kind) is 8"]);
/// ```
pub fn packet_hint(table: &[u8], packet: &[u8], before: &[[u32; 4]], verdict: Verdict) -> PacketHint {
    let fields = fields_of(table).unwrap_or_default();
    let place = verdict.place as usize;
    let told = match (verdict.number, place.checked_sub(1)) {
        (22, None) if packet.len() > PACKET_MOST => Some(too_long(packet)),
        (28, None) if !fields.is_empty() && before.len() == fields.len() => {
            left_over(&fields, packet, before)
        }
        (24..=27 | 29, Some(index)) if index < fields.len() && before.len() >= index => {
            let reading = Reading { fields: &fields, packet, before: &before[..index], index };
            reading.step().err().flatten().filter(|told| told.number == verdict.number)
        }
        _ => None,
    };
    let label = place.checked_sub(1).and_then(|index| fields.get(index));
    let label = label.map_or(String::new(), |field| shown(&field.label));
    let Some(Told { message, notes, number }) = told else {
        let (what, mend) = meaning_of(verdict.number);
        let (message, notes) = (what.to_string(), vec![mend.to_string()]);
        return PacketHint { number: verdict.number, field: place, label, message, notes };
    };
    PacketHint { number, field: place, label, message, notes }
}

/// The numbers of the fields before the first refused one, by a plain reading of the packet: all fields if none is
/// refused.
pub fn fields_before(table: &[u8], packet: &[u8]) -> Vec<[u32; 4]> {
    let fields = fields_of(table).unwrap_or_default();
    let mut before = Vec::new();
    for index in 0..fields.len() {
        let Ok(numbers) = (Reading { fields: &fields, packet, before: &before, index }).step() else { break };
        before.push(numbers);
    }
    before
}

/// The hint for a packet as lines of text; `name` is how the packet is called, in plain characters.
pub fn plain_packet(hint: &PacketHint, name: &str) -> String {
    let name = shown_name(name);
    let field = match hint.field {
        0 => String::new(),
        field => format!(", field {field}: {}", hint.label),
    };
    let notes: String = hint.notes.iter().map(|note| format!(" = note: {note}\n")).collect();
    format!("error[{}]: {}\n --> {name}{field}\n{notes}", hint.number, hint.message)
}

/// A refusal in words.
struct Told {
    number: u32,
    message: String,
    notes: Vec<String>,
}

/// The bit behind the last field that is present.
fn end_of(before: &[[u32; 4]]) -> u64 {
    let last = before.iter().rev().find(|field| field[0] == 1);
    last.map_or(0, |[_, offset, width, _]| u64::from(*offset) + u64::from(*width))
}

fn too_long(packet: &[u8]) -> Told {
    let length = counted(packet.len() as u64, "byte");
    let message = format!("the packet has {length}, at most {}", spelled(PACKET_MOST as u64));
    Told { number: 22, message, notes: vec!["see that it is one packet, and in bytes".to_string()] }
}

/// Bits as whole bytes and bits.
fn in_bytes(bits: u64) -> String {
    match (bits / 8, bits % 8) {
        (0, _) => "less than a byte".to_string(),
        (bytes, 0) => counted(bytes, "byte"),
        (bytes, bits) => format!("{} and {}", counted(bytes, "byte"), counted(bits, "bit")),
    }
}

fn left_over(fields: &[StoredField], packet: &[u8], before: &[[u32; 4]]) -> Option<Told> {
    let (total, end) = (8 * packet.len() as u64, end_of(before));
    let left = total.checked_sub(end).filter(|left| *left > 0)?;
    let verb = if left == 1 { "is" } else { "are" };
    let message =
        format!("{} {verb} left over from bit {} on: {}", counted(left, "bit"), spelled(end), in_bytes(left));
    let last = before.iter().rposition(|field| field[0] == 1).and_then(|index| fields.get(index));
    let ends = last.map_or("no field is present".to_string(), |last| {
        format!("{} is the last field that is present and ends at bit {}", quoted(&last.label), spelled(end))
    });
    let bytes = counted(packet.len() as u64, "byte");
    let notes = vec![
        format!("the packet has {bytes}, {}; {ends}", counted(total, "bit")),
        "a field of `variable` width takes what is left".to_string(),
    ];
    Some(Told { number: 28, message, notes })
}

/// The reading of a packet up to a field.
struct Reading<'a> {
    fields: &'a [StoredField],
    packet: &'a [u8],
    before: &'a [[u32; 4]],
    index: usize,
}

impl Reading<'_> {
    fn field(&self) -> &StoredField {
        &self.fields[self.index]
    }

    /// The value of a field that is read; `own` is the value of the field itself, where that may be read.
    fn value(&self, index: usize, own: Option<u32>) -> Option<Option<u32>> {
        match self.before.get(index) {
            Some([1, .., value]) => Some(Some(*value)),
            Some(_) => Some(None),
            None => own.filter(|_| index == self.index).map(Some),
        }
    }

    /// The numbers of the field, or what refuses it, if that can be told.
    fn step(&self) -> Result<[u32; 4], Option<Told>> {
        let field = self.field();
        if let Some(condition) = &field.condition {
            let value = value_of(condition, &|index| self.value(index, None));
            if value.map_err(|fault| self.faulted("condition", condition, fault, None))? == 0 {
                return Ok([0; 4]);
            }
        }
        let (total, place) = (8 * self.packet.len() as u64, end_of(self.before));
        let left = total.checked_sub(place).ok_or(None)?;
        let width = match &field.width {
            StoredWidth::Fixed(bits) => u64::from(*bits),
            StoredWidth::Rest => self.rest(place, left)?,
            StoredWidth::Measured { unit, tree } => {
                let value = value_of(tree, &|index| self.value(index, None));
                let value = value.map_err(|fault| self.faulted("width", tree, fault, None))?;
                u64::from(value) * u64::from(*unit)
            }
        };
        if width > left {
            return Err(Some(self.missing(width, place, left)));
        }
        let fixed = matches!(field.width, StoredWidth::Fixed(_));
        let own = fixed.then(|| bits_at(self.packet, place, width));
        self.constraint(own)?;
        let number = |number: u64| u32::try_from(number).unwrap_or(u32::MAX);
        Ok([1, number(place), number(width), own.unwrap_or_default()])
    }

    /// The width of the rest field: the fields behind it may need more than is left.
    fn rest(&self, place: u64, left: u64) -> Result<u64, Told> {
        let bits = |field: &StoredField| match field.width {
            StoredWidth::Fixed(bits) => u64::from(bits),
            _ => 0,
        };
        let behind: u64 = self.fields[self.index + 1..].iter().map(bits).sum();
        let label = quoted(&self.field().label);
        left.checked_sub(behind).ok_or_else(|| {
            let (needs, from) = (counted(behind, "bit"), spelled(place));
            let message =
                format!("the fields behind {label} need {needs} from bit {from} on, {}", left_in_words(left));
            Told { number: 24, message, notes: vec![self.length()] }
        })
    }

    fn length(&self) -> String {
        let length = self.packet.len() as u64;
        format!("the packet has {}, {}", counted(length, "byte"), counted(8 * length, "bit"))
    }

    fn missing(&self, width: u64, place: u64, left: u64) -> Told {
        let label = quoted(&self.field().label);
        let (needs, from) = (counted(width, "bit"), spelled(place));
        let message = format!("{label} needs {needs} from bit {from} on, {}", left_in_words(left));
        let mut notes = vec![self.length()];
        if let StoredWidth::Measured { unit, tree } = &self.field().width {
            let unit = if *unit == 8 { "bytes" } else { "bits" };
            notes.push(format!("its width is `{} {unit}`", written(tree, self.fields)));
            notes.extend(self.values(tree, None));
        }
        Told { number: 24, message, notes }
    }

    fn constraint(&self, own: Option<u32>) -> Result<(), Option<Told>> {
        let Some(rule) = &self.field().constraint else { return Ok(()) };
        match value_of(rule, &|index| self.value(index, own)) {
            Ok(0) => {
                let (label, whole) = (quoted(&self.field().label), written(rule, self.fields));
                let message = format!("the constraint of {label} does not hold: `{whole}`");
                Err(Some(Told { number: 25, message, notes: self.values(rule, own).into_iter().collect() }))
            }
            Ok(_) => Ok(()),
            Err(fault) => Err(self.faulted("constraint", rule, fault, own)),
        }
    }

    /// An expression that faults: which step, and what to write instead.
    fn faulted(&self, what: &str, rule: &Tree, fault: Fault, own: Option<u32>) -> Option<Told> {
        let (label, whole) = (quoted(&self.field().label), written(rule, self.fields));
        let (number, message, mend) = match fault {
            Fault::Unknown => return None,
            Fault::Absent(absent) => {
                let name = name_of(self.fields, absent);
                let message = format!("the {what} of {label} reads `{name}`, which is absent: `{whole}`");
                (26, message, mends::of_absent(what, rule, self.fields, absent))
            }
            Fault::Step { step, left, right, broken } => {
                let Tree::Two(operator, ..) = step else { return None };
                let step_written = written(step, self.fields);
                let told = format!("`{step_written}` is {left} {} {right}", operator.symbol);
                let limit = if operator.symbol == "-" { "below 0" } else { "over 4,294,967,295" };
                match broken {
                    Broken::Range => {
                        let message = format!("the {what} of {label} leaves the range: {told}, {limit}");
                        (27, message, mends::of_range(what, rule, self.fields, step))
                    }
                    Broken::ZeroDivisor => {
                        let message = format!("the {what} of {label} divides by zero: {told}");
                        (29, message, mends::of_divisor(what, rule, self.fields, step))
                    }
                }
            }
        };
        let rule_note = (number != 26).then(|| format!("the {what} is `{whole}`"));
        let notes = rule_note.into_iter().chain(self.values(rule, own)).chain(mend).collect();
        Some(Told { number, message, notes })
    }

    /// The values of the fields that an expression reads.
    fn values(&self, tree: &Tree, own: Option<u32>) -> Option<String> {
        let told = |index: usize| {
            let value = match self.value(index, own)? {
                Some(value) => value.to_string(),
                None => "absent".to_string(),
            };
            let label = self.fields.get(index).map_or(String::new(), |field| shown(&field.label));
            let name = name_of(self.fields, index);
            let whose = if name == label { String::new() } else { format!(" ({label})") };
            Some(format!("`{name}`{whose} is {value}"))
        };
        let values: Vec<String> = tree.fields().into_iter().filter_map(told).collect();
        (!values.is_empty()).then(|| values.join(", "))
    }
}

fn left_in_words(left: u64) -> String {
    match left {
        0 => "none is left".to_string(),
        1 => "1 is left".to_string(),
        _ => format!("{} are left", spelled(left)),
    }
}

/// The number that bits of a packet make; bits that are not there count as 0.
fn bits_at(packet: &[u8], place: u64, width: u64) -> u32 {
    let bit = |at: u64| packet.get((at / 8) as usize).map_or(0, |byte| u32::from(byte >> (7 - at % 8) & 1));
    (place..place + width).fold(0, |value, at| value << 1 | bit(at))
}
