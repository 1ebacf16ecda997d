//! The fields of a table, and a field by its name or index.

use std::ffi::OsStr;
use umarekoza::{Field, Kind, Refusal, RUN_MOST};

/// What a table says of a field.
pub struct Described {
    pub label: String,
    pub short: Option<String>,
    pub kind: Kind,
}

impl Described {
    pub fn is_fixed(&self) -> bool {
        self.kind == Kind::Fixed
    }

    /// A field of a packet as a listing has it.
    pub fn line(&self, field: &Field) -> String {
        let (label, Field { offset, width, value, .. }) = (&self.label, field);
        match field.present {
            false => format!("{label}: absent"),
            true if self.is_fixed() => format!("{label}: {offset} {width} {value}"),
            true => format!("{label}: {offset} {width}"),
        }
    }
}

/// All fields of a good table.
pub fn described(table: &[u8]) -> Vec<Described> {
    let text = |bytes: &[u8]| String::from_utf8_lossy(bytes).into_owned();
    let field = |index| {
        let label = text(umarekoza::field_label(table, index)?);
        let kind = umarekoza::field_kind(table, index).ok()?;
        Some(Described { label, short: umarekoza::field_short(table, index).map(text), kind })
    };
    (0..).map_while(field).collect()
}

/// The bits of a packet or its refusal, and its fields in the order of the table: those before the first refused one,
/// or all.
pub fn reading(table: &[u8], packet: &[u8]) -> (Result<u64, Refusal>, Vec<Field>) {
    let mut run = [0; RUN_MOST];
    let (answer, count) = umarekoza::read_partly(table, packet, &mut run);
    let fields =
        run.chunks_exact(4).take(count).map(|four| Field::from([four[0], four[1], four[2], four[3]]));
    (answer, fields.collect())
}

/// The four numbers of a field in a run.
pub fn numbers_of(field: &Field) -> [u32; 4] {
    [u32::from(field.present), field.offset, field.width, field.value]
}

/// The index of the field with this name; where there is none, the index that is written there, if it is one.
pub fn index_of(table: &[u8], field: &OsStr) -> Result<usize, Refusal> {
    umarekoza::find_field(table, field.as_encoded_bytes()).or_else(|refusal| {
        let digits = field.to_str().filter(|word| word.bytes().all(|byte| byte.is_ascii_digit()));
        let index = digits.and_then(|word| word.parse().ok());
        index.filter(|index| umarekoza::field_label(table, *index).is_some()).ok_or(refusal)
    })
}

/// The bytes of a field, if it is present, starts on a byte and has whole ones.
pub fn whole_bytes<'a>(field: &Field, bytes: &'a [u8]) -> Option<&'a [u8]> {
    let whole = field.offset.is_multiple_of(8) && field.width.is_multiple_of(8);
    (field.present && whole).then_some(bytes)
}

/// The label or short name that is most like a name, if one is like it.
pub fn nearest<'a>(fields: &'a [Described], name: &str) -> Option<&'a str> {
    let name = name.to_lowercase();
    let names = fields.iter().flat_map(|field| [Some(&field.label), field.short.as_ref()]).flatten();
    let near =
        |other: &'a String| (strsim::damerau_levenshtein(&name, &other.to_lowercase()), other.as_str());
    let (distance, nearest) = names.map(near).min_by_key(|(distance, _)| *distance)?;
    (3 * distance <= nearest.chars().count().max(2)).then_some(nearest)
}

#[cfg(test)]
mod tests {
    use super::{nearest, Described};
    use umarekoza::Kind;

    #[test]
    fn nearest_names() {
        let field = |label: &str, short: &str| Described {
            label: label.to_string(),
            short: (!short.is_empty()).then(|| short.to_string()),
            kind: Kind::Fixed,
        };
        let fields = [field("Borrower", "Bor"), field("On Loan", "L"), field("Sum", "")];
        let cases = [
            ("Borower", Some("Borrower")),
            ("bor", Some("Bor")),
            ("on-loan", Some("On Loan")),
            ("Sun", Some("Sum")),
            ("Total", None),
            ("", None),
        ];
        for (name, near) in cases {
            assert_eq!(nearest(&fields, name), near, "{name}");
        }
    }
}
