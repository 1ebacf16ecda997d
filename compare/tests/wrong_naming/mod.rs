//! The model's `naming` with one rule wrong, or none, as is set for the thread.

use crate::descriptions::Field;
use crate::names::is_short_name;
use std::cell::{Cell, RefCell};
use Rule::*;

const RESERVED: [&str; 6] = ["bit", "bits", "byte", "bytes", "variable", "present"];
/// With how many fields before it a field is compared where those far off may repeat names.
const NEAR: usize = 62;

/// A wrong rule.
#[derive(Clone, Copy, Debug, PartialEq, Eq)]
pub enum Rule {
    /// Labels that are read; of a later or a long field only where it has no short name.
    AnyIsRead,
    SpacesAreRead,
    ReservedIsRead,
    NineBytesAreRead,
    LaterIsRead,
    LongIsRead,
    /// Labels that are not read.
    NoneIsRead,
    EightBytesAreNotRead,
    LetterIsNotRead,
    DigitIsNotRead,
    OtherCaseIsReserved,
    /// Names of a field that do not clash with an earlier one's.
    LabelMayBeShort,
    ShortMayBeLabel,
    LongMayRepeat,
    FarMayRepeat,
    /// Names that clash: the two of one field, those that differ in case.
    WordTwice,
    OtherCaseRepeats,
    /// Which line has the clash: the later one of the pair with the earliest first field; the first that has a label
    /// of another field as its label, else a short name as its short name, else one as the other.
    EarliestFirst,
    LikeFirst,
}

thread_local! {
    static RULE: Cell<Option<Rule>> = const { Cell::new(None) };
    /// The labels of a text that are read by this rule and not by the right one.
    static LABELS: RefCell<Vec<Vec<u8>>> = const { RefCell::new(Vec::new()) };
}

/// What `answer` gives with this wrong rule or none, on a text with these labels.
pub fn by_rule<T>(rule: Option<Rule>, labels: &[&[u8]], answer: impl FnOnce() -> T) -> T {
    RULE.set(rule);
    let read = labels.iter().filter(|label| is_read(label) && !is_short_name(label));
    LABELS.set(read.map(|label| label.to_vec()).collect());
    let answer = answer();
    RULE.set(None);
    LABELS.take();
    answer
}

fn is(rule: Rule) -> bool {
    RULE.get() == Some(rule)
}

/// Whether a field is read by its label, if that is this.
fn is_read(label: &[u8]) -> bool {
    let has_form = |most| {
        label.len() <= most
            && label.iter().all(u8::is_ascii_alphanumeric)
            && label.first().is_some_and(u8::is_ascii_alphabetic)
    };
    let is_reserved = RESERVED.iter().any(|word| word.as_bytes() == label);
    match RULE.get() {
        Some(AnyIsRead) => true,
        Some(SpacesAreRead) => label.contains(&b' ') || is_short_name(label),
        Some(ReservedIsRead) => has_form(8),
        Some(NineBytesAreRead) => has_form(9) && !is_reserved,
        Some(NoneIsRead) => false,
        Some(EightBytesAreNotRead) => is_short_name(label) && label.len() < 8,
        Some(LetterIsNotRead) => is_short_name(label) && label.len() > 1,
        Some(DigitIsNotRead) => is_short_name(label) && !label.iter().any(u8::is_ascii_digit),
        Some(OtherCaseIsReserved) => {
            is_short_name(label) && !RESERVED.iter().any(|word| label.eq_ignore_ascii_case(word.as_bytes()))
        }
        _ => is_short_name(label),
    }
}

pub fn name_at(rest: &[u8]) -> Option<&[u8]> {
    let ends = |end: usize| !rest.get(end).is_some_and(u8::is_ascii_alphanumeric);
    let is_here = |label: &&Vec<u8>| rest.starts_with(label) && ends(label.len());
    let here = LABELS.with_borrow(|labels| labels.iter().filter(is_here).map(Vec::len).max());
    let word = rest.iter().position(|byte| !byte.is_ascii_alphanumeric()).unwrap_or(rest.len());
    match here {
        Some(length) => Some(&rest[..length]),
        None => Some(&rest[..word]).filter(|name| is_short_name(name)),
    }
}

pub fn read_names<'a, N>(field: &Field<'a, N>) -> impl Iterator<Item = &'a [u8]> {
    field.short.into_iter().chain(Some(field.label).filter(|label| is_read(label)))
}

pub fn may_read<N>(fields: &[Field<N>], place: usize, end: usize) -> bool {
    let Some(field) = fields.get(place) else { return false };
    let only_by_label = field.short.is_none() && is_read(field.label);
    (place < end || is(LaterIsRead) && only_by_label)
        && (field.fixed_bits().is_some() || is(LongIsRead) && only_by_label)
        && read_names(field).next().is_some()
}

pub fn first_repeat<N>(fields: &[Field<N>]) -> Option<usize> {
    let count = fields.len();
    match RULE.get() {
        Some(EarliestFirst) => {
            let repeat = |one: usize| (one + 1..count).find(|other| clash(&fields[one], &fields[*other]));
            (0..count).find_map(repeat)
        }
        Some(LikeFirst) => [labels, shorts, crossed].into_iter().find_map(|alike| first_by(fields, alike)),
        _ => first_by(fields, clash),
    }
}

/// The first field of which this holds with an earlier one.
fn first_by<N>(fields: &[Field<N>], clash: fn(&Field<N>, &Field<N>) -> bool) -> Option<usize> {
    let repeats = |index: usize| {
        let from = if is(FarMayRepeat) { index.saturating_sub(NEAR) } else { 0 };
        fields[from..index].iter().any(|earlier| clash(earlier, &fields[index]))
    };
    (0..fields.len()).find(|index| repeats(*index) || is(WordTwice) && is_twice(&fields[*index]))
}

fn is_twice<N>(field: &Field<N>) -> bool {
    field.short == Some(field.label)
}

/// Whether two fields, the earlier one first, have a name that they may not.
fn clash<N>(one: &Field<N>, other: &Field<N>) -> bool {
    let is_long = one.fixed_bits().is_none() || other.fixed_bits().is_none();
    !(is(LongMayRepeat) && is_long) && (labels(one, other) || shorts(one, other) || crossed(one, other))
}

fn alike(one: &[u8], other: &[u8]) -> bool {
    one == other || is(OtherCaseRepeats) && one.eq_ignore_ascii_case(other)
}

fn labels<N>(one: &Field<N>, other: &Field<N>) -> bool {
    alike(one.label, other.label)
}

fn shorts<N>(one: &Field<N>, other: &Field<N>) -> bool {
    one.short.zip(other.short).is_some_and(|(one, other)| alike(one, other))
}

fn crossed<N>(one: &Field<N>, other: &Field<N>) -> bool {
    one.short.is_some_and(|short| !is(LabelMayBeShort) && alike(short, other.label))
        || other.short.is_some_and(|short| !is(ShortMayBeLabel) && alike(short, one.label))
}
