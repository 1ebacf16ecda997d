//! The form of a field line [01, The lines of a text]. What is wrong here is a 5.

use crate::descriptions::{Field, Width};
use crate::expressions::expression;
use crate::names::{is_label, is_short_name};
use crate::rules::MOST_FIXED_BITS;
use crate::trees::Tree;
use crate::widths::fixed_number;

pub const VARIABLE: &[u8] = b"variable";
pub const PRESENT: &[u8] = b"; present only when ";
/// The words of each unit, with its bits.
pub const UNITS: [(&[u8], u32); 4] = [(b"bit", 1), (b"bits", 1), (b"byte", 8), (b"bytes", 8)];

/// The field that a line describes, its trees with names as they stand.
pub fn field_line(line: &[u8]) -> Option<Field<'_, &[u8]>> {
    let mut rest = line;
    let (label, short) = names(&mut rest)?;
    let width = width(&mut rest)?;
    let starts_condition = rest.starts_with(PRESENT);
    let constraint = if starts_condition { None } else { clause(&mut rest, b"; ")? };
    let condition = clause(&mut rest, PRESENT)?;
    let remark = rest.strip_prefix(b".")?;
    if !matches!(remark.first(), None | Some(b' ')) {
        return None;
    }
    Some(Field { label, short, width, constraint, condition })
}

/// The label, the short name if there is one, and `: `.
fn names<'a>(rest: &mut &'a [u8]) -> Option<(&'a [u8], Option<&'a [u8]>)> {
    let end = rest.iter().position(|byte| matches!(byte, b'(' | b':'))?;
    let (before, after) = rest.split_at(end);
    if let Some(after) = after.strip_prefix(b": ") {
        *rest = after;
        return is_label(before).then_some((before, None));
    }
    let label = before.strip_suffix(b" ").filter(|label| is_label(label))?;
    let inner = after.strip_prefix(b"(")?;
    let end = inner.iter().position(|byte| *byte == b')')?;
    let (short, after) = inner.split_at(end);
    *rest = after.strip_prefix(b"): ")?;
    is_short_name(short).then_some((label, Some(short)))
}

fn width<'a>(rest: &mut &'a [u8]) -> Option<Width<&'a [u8]>> {
    if let Some(after) = rest.strip_prefix(VARIABLE) {
        *rest = after;
        return Some(Width::Rest);
    }
    let tree = tree(rest)?;
    let after = rest.strip_prefix(b" ")?;
    let end = after.iter().position(|byte| !byte.is_ascii_alphabetic()).unwrap_or(after.len());
    let (word, after) = after.split_at(end);
    *rest = after;
    let (_, unit) = UNITS.into_iter().find(|(name, _)| *name == word)?;
    let Some(number) = fixed_number(&tree) else {
        return Some(Width::Measured { unit, tree });
    };
    let bits = number.checked_mul(unit)?;
    (1..=MOST_FIXED_BITS).contains(&bits).then_some(Width::Fixed(bits))
}

/// An expression after `opening`, or none where the opening does not stand.
fn clause<'a>(rest: &mut &'a [u8], opening: &[u8]) -> Option<Option<Tree<&'a [u8]>>> {
    let Some(after) = rest.strip_prefix(opening) else { return Some(None) };
    *rest = after;
    tree(rest).map(Some)
}

fn tree<'a>(rest: &mut &'a [u8]) -> Option<Tree<&'a [u8]>> {
    let (tree, after) = expression(rest, 0)?;
    *rest = &rest[after..];
    Some(tree)
}
