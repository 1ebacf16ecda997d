//! Which names are read, and which clash [01, Expressions] [01, Fields] [02, R-2].

use crate::descriptions::Field;
use crate::names::is_short_name;

/// The name that an expression has where `rest` starts.
pub fn name_at(rest: &[u8]) -> Option<&[u8]> {
    let end = rest.iter().position(|byte| !byte.is_ascii_alphanumeric()).unwrap_or(rest.len());
    Some(&rest[..end]).filter(|name| is_short_name(name))
}

/// The names by which a field may be read: those of the form of a short name.
pub fn read_names<'a, N>(field: &Field<'a, N>) -> impl Iterator<Item = &'a [u8]> {
    field.names().filter(|name| is_short_name(name))
}

/// Whether an expression may read the field at `place`: it stands before `end`, is fixed and has a name to be read by.
pub fn may_read<N>(fields: &[Field<N>], place: usize, end: usize) -> bool {
    let readable = |field: &Field<N>| field.fixed_bits().is_some() && read_names(field).next().is_some();
    place < end && fields.get(place).is_some_and(readable)
}

/// The first field that bears a name of an earlier one.
pub fn first_repeat<N>(fields: &[Field<N>]) -> Option<usize> {
    let clashes = |field: &Field<N>, other: &Field<N>| field.names().any(|name| other.is_called(name));
    (0..fields.len()).find(|index| fields[..*index].iter().any(|earlier| clashes(&fields[*index], earlier)))
}
