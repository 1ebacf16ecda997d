//! The fields outside a run that read fields in it.

use crate::shown::{listed, quoted, shown};
use crate::stored::{StoredField, StoredWidth};
use crate::written::written;

/// A field that reads some of a run.
pub struct Reader {
    pub index: usize,
    /// The labels of the fields that it reads.
    pub read: Vec<String>,
    /// The expressions in which it reads them.
    pub places: Vec<String>,
}

impl Reader {
    /// What it reads, as `` `A` and `B` ``.
    pub fn what(&self) -> String {
        listed(&self.read, "and")
    }

    /// Where it reads them, as ``its width is `A bytes` ``.
    pub fn places(&self) -> String {
        listed(&self.places, "and")
    }
}

/// All fields outside the run that read one in it.
pub fn readers(fields: &[StoredField], first: usize, last: usize) -> Vec<Reader> {
    let run = first..=last;
    let outside = (0..fields.len()).filter(|index| !run.contains(index));
    let reader = |index: usize| {
        let field = &fields[index];
        let is_cut = |read: &usize| run.contains(read);
        let (mut read, mut places) = (Vec::new(), Vec::new());
        for (what, tree) in field.expressions() {
            let cut: Vec<usize> = tree.fields().into_iter().filter(is_cut).collect();
            if !cut.is_empty() {
                places.push(format!("its {what} is `{}{}`", written(tree, fields), unit(field, what)));
            }
            for one in cut {
                if !read.contains(&one) {
                    read.push(one);
                }
            }
        }
        let read: Vec<String> = read.iter().filter_map(|one| fields.get(*one)).map(named).collect();
        (!read.is_empty()).then_some(Reader { index, read, places })
    };
    outside.filter_map(reader).collect()
}

/// A label, with the short name by which the field is read.
fn named(field: &StoredField) -> String {
    match &field.short[..] {
        [] => quoted(&field.label),
        short => format!("{} ({})", quoted(&field.label), shown(short)),
    }
}

/// The unit behind a width.
fn unit(field: &StoredField, what: &str) -> &'static str {
    match field.width {
        StoredWidth::Measured { unit: 8, .. } if what == "width" => " bytes",
        StoredWidth::Measured { .. } if what == "width" => " bits",
        _ => "",
    }
}
