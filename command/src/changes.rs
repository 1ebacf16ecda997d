//! What a cut or a putting-in changes in a table, as it is told where nothing is written.

use crate::fields::described;
use serde_json::{json, Value};
use std::ops::Range;
use umarekoza::count_readers;

/// Which way fields go.
#[derive(Clone, Copy, PartialEq, Eq)]
pub enum Way {
    Cut,
    Put,
}

/// The tables before and after, and the fields that are in one of them alone, by their indexes there.
pub struct Changes<'a> {
    pub way: Way,
    pub before: &'a [u8],
    pub after: &'a [u8],
    pub run: Range<usize>,
}

/// A field with what it had and has.
struct Changed {
    label: String,
    from: usize,
    to: usize,
}

impl Changes<'_> {
    /// The labels of the table that has the run, with their indexes.
    fn labels(&self) -> impl Iterator<Item = (usize, String)> {
        let longer = if self.way == Way::Cut { self.before } else { self.after };
        described(longer).into_iter().map(|field| field.label).enumerate()
    }

    /// The fields that are in both tables: each with its index before and after.
    fn kept(&self) -> Vec<Changed> {
        let kept = |(index, label): (usize, String)| {
            let other = if index < self.run.start { index } else { index - self.run.len() };
            match self.way {
                Way::Cut => Changed { label, from: index, to: other },
                Way::Put => Changed { label, from: other, to: index },
            }
        };
        self.labels().filter(|(index, _)| !self.run.contains(index)).map(kept).collect()
    }

    /// Those whose index changes.
    fn moved(&self) -> Vec<Changed> {
        self.kept().into_iter().filter(|field| field.from != field.to).collect()
    }

    /// Those whose number of places that read them changes: that number before and after.
    fn readers(&self) -> Vec<Changed> {
        let number = |table: &[u8], index: usize| count_readers(table, index).unwrap_or_default();
        let counted = |Changed { label, from, to }: Changed| Changed {
            label,
            from: number(self.before, from),
            to: number(self.after, to),
        };
        self.kept().into_iter().map(counted).filter(|field| field.from != field.to).collect()
    }

    /// The fields of the run with their indexes.
    fn in_run(&self) -> Vec<(usize, String)> {
        self.labels().filter(|(index, _)| self.run.contains(index)).collect()
    }

    fn fields(&self) -> (usize, usize) {
        let (kept, run) = (self.kept().len(), self.run.len());
        match self.way {
            Way::Cut => (kept + run, kept),
            Way::Put => (kept, kept + run),
        }
    }

    /// A line for each change.
    pub fn lines(&self) -> String {
        let what = if self.way == Way::Cut { "cut out" } else { "put in" };
        let run = self.in_run().into_iter().map(|(index, label)| format!("{what}: {label}, index {index}"));
        let moved = self.moved().into_iter();
        let moved = moved.map(|Changed { label, from, to }| format!("{label}: index {from} becomes {to}"));
        let readers = self.readers().into_iter();
        let readers = readers
            .map(|Changed { label, from, to }| format!("{label}: read in {}, then in {to}", places(from)));
        let (before, after) = self.fields();
        let totals = [
            format!("fields: {before} become {after}"),
            format!("bytes: {} become {}", self.before.len(), self.after.len()),
        ];
        run.chain(moved).chain(readers).chain(totals).map(|line| line + "\n").collect()
    }

    /// The same as an object of JSON, for what has this name.
    pub fn object(&self, name: &str) -> Value {
        let what = if self.way == Way::Cut { "cut" } else { "put" };
        let run = self.in_run().into_iter().map(|(index, label)| json!({ "label": label, "index": index }));
        let each = |changed: Vec<Changed>| -> Vec<Value> {
            let one = |Changed { label, from, to }| json!({ "label": label, "from": from, "to": to });
            changed.into_iter().map(one).collect()
        };
        let (before, after) = self.fields();
        json!({
            "name": name,
            "result": "accepted",
            what: run.collect::<Vec<Value>>(),
            "moved": each(self.moved()),
            "readers": each(self.readers()),
            "fields": { "from": before, "to": after },
            "bytes": { "from": self.before.len(), "to": self.after.len() },
        })
    }
}

fn places(count: usize) -> String {
    match count {
        1 => "1 place".to_string(),
        count => format!("{count} places"),
    }
}
