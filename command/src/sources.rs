//! Pages and tables.

use crate::fed::Fed;
use crate::inputs::{add, Input};
use crate::names::shown;
use crate::Failure;
use umarekoza::Refusal;

/// What a source is taken for.
#[derive(Clone, Copy, PartialEq, Eq)]
pub enum Sort {
    /// A page if its first byte is `A`, else a table.
    ByFirstByte,
    Page,
    Table,
}

/// A source as the arguments name it.
pub struct SourceName {
    pub input: Input,
    pub sort: Sort,
}

/// A page or a table.
pub struct Source {
    pub input: Input,
    pub bytes: Bytes,
    pub sort: Sort,
}

/// What a source is made of.
pub enum Bytes {
    Whole(Vec<u8>),
    /// A page that came in parts.
    Fed(Fed),
}

impl SourceName {
    pub fn read(&self) -> Result<Source, Failure> {
        let read = Source::read(self.input.clone(), self.sort);
        read.map_err(|why| Failure::Said(format!("{}: {why}", self.input)))
    }
}

impl Sort {
    /// Whether what begins like this is a page.
    fn is_page(self, start: &[u8]) -> bool {
        match self {
            Sort::ByFirstByte => start.first() == Some(&b'A'),
            sort => sort == Sort::Page,
        }
    }
}

impl Source {
    /// Reads a file whole, and standard input as it comes; or says why it cannot be read.
    pub fn read(input: Input, sort: Sort) -> Result<Self, String> {
        let bytes = match &input {
            Input::Standard => parts(&input, sort)?,
            Input::File(_) => Bytes::Whole(input.bytes()?),
        };
        Ok(Source { input, bytes, sort })
    }

    /// All bytes; of a page that came in parts and is too long, its start.
    pub fn start(&self) -> &[u8] {
        match &self.bytes {
            Bytes::Whole(bytes) => bytes,
            Bytes::Fed(fed) => &fed.start,
        }
    }

    pub fn length(&self) -> u64 {
        match &self.bytes {
            Bytes::Whole(bytes) => bytes.len() as u64,
            Bytes::Fed(fed) => fed.length,
        }
    }

    pub fn is_page(&self) -> bool {
        self.sort.is_page(self.start())
    }

    /// What it is read as: `page` or `table`.
    pub fn kind(&self) -> &'static str {
        if self.is_page() {
            "page"
        } else {
            "table"
        }
    }

    /// The table of a page, or the table itself if it is good.
    pub fn table(&self) -> Result<Vec<u8>, Refusal> {
        match &self.bytes {
            Bytes::Fed(fed) => fed.pieces.table(),
            Bytes::Whole(page) if self.is_page() => umarekoza::table_of(page),
            Bytes::Whole(table) => umarekoza::check_table(table).map(|()| table.clone()),
        }
    }

    /// Whether it is a table that is good no longer and can be converted.
    pub fn is_old(&self) -> bool {
        !self.is_page() && umarekoza::converted(self.start()).is_ok()
    }

    /// Why it was taken for a table, where its first byte alone said so.
    pub fn doubt(&self) -> Option<String> {
        if self.sort != Sort::ByFirstByte || self.is_page() {
            return None;
        }
        let begins = match self.start() {
            [] => "is empty".to_string(),
            [0xEF, 0xBB, 0xBF, ..] => "begins with a byte order mark".to_string(),
            [b' ' | b'\t', ..] => "begins with a blank".to_string(),
            [b'\n' | b'\r', ..] => "begins with an empty line".to_string(),
            bytes => format!("begins with `{}`", shown(&bytes[..bytes.len().min(3)])),
        };
        Some(format!(
            "it {begins} and is taken for a table; a page begins with `A NAME is formatted as follows:` or \
             `An ..`, and with --page it is read as a page"
        ))
    }
}

/// What comes in parts: a page goes to the library part by part, a table is kept whole.
fn parts(input: &Input, sort: Sort) -> Result<Bytes, String> {
    let mut bytes = match sort {
        Sort::Page => Bytes::Fed(Fed::new()),
        _ => Bytes::Whole(Vec::new()),
    };
    input.each_part(|part| {
        if matches!(&bytes, Bytes::Whole(none) if none.is_empty()) && sort.is_page(part) {
            bytes = Bytes::Fed(Fed::new());
        }
        match &mut bytes {
            Bytes::Fed(fed) => fed.take(part),
            Bytes::Whole(bytes) => add(bytes, part)?,
        }
        Ok(())
    })?;
    Ok(bytes)
}
