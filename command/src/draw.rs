//! Refusals drawn on standard error, with colour on a terminal. What is drawn holds no control character: names, labels
//! and lines are shown before they come here.

use crate::progress;
use codespan_reporting::diagnostic::{Diagnostic, Label};
use codespan_reporting::files::{Error, Files};
use codespan_reporting::term::termcolor::{Buffer, BufferWriter, ColorChoice};
use codespan_reporting::term::{emit, Chars, Config};
use std::io::{self, IsTerminal, Write};
use std::ops::Range;

/// What is said of a refusal.
pub struct Told {
    pub number: u32,
    pub message: String,
    /// The file, with a line or a field.
    pub place: String,
    pub mark: Option<Mark>,
    pub notes: Vec<String>,
    /// Lines below.
    pub below: Vec<String>,
}

/// A line with a place that is marked.
pub struct Mark {
    /// The name of the file.
    pub name: String,
    /// Line and column, from 1.
    pub line: usize,
    pub column: usize,
    /// The line, or the part of it that is shown.
    pub text: String,
    /// What is marked in the text.
    pub meant: Range<usize>,
    pub label: String,
}

/// Draws it on standard error. There is nowhere to tell that this failed.
pub fn draw(told: &Told) {
    let choice = if io::stderr().is_terminal() { ColorChoice::Auto } else { ColorChoice::Never };
    let text = told.drawn(BufferWriter::stderr(choice).buffer());
    progress::aside(|| {
        let _ = io::stderr().lock().write_all(text.as_bytes());
    });
}

impl Told {
    /// The lines as they are drawn to a buffer, which says whether with colours.
    pub fn drawn(&self, mut buffer: Buffer) -> String {
        let config = Config { chars: Chars::ascii(), ..Config::default() };
        // Neither the buffer nor the line that is marked can fail.
        let _ = emit(&mut buffer, &config, self, &self.diagnostic());
        let drawn = String::from_utf8_lossy(buffer.as_slice());
        let lines = drawn.trim_end().lines().map(str::trim_end);
        lines.chain(self.below.iter().map(String::as_str)).map(|line| format!("{line}\n")).collect()
    }

    fn diagnostic(&self) -> Diagnostic<()> {
        let diagnostic = Diagnostic::error()
            .with_code(self.number.to_string())
            .with_notes(self.notes.iter().map(|note| format!("note: {note}")).collect());
        let Some(mark) = &self.mark else {
            return diagnostic.with_message(format!("{}\n --> {}", self.message, self.place));
        };
        let label = Label::primary((), mark.meant.clone()).with_message(&mark.label);
        diagnostic.with_message(&self.message).with_labels(vec![label])
    }

    fn marked(&self) -> Result<&Mark, Error> {
        self.mark.as_ref().ok_or(Error::FileMissing)
    }
}

/// The only file is the marked line.
impl<'a> Files<'a> for Told {
    type FileId = ();
    type Name = &'a str;
    type Source = &'a str;

    fn name(&'a self, (): ()) -> Result<&'a str, Error> {
        Ok(&self.marked()?.name)
    }

    fn source(&'a self, (): ()) -> Result<&'a str, Error> {
        Ok(&self.marked()?.text)
    }

    fn line_index(&'a self, (): (), _: usize) -> Result<usize, Error> {
        Ok(self.marked()?.line - 1)
    }

    fn line_range(&'a self, (): (), _: usize) -> Result<Range<usize>, Error> {
        Ok(0..self.marked()?.text.len())
    }

    fn column_number(&'a self, (): (), _: usize, _: usize) -> Result<usize, Error> {
        Ok(self.marked()?.column)
    }
}
