//! The model's `lines` with one rule wrong, or none, as is set for the thread.

#[allow(dead_code)]
#[path = "../../../model/src/lines.rs"]
mod right;

use crate::refusals::{refused, Refusal};
pub use right::LONGEST_LINE;
use std::cell::Cell as Set;
use Rule::*;

/// A wrong rule.
#[derive(Clone, Copy, Debug, PartialEq, Eq)]
pub enum Rule {
    /// How long a line may be, and what counts.
    AnyLength,
    OneLess,
    OneMore,
    RemarksDoNotCount,
    BlanksAtTheEndDoNotCount,
    /// Which lines are held to it; one above the field lines is wrong at any such length.
    FieldLinesAreFree,
    LastLineIsFree,
    /// By which number and at which place such a line is refused.
    ItIsAFieldLine,
    ItHasNoPlace,
    TheNextIsWrong,
    TheLastOneIsTold,
    /// What goes before what.
    ItGoesFirst,
    ItGoesBefore1,
    ItGoesBefore2,
    ItGoesLast,
}

thread_local! {
    static RULE: Set<Option<Rule>> = const { Set::new(None) };
}

/// What `answer` gives with this wrong rule or none.
pub fn by_rule<T>(rule: Option<Rule>, answer: impl FnOnce() -> T) -> T {
    RULE.set(rule);
    let answer = answer();
    RULE.set(None);
    answer
}

pub fn is(rule: Rule) -> bool {
    RULE.get() == Some(rule)
}

pub struct Lines<'a> {
    lines: right::Lines<'a>,
    most: usize,
    pub rest: &'a [u8],
    pub taken: u32,
}

/// The numbers from 1 of the lines that are too long.
pub fn long_lines(text: &[u8]) -> impl Iterator<Item = u32> + '_ {
    let ended = text.split_inclusive(|byte| *byte == b'\n').filter(|line| line.ends_with(b"\n"));
    ended.zip(1..).filter(|(line, _)| line.len() > LONGEST_LINE + 1).map(|(_, number)| number)
}

impl<'a> Lines<'a> {
    pub fn new(text: &'a [u8], most: usize) -> Self {
        Lines { lines: right::Lines::new(text, usize::MAX), most, rest: text, taken: 0 }
    }

    pub fn peek(&self) -> Option<&'a [u8]> {
        self.lines.peek()
    }

    pub fn next(&mut self) -> Result<Option<&'a [u8]>, Refusal> {
        if self.taken == 0 && (is(ItGoesFirst) || is(TheLastOneIsTold)) {
            let mut long = long_lines(self.rest);
            let told = if is(ItGoesFirst) { long.next() } else { long.last() };
            told.map_or(Ok(()), |number| refused(3, number))?;
        }
        let line = self.lines.next()?;
        (self.rest, self.taken) = (self.lines.rest, self.lines.taken);
        match line {
            Some(line) if self.is_long(line) => self.long(),
            line => Ok(line),
        }
    }

    fn is_long(&self, line: &[u8]) -> bool {
        let is_field = self.taken > 10 && line.first().is_some_and(u8::is_ascii_alphanumeric);
        let is_free = (is(FieldLinesAreFree) && is_field) || (is(LastLineIsFree) && self.rest.is_empty());
        let stop = line.iter().position(|byte| *byte == b'.').map_or(line.len(), |stop| stop + 1);
        let length = match RULE.get() {
            Some(AnyLength | ItGoesLast) => 0,
            Some(OneLess) => line.len() + 1,
            Some(OneMore) => line.len() - line.len().min(1),
            Some(RemarksDoNotCount) => stop,
            Some(BlanksAtTheEndDoNotCount) => line.trim_ascii_end().len(),
            _ => line.len(),
        };
        !is_free && length > self.most
    }

    fn long<T>(&self) -> Result<T, Refusal> {
        match RULE.get() {
            Some(ItIsAFieldLine) => refused(5, self.taken),
            Some(ItHasNoPlace) => refused(3, 0),
            Some(TheNextIsWrong) => refused(3, self.taken + 1),
            _ => refused(3, self.taken),
        }
    }

    pub fn required(&mut self) -> Result<&'a [u8], Refusal> {
        self.next()?.map_or_else(|| self.ends_early(), Ok)
    }

    pub fn exactly(&mut self, line: &[u8]) -> Result<(), Refusal> {
        if self.required()? == line {
            Ok(())
        } else {
            self.wrong()
        }
    }

    pub fn wrong<T>(&self) -> Result<T, Refusal> {
        self.lines.wrong()
    }

    pub fn ends_early<T>(&self) -> Result<T, Refusal> {
        self.lines.ends_early()
    }
}
