//! Number 3: the lines above the field lines, read in their order.

use crate::faults::{Fault, Mistake};
use crate::frame_lines::{border_of, gap, kind_found, opening, tens, units, where_line, OPENING, ROW_BITS};
use crate::lines::Lines;
use crate::row_faults::{is_row_like, line_behind, line_fault};
use crate::rows::{Cell, Row};

/// What a line has to be.
#[derive(Clone, Copy, PartialEq, Eq)]
enum Part {
    Opening,
    Gap,
    Tens,
    Units,
    TopBorder,
    FirstRow,
    Border,
    RowOrGap,
    Where,
    LastGap,
    Fields,
}

/// What was read above the field lines.
pub struct Frame {
    pub mistakes: Vec<Mistake>,
    pub cells: Vec<Cell>,
    /// Whether these are all cells.
    pub whole: bool,
    /// The index of the first field line; none if it is not known where the field lines begin.
    pub fields_from: Option<usize>,
}

/// Reads the lines above the field lines. Behind a wrong line it goes on only where it is clear how.
pub fn read(lines: &Lines) -> Frame {
    let mut reader =
        Reader { lines, bits: None, row: None, cells: Vec::new(), mistakes: Vec::new(), whole: true };
    let (mut part, mut at) = (Part::Opening, 0);
    while part != Part::Fields {
        let Some(line) = lines.ended.get(at) else { break };
        (part, at) = match reader.judge(part, line, at + 1) {
            Ok(next) => {
                reader.keep(part, line, at + 1);
                (next, at + 1)
            }
            Err(fault) => match reader.behind_mistake(part, at, fault) {
                Some(next) => next,
                None => return reader.given_up(),
            },
        }
    }
    let ending = reader.ending(part, at);
    reader.check_row(None);
    reader.close_row();
    reader.mistakes.extend(ending);
    let fields_from = Some(at).filter(|_| part == Part::Fields);
    Frame { mistakes: reader.mistakes, cells: reader.cells, whole: reader.whole, fields_from }
}

/// A line that is one too many.
fn extra(fault: Fault, line: &[u8]) -> Fault {
    let label = if line.is_empty() { "an empty line too many" } else { "a line too many" };
    Fault::new(0..line.len(), fault.message, label).note("take this line out")
}

/// A line without the blanks at its end.
fn unblanked(line: &[u8]) -> &[u8] {
    let end = line.iter().rposition(|byte| *byte != b' ').map_or(0, |last| last + 1);
    &line[..end]
}

struct Reader<'a> {
    lines: &'a Lines<'a>,
    /// The bits of a row, once known.
    bits: Option<usize>,
    /// The row whose border has not come yet.
    row: Option<Row<'a>>,
    cells: Vec<Cell>,
    mistakes: Vec<Mistake>,
    /// Whether the cells are all cells so far.
    whole: bool,
}

impl<'a> Reader<'a> {
    /// What has to follow the line, or what is wrong with it.
    fn judge(&self, part: Part, line: &'a [u8], number: usize) -> Result<Part, Fault> {
        let plain = self.judge_plain(part, line, number);
        if plain.is_ok() {
            return plain;
        }
        self.blanks(part, line, number).map_or(plain, Err)
    }

    fn judge_plain(&self, part: Part, line: &'a [u8], number: usize) -> Result<Part, Fault> {
        let one = self.bits.map(|bits| [bits]);
        let widths = one.as_ref().map_or(&ROW_BITS[..], |one| &one[..]);
        match part {
            Part::Opening => opening(line).map(|()| Part::Gap),
            Part::Gap => gap(line).map(|()| Part::Tens),
            Part::Tens => tens(line, widths).map(|_| Part::Units),
            Part::Units => units(line, widths).map(|_| Part::TopBorder),
            Part::TopBorder => border_of(line, widths).map(|_| Part::FirstRow),
            Part::Border if self.row.as_ref().is_some_and(|row| row.takes(line)) => Ok(Part::Border),
            Part::Border => match (border_of(line, widths), &self.row) {
                (Err(fault), Some(row)) => Err(line_behind(row, line, fault)),
                (border, _) => border.map(|_| Part::RowOrGap),
            },
            Part::RowOrGap if line.is_empty() => Ok(Part::Where),
            Part::FirstRow | Part::RowOrGap => self.row(part, line, number).map(|_| Part::Border),
            Part::Where => where_line(line).map(|()| Part::LastGap),
            Part::LastGap => gap(line).map(|()| Part::Fields),
            Part::Fields => Ok(Part::Fields),
        }
    }

    fn row(&self, part: Part, line: &'a [u8], number: usize) -> Result<Row<'a>, Fault> {
        let row = Row::start(line, number, self.bits.unwrap_or(ROW_BITS[2]));
        match line {
            [b'|' | b':', ..] => row,
            _ if line.eq_ignore_ascii_case(b"where:") && part == Part::RowOrGap => Err(Fault::new(
                0..line.len(),
                "expected an empty line before `where:`",
                "an empty line is missing before this one",
            )),
            [] | [b'+', ..] => {
                let message = format!("expected a row, found {}", kind_found(line));
                Err(Fault::new(0..line.len(), message, "expected a row"))
            }
            _ => row,
        }
    }

    /// The blanks before or behind a line that is right without them.
    fn blanks(&self, part: Part, line: &'a [u8], number: usize) -> Option<Fault> {
        let right = |line: &'a [u8]| self.judge_plain(part, line, number).is_ok();
        let end = unblanked(line).len();
        let blanks = |length: usize| if length == 1 { "blank" } else { "blanks" };
        if end < line.len() && right(&line[..end]) {
            let message = format!("{} at the end of the line", blanks(line.len() - end));
            return Some(Fault::new(end..line.len(), message.clone(), message));
        }
        let start = line.iter().take_while(|byte| **byte == b' ').count();
        let start = (1..=start).find(|start| right(&line[*start..]))?;
        let message = format!("{} at the start of the line", blanks(start));
        Some(Fault::new(0..start, message.clone(), message))
    }

    /// Keeps what a right line tells.
    fn keep(&mut self, part: Part, line: &'a [u8], number: usize) {
        let told = match part {
            Part::Tens => tens(line, &ROW_BITS),
            Part::Units => units(line, &ROW_BITS),
            Part::TopBorder => border_of(line, &ROW_BITS),
            Part::FirstRow | Part::RowOrGap => {
                self.row = self.row(part, line, number).ok();
                return;
            }
            Part::Border => return self.keep_below_row(line, number),
            _ => return,
        };
        self.bits = self.bits.or(told.ok());
    }

    /// Keeps a further line of the row, or ends the row at its border.
    fn keep_below_row(&mut self, line: &'a [u8], number: usize) {
        match &mut self.row {
            Some(row) if row.is_spoiled && row.takes(line) => self.whole &= row.has_bars(line),
            Some(row) if row.takes(line) => row.lines.push((number, line)),
            _ => {
                self.check_row(None);
                self.close_row();
            }
        }
    }

    /// Tells the first cell of the row that is no label by the row's lines so far, and what is wrong with the line
    /// behind them, if that looks like a further one.
    fn check_row(&mut self, behind: Option<(usize, &Fault)>) {
        let Some(row) = self.row.as_mut().filter(|row| !row.is_spoiled && row.told < row.lines.len()) else {
            return;
        };
        let Err(fault) = row.cells() else { return };
        let note = behind.map(|(line, fault)| format!("line {line} is not of this row: {}", fault.message));
        row.told = row.lines.len();
        self.mistakes.push(fault.note_if(note).at(3, row.last()));
    }

    /// Ends the row: its cells are kept if they are known.
    fn close_row(&mut self) {
        let Some(row) = self.row.take().filter(|row| !row.is_spoiled) else { return };
        match row.cells() {
            Ok(cells) => self.cells.extend(cells),
            Err(_) => self.whole = false,
        }
    }

    /// Tells a wrong line, and how to go on behind it, if that is clear.
    fn behind_mistake(&mut self, part: Part, at: usize, fault: Fault) -> Option<(Part, usize)> {
        let line = self.lines.ended[at];
        let mended = self.judge_plain(part, unblanked(line), at + 1);
        let is_extra = mended.is_err() && self.is_extra(part, at);
        // A row that goes on behind this line is judged at its end, unless the page is refused for it as it is.
        let goes_on = is_extra || matches!(mended, Ok(Part::Border)) || self.is_of_row(line);
        if self.mistakes.is_empty() || !goes_on {
            self.check_row(is_row_like(line).then_some((at + 1, &fault)));
        }
        if is_extra {
            self.mistakes.push(extra(fault, line).at(3, at + 1));
            return Some((part, at + 1));
        }
        self.mistakes.push(fault.at(3, at + 1));
        if let Ok(next) = mended {
            self.keep(part, unblanked(line), at + 1);
            return Some((next, at + 1));
        }
        if self.spoil_row(line) {
            return Some((part, at + 1));
        }
        self.close_row();
        self.whole = false;
        self.resume(part, at)
    }

    /// Whether a line is one of the row, with other bars.
    fn is_of_row(&self, line: &[u8]) -> bool {
        let is_other = |row: &Row| !row.is_long() && !row.has_bars(line) && line_fault(row, line).is_some();
        self.row.as_ref().is_some_and(is_other)
    }

    /// Whether a line is a wrong one of the row. The cells of a row of too many lines are known.
    fn spoil_row(&mut self, line: &[u8]) -> bool {
        let Some(mut row) = self.row.take() else { return false };
        if line_fault(&row, line).is_none() {
            self.row = Some(row);
            return false;
        }
        match row.cells() {
            _ if row.is_spoiled => {}
            Ok(cells) if row.is_long() || row.has_bars(line) => self.cells.extend(cells),
            _ => self.whole = false,
        }
        row.is_spoiled = true;
        self.row = Some(row);
        true
    }

    /// What comes behind this part.
    fn next(&self, part: Part, at: usize) -> Part {
        match part {
            Part::Opening => Part::Gap,
            Part::Gap => Part::Tens,
            Part::Tens => Part::Units,
            Part::Units => Part::TopBorder,
            Part::TopBorder => Part::FirstRow,
            Part::Border => Part::RowOrGap,
            Part::RowOrGap if self.lines.ended[at].eq_ignore_ascii_case(b"where:") => Part::Where,
            Part::FirstRow | Part::RowOrGap => Part::Border,
            Part::Where => Part::LastGap,
            Part::LastGap | Part::Fields => Part::Fields,
        }
    }

    fn fits(&self, part: Part, at: usize) -> bool {
        let known = self.bits.is_some() || part != Part::FirstRow;
        let line = self.lines.ended.get(at);
        known && line.is_some_and(|line| self.judge(part, line, at + 1).is_ok())
    }

    /// Whether a wrong line is one too many: the next is right in its place, and this one is empty or neither what
    /// comes behind nor a damaged line before that.
    fn is_extra(&self, part: Part, at: usize) -> bool {
        let next = self.next(part, at);
        let line = self.lines.ended[at];
        let empty = line.is_empty() || part == Part::LastGap;
        let below = self.lines.ended.get(at + 1);
        let takes = |row: &Row| !is_row_like(line) && below.is_some_and(|below| row.takes(below));
        let in_row = part == Part::Border && self.row.as_ref().is_some_and(takes);
        self.fits(part, at + 1) && (empty || in_row || !(self.fits(next, at) || self.fits(next, at + 1)))
    }

    /// How to go on behind a wrong line: it is what comes next, or the next line is.
    fn resume(&self, part: Part, at: usize) -> Option<(Part, usize)> {
        let next = self.next(part, at);
        if next == Part::Where && part == Part::RowOrGap {
            return Some((next, at));
        }
        if part == Part::Where && self.fits(Part::RowOrGap, at) {
            return Some((Part::RowOrGap, at));
        }
        [at, at + 1].into_iter().find(|at| self.fits(next, *at)).map(|at| (next, at))
    }

    /// The end of the page: where lines are missing, and bytes behind the last LF.
    fn ending(&self, part: Part, at: usize) -> Option<Mistake> {
        let (count, tail) = (self.lines.ended.len(), self.lines.tail);
        let number = count + 1;
        if !tail.is_empty() {
            let end = tail.len();
            let unended = Fault::new(end..end + 1, "the last line has no line end", "no line end");
            let fault = match self.judge(part, tail, number) {
                Err(fault) if at == count => fault.note("this line has no line end either"),
                _ => unended.note("end the last line too, with Enter"),
            };
            return Some(fault.at(3, number));
        }
        if at < count {
            return None;
        }
        let message = match count {
            0 => format!("the page is empty: expected {}", expected(part)),
            _ => format!("the page ends too early: expected {}", expected(part)),
        };
        Some(Fault::new(0..1, message, format!("expected {}", expected(part))).at(3, number))
    }

    /// What is known where reading stops above the field lines: they may begin behind a right `where:`.
    fn given_up(mut self) -> Frame {
        let place = self.lines.ended.windows(2).position(|two| two == [&b"where:"[..], b""]);
        let fields_from = place.map(|place| place + 2);
        if let Some(at) = fields_from {
            let ending = self.ending(Part::Fields, at);
            self.mistakes.extend(ending);
        }
        Frame { mistakes: self.mistakes, cells: Vec::new(), whole: false, fields_from }
    }
}

fn expected(part: Part) -> &'static str {
    match part {
        Part::Opening => OPENING,
        Part::Gap | Part::LastGap => "an empty line",
        Part::Tens => "the tens ruler",
        Part::Units => "the units ruler",
        Part::TopBorder | Part::Border => "the border",
        Part::FirstRow => "a row",
        Part::RowOrGap => "a row, or an empty line and `where:`",
        Part::Where => "`where:`",
        Part::Fields => "a field line",
    }
}
