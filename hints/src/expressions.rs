//! Expressions read from a field line, and what is wrong with one.

use crate::expression_faults::{behind, broken_number, is_sign, no_number, signs};
use crate::faults::Fault;
use crate::limits::{OPEN_MOST, SHORT_MOST};
use crate::names::{is_reserved, OF_SHORTS};
use crate::operators::{operator_at, Operator, COMPARISON, POWER};
use crate::shown::{counted, found, quoted, word_length};
use crate::trees::{Kind, Node, Tree};

const ATOMS: &str = "a number, a name or `(`";

/// The expression that begins at this byte of a line, and where it ends.
pub fn read(line: &[u8], at: usize) -> Result<(Tree, usize), Fault> {
    let mut reader = Reader { line, at, open: 0, nodes: Vec::new(), operands: Vec::new() };
    match reader.level(0) {
        Ok(root) => {
            let span = reader.nodes[root].span.clone();
            Ok((Tree { nodes: reader.nodes, span, operands: reader.operands }, reader.at))
        }
        Err(fault) => Err(fault.of_operands(reader.operands)),
    }
}

struct Reader<'a> {
    line: &'a [u8],
    at: usize,
    /// Parentheses that are open.
    open: usize,
    nodes: Vec<Node>,
    /// Where operands were looked for.
    operands: Vec<usize>,
}

impl Reader<'_> {
    fn rest(&self) -> &[u8] {
        &self.line[self.at..]
    }

    fn push(&mut self, kind: Kind, from: usize, deepest: usize) -> usize {
        self.nodes.push(Node { kind, span: from..self.at, depth: deepest + 1 });
        self.nodes.len() - 1
    }

    /// Operands joined by operators of this level, each of them of a higher one.
    fn level(&mut self, level: u8) -> Result<usize, Fault> {
        if level == POWER {
            return self.powers();
        }
        let mut left = self.level(level + 1)?;
        while let Some((operator, behind)) = self.operator(level) {
            self.at = behind;
            let right = self.level(level + 1)?;
            left = self.join(operator, left, right);
            if level == COMPARISON {
                break;
            }
        }
        Ok(left)
    }

    /// Atoms joined by `^`, from the last one on.
    fn powers(&mut self) -> Result<usize, Fault> {
        let mut joined = Vec::new();
        let mut last = self.atom()?;
        while let Some((operator, behind)) = self.operator(POWER) {
            self.at = behind;
            joined.push((operator, last));
            last = self.atom()?;
        }
        Ok(joined.into_iter().rev().fold(last, |right, (operator, left)| self.join(operator, left, right)))
    }

    fn join(&mut self, operator: Operator, left: usize, right: usize) -> usize {
        let from = self.nodes[left].span.start;
        let deepest = self.nodes[left].depth.max(self.nodes[right].depth);
        self.push(Kind::Two(operator, left, right), from, deepest)
    }

    /// The operator of this level that comes next, and the place behind it and its spaces.
    fn operator(&self, level: u8) -> Option<(Operator, usize)> {
        let at = self.at + usize::from(self.rest().first() == Some(&b' '));
        let operator = operator_at(&self.line[at..]).filter(|operator| operator.level == level)?;
        let behind = at + operator.symbol.len();
        Some((operator, behind + usize::from(self.line.get(behind) == Some(&b' '))))
    }

    fn atom(&mut self) -> Result<usize, Fault> {
        let from = self.at;
        self.operands.push(from);
        match self.rest() {
            [b'!', b'(', ..] => {
                self.at += 1;
                let operand = self.parenthesis()?;
                let deepest = self.nodes[operand].depth;
                Ok(self.push(Kind::Not(operand), from, deepest))
            }
            [b'(', ..] => {
                let inner = self.parenthesis()?;
                self.nodes[inner].span = from..self.at;
                Ok(inner)
            }
            [b'0'..=b'9', ..] => self.number(),
            [letter, ..] if letter.is_ascii_alphabetic() => self.name(),
            _ => Err(self.no_atom()),
        }
    }

    /// What stands between a parenthesis here and its end.
    fn parenthesis(&mut self) -> Result<usize, Fault> {
        if self.open == OPEN_MOST {
            let message = "over 12 parentheses open at once: this is the 13th";
            return Err(Fault::new(self.at..self.at + 1, message, "the 13th open parenthesis"));
        }
        self.at += 1;
        self.open += 1;
        let inner = self.level(0)?;
        if self.rest().first() != Some(&b')') {
            return Err(behind(self.line, self.at, "`)`"));
        }
        self.at += 1;
        self.open -= 1;
        Ok(inner)
    }

    fn number(&mut self) -> Result<usize, Fault> {
        let from = self.at;
        let length = self.rest().iter().take_while(|byte| byte.is_ascii_digit()).count();
        let word = &self.rest()[..word_length(self.rest())];
        let digits = &word[..length];
        if word.len() > length {
            return Err(no_number(word, length, from));
        }
        if let [b',' | b'_' | b'.', b'0'..=b'9', ..] = self.rest()[length..] {
            return Err(broken_number(self.rest(), from));
        }
        if length > 1 && digits[0] == b'0' {
            let message = format!("the number {} begins with 0", quoted(digits));
            let plain = digits.iter().position(|digit| *digit != b'0').unwrap_or(length - 1);
            return Err(Fault::new(from..from + length, message, "no leading zeros")
                .note(format!("did you mean {}?", quoted(&digits[plain..]))));
        }
        let value = digits
            .iter()
            .try_fold(0u32, |value, digit| value.checked_mul(10)?.checked_add(u32::from(digit - b'0')));
        let Some(value) = value else {
            let message = format!("the number {} is over 4,294,967,295", quoted(digits));
            return Err(Fault::new(from..from + length, message, "at most 4,294,967,295"));
        };
        self.at += length;
        Ok(self.push(Kind::Number(value), from, 0))
    }

    fn name(&mut self) -> Result<usize, Fault> {
        let (from, length) = (self.at, word_length(self.rest()));
        let name = &self.rest()[..length];
        let broken = if is_reserved(name) {
            "this word is reserved".to_string()
        } else if length > SHORT_MOST {
            format!("{}, at most 8", counted(length as u64, "character"))
        } else {
            self.at += length;
            return Ok(self.push(Kind::Name(from..self.at), from, 0));
        };
        let message = format!("{} has not the form of a short name: {broken}", quoted(name));
        Err(Fault::new(from..from + length, message, broken).note(OF_SHORTS))
    }

    /// What is wrong where an operand has to begin.
    fn no_atom(&self) -> Fault {
        let at = self.at;
        let fault = Fault::new(
            at..at + 1,
            format!("expected {ATOMS}, found {}", found(self.line, at)),
            "expected an operand",
        );
        match (self.rest(), self.line.get(at.wrapping_sub(1))) {
            ([b' ', ..], _) => Fault::new(at..at + 1, "a space too many", "a space too many")
                .note("one space at most stands on each side of an operator, none inside parentheses"),
            ([b'-', ..], _) => fault.note("there are no negative numbers"),
            ([b'!', ..], _) => fault.note("`!` has its operand in parentheses: `!(..)`"),
            ([sign, ..], Some(before)) if is_sign(*sign) && is_sign(*before) => signs(self.line, at),
            _ => fault,
        }
    }
}
