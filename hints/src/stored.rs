//! The fields of a stored table, or of records alone, with their expressions as trees.

use crate::limits::DEPTH_MOST;
use crate::operators::{Operator, NAME, NOT, NUMBER, OPERATORS};

/// A field of a table.
#[derive(Clone, Debug)]
pub struct StoredField {
    pub label: Vec<u8>,
    /// Empty if there is none.
    pub short: Vec<u8>,
    pub width: StoredWidth,
    pub constraint: Option<Tree>,
    pub condition: Option<Tree>,
}

#[derive(Clone, Debug)]
pub enum StoredWidth {
    Fixed(u32),
    Measured { unit: u32, tree: Tree },
    Rest,
}

#[derive(Clone, Debug)]
pub enum Tree {
    Number(u32),
    Field(usize),
    Not(Box<Tree>),
    Two(Operator, Box<Tree>, Box<Tree>),
}

impl StoredField {
    /// The expressions with how each is called.
    pub fn expressions(&self) -> impl Iterator<Item = (&'static str, &Tree)> {
        let width = match &self.width {
            StoredWidth::Measured { tree, .. } => Some(("width", tree)),
            _ => None,
        };
        let constraint = self.constraint.as_ref().map(|tree| ("constraint", tree));
        let condition = self.condition.as_ref().map(|tree| ("condition", tree));
        [width, constraint, condition].into_iter().flatten()
    }

    /// Gives every field that is read the index that its own becomes.
    pub fn renumber(&mut self, becomes: impl Fn(usize) -> usize) {
        let width = match &mut self.width {
            StoredWidth::Measured { tree, .. } => Some(tree),
            _ => None,
        };
        let trees = width.into_iter().chain(&mut self.constraint).chain(&mut self.condition);
        trees.for_each(|tree| tree.renumber(&becomes));
    }

    /// The bits of a fixed field.
    pub fn fixed_bits(&self) -> Option<u32> {
        match self.width {
            StoredWidth::Fixed(bits) => Some(bits),
            _ => None,
        }
    }

    /// The label, and the short name if there is one.
    pub fn names(&self) -> impl Iterator<Item = &[u8]> {
        [&self.label[..], &self.short].into_iter().filter(|name| !name.is_empty())
    }
}

impl Tree {
    pub fn two(operator: Operator, left: Tree, right: Tree) -> Tree {
        Tree::Two(operator, Box::new(left), Box::new(right))
    }

    /// The fields that are read, each once, in the order of their first places.
    pub fn fields(&self) -> Vec<usize> {
        let mut found = Vec::new();
        self.gather(&mut found);
        found
    }

    fn renumber(&mut self, becomes: &impl Fn(usize) -> usize) {
        match self {
            Tree::Number(_) => {}
            Tree::Field(index) => *index = becomes(*index),
            Tree::Not(operand) => operand.renumber(becomes),
            Tree::Two(_, left, right) => {
                left.renumber(becomes);
                right.renumber(becomes);
            }
        }
    }

    fn gather(&self, found: &mut Vec<usize>) {
        match self {
            Tree::Field(index) if !found.contains(index) => found.push(*index),
            Tree::Number(_) | Tree::Field(_) => {}
            Tree::Not(operand) => operand.gather(found),
            Tree::Two(_, left, right) => {
                left.gather(found);
                right.gather(found);
            }
        }
    }
}

/// The fields of a table; none if it is not stored as documents 01 and 02 say.
pub fn fields_of(table: &[u8]) -> Option<Vec<StoredField>> {
    let mut cursor = Cursor { rest: table };
    let mut head = cursor.record()?;
    if head.number()? != 1 {
        return None;
    }
    let mut fields = Vec::new();
    loop {
        let mut record = cursor.record()?;
        match record.number()? {
            5 => return Some(fields),
            kind => fields.push(record.field(kind)?),
        }
    }
}

/// The bits of a row of a table.
pub fn row_bits(table: &[u8]) -> Option<u32> {
    let mut head = Cursor { rest: table }.record()?;
    (head.number()? == 1).then_some(head.number()? as u32)
}

/// The fields of whole records that stand one behind the other; or how many bytes of such come before one that is none.
pub fn fields_in(records: &[u8]) -> Result<Vec<StoredField>, usize> {
    let (mut cursor, mut fields) = (Cursor { rest: records }, Vec::new());
    while !cursor.rest.is_empty() {
        let at = records.len() - cursor.rest.len();
        let field = cursor.record().and_then(|mut record| {
            let kind = record.number()?;
            record.field(kind)
        });
        fields.push(field.ok_or(at)?);
    }
    Ok(fields)
}

struct Cursor<'a> {
    rest: &'a [u8],
}

impl<'a> Cursor<'a> {
    fn take(&mut self, length: usize) -> Option<&'a [u8]> {
        let (taken, rest) = self.rest.split_at_checked(length)?;
        self.rest = rest;
        Some(taken)
    }

    fn byte(&mut self) -> Option<u8> {
        Some(self.take(1)?[0])
    }

    fn number(&mut self) -> Option<usize> {
        let two = self.take(2)?;
        Some(usize::from(u16::from_le_bytes([two[0], two[1]])))
    }

    /// A record behind its length.
    fn record(&mut self) -> Option<Cursor<'a>> {
        let length = self.number()?;
        Some(Cursor { rest: self.take(length.checked_sub(2)?)? })
    }

    /// Bytes behind their length.
    fn part(&mut self) -> Option<&'a [u8]> {
        let length = self.number()?;
        self.take(length)
    }

    /// The field of a record behind its kind; how often it is read plays no part.
    fn field(&mut self, kind: usize) -> Option<StoredField> {
        self.number()?;
        let (label, short) = (self.part()?.to_vec(), self.part()?.to_vec());
        let width = match kind {
            12 => StoredWidth::Fixed(self.number()? as u32),
            13 => StoredWidth::Measured { unit: self.number()? as u32, tree: self.expression()?? },
            14 => StoredWidth::Rest,
            _ => return None,
        };
        let (constraint, condition) = (self.expression()?, self.expression()?);
        self.rest.is_empty().then_some(StoredField { label, short, width, constraint, condition })
    }

    /// An expression, or none.
    fn expression(&mut self) -> Option<Option<Tree>> {
        let mut part = Cursor { rest: self.part()? };
        if part.rest.is_empty() {
            return Some(None);
        }
        let tree = part.tree(DEPTH_MOST)?;
        part.rest.is_empty().then_some(Some(tree))
    }

    fn tree(&mut self, depth: usize) -> Option<Tree> {
        let depth = depth.checked_sub(1)?;
        match self.byte()? {
            NUMBER => Some(Tree::Number(u32::from_le_bytes(self.take(4)?.try_into().ok()?))),
            NAME => Some(Tree::Field(usize::from(self.byte()?))),
            NOT => Some(Tree::Not(Box::new(self.tree(depth)?))),
            code => {
                let operator = OPERATORS.into_iter().find(|operator| operator.code == code)?;
                Some(Tree::two(operator, self.tree(depth)?, self.tree(depth)?))
            }
        }
    }
}
