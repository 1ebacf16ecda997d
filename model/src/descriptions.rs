//! Descriptions and fields [01, Fields].

use crate::trees::Tree;

#[derive(Clone)]
pub enum Width<N> {
    Fixed(u32),
    Measured { unit: u32, tree: Tree<N> },
    Rest,
}

/// A field; `N` is how its trees name a field: by a name as read from a text, or by index.
#[derive(Clone)]
pub struct Field<'a, N> {
    pub label: &'a [u8],
    pub short: Option<&'a [u8]>,
    pub width: Width<N>,
    pub constraint: Option<Tree<N>>,
    pub condition: Option<Tree<N>>,
}

#[derive(Clone)]
pub struct Description<'a> {
    pub name: &'a [u8],
    /// The bits of a row, W.
    pub row_bits: u32,
    pub fields: Vec<Field<'a, usize>>,
}

impl<'a, N> Field<'a, N> {
    /// The bits of a fixed field.
    pub fn fixed_bits(&self) -> Option<u32> {
        match self.width {
            Width::Fixed(bits) => Some(bits),
            _ => None,
        }
    }

    pub fn is_rest(&self) -> bool {
        matches!(self.width, Width::Rest)
    }

    /// The names of the field: its label, and its short name if it has one.
    pub fn names(&self) -> impl Iterator<Item = &'a [u8]> {
        [Some(self.label), self.short].into_iter().flatten()
    }

    /// Whether `name` is the label or the short name.
    pub fn is_called(&self, name: &[u8]) -> bool {
        self.names().any(|own| own == name)
    }

    /// The trees of the field: width, constraint, condition.
    pub fn trees(&self) -> impl Iterator<Item = &Tree<N>> {
        let width = match &self.width {
            Width::Measured { tree, .. } => Some(tree),
            _ => None,
        };
        width.into_iter().chain(&self.constraint).chain(&self.condition)
    }

    /// The same, to be changed.
    pub fn trees_mut(&mut self) -> impl Iterator<Item = &mut Tree<N>> {
        let width = match &mut self.width {
            Width::Measured { tree, .. } => Some(tree),
            _ => None,
        };
        width.into_iter().chain(&mut self.constraint).chain(&mut self.condition)
    }
}
