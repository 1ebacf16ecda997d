//! Random descriptions within the limits.

use super::growth::Growth;
use super::layouts::{Layout, Slot};
use super::words::Names;
use super::Rng;
use crate::descriptions::{Description, Field, Width};
use crate::names::is_short_name;
use crate::trees::Tree;

pub fn description<'a>(rng: &mut Rng, layout: &Layout, names: &'a Names) -> Description<'a> {
    let rest = layout.slots.iter().position(|slot| *slot == Slot::Rest).unwrap_or(layout.slots.len());
    let mut chooser = Chooser::random(rng, layout.slots.len());
    let mut readable = Vec::new();
    let mut fields = Vec::new();
    for (index, slot) in layout.slots.iter().enumerate() {
        let whole_bytes = !matches!(slot, Slot::Fixed(bits) if bits % 8 != 0);
        let condition = chooser.clause(&readable, whole_bytes).filter(|_| index <= rest);
        let width = match slot {
            Slot::Fixed(bits) => Width::Fixed(*bits),
            Slot::Measured => chooser.measured(&readable),
            Slot::Rest => Width::Rest,
        };
        let (label, short) = (&names.labels[index][..], names.shorts[index].as_deref());
        let own = (short.is_some() || is_short_name(label)) && !(chooser.tame && condition.is_some());
        if let (Slot::Fixed(bits), true) = (slot, own) {
            readable.push((index, *bits));
        }
        let constraint = chooser.clause(&readable, own);
        fields.push(Field { label, short, width, constraint, condition });
    }
    Description { name: &names.name, row_bits: layout.row_bits, fields }
}

/// Chooses the expressions of a description.
struct Chooser<'r> {
    rng: &'r mut Rng,
    /// A constraint or condition stands once in so many times.
    rarity: usize,
    /// Packets that keep the expressions are easy to find.
    tame: bool,
}

impl<'r> Chooser<'r> {
    fn random(rng: &'r mut Rng, count: usize) -> Self {
        // With many fields, few have expressions, to keep the text short.
        let rarity = if count > 20 { 8 } else { rng.between(2, 6) };
        let tame = !rng.one_in(3);
        Chooser { rng, rarity, tame }
    }

    fn measured(&mut self, readable: &[(usize, u32)]) -> Width<usize> {
        let growth = Growth::new(readable);
        let unit = if self.rng.one_in(if self.tame { 6 } else { 2 }) { 1 } else { 8 };
        let tree = if self.tame { growth.tame_width(self.rng) } else { growth.width(self.rng) };
        Width::Measured { unit, tree }
    }

    /// A constraint or condition, or none; a tame description has few that are not `easy` to keep.
    fn clause(&mut self, readable: &[(usize, u32)], easy: bool) -> Option<Tree<usize>> {
        let rarity = if self.tame && !easy { 5 * self.rarity } else { self.rarity };
        if !self.rng.one_in(rarity) {
            return None;
        }
        let growth = Growth::new(readable);
        Some(if self.tame { growth.tame_truth(self.rng) } else { growth.truth(self.rng) })
    }
}
