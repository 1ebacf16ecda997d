//! Slices with guards: the slice that is lent, an empty one too, stands between numbers that a call must leave
//! alone.

use umarekoza_model::generate::Rng;

const GUARDS: usize = 24;

/// Something that slices are made of.
pub trait Unit: Copy + PartialEq {
    /// Adds `count` random ones.
    fn add(rng: &mut Rng, to: &mut Vec<Self>, count: usize);
}

impl Unit for u8 {
    fn add(rng: &mut Rng, to: &mut Vec<Self>, count: usize) {
        to.extend(rng.bytes(count));
    }
}

impl Unit for u32 {
    fn add(rng: &mut Rng, to: &mut Vec<Self>, count: usize) {
        to.extend((0..count).map(|_| rng.bits() as u32));
    }
}

/// A slice between random guards, with what all of it held at first.
pub struct Lent<T> {
    now: Vec<T>,
    before: Vec<T>,
}

impl<T: Unit> Lent<T> {
    /// A slice that holds `held`.
    pub fn holding(rng: &mut Rng, held: &[T]) -> Self {
        let mut now = Vec::with_capacity(held.len() + 2 * GUARDS + 8);
        T::add(rng, &mut now, GUARDS);
        now.extend_from_slice(held);
        T::add(rng, &mut now, GUARDS);
        Lent { before: now.clone(), now }
    }

    /// A slice of `length` random numbers.
    pub fn random(rng: &mut Rng, length: usize) -> Self {
        let mut now = Vec::new();
        T::add(rng, &mut now, length + 2 * GUARDS);
        Lent { before: now.clone(), now }
    }

    pub fn len(&self) -> usize {
        self.now.len() - 2 * GUARDS
    }

    /// Where the slice starts, right behind its first guards, whatever its length. The guards may be reached too.
    pub fn start(&mut self) -> *mut T {
        self.now.as_mut_ptr().wrapping_add(GUARDS)
    }

    /// Whether the slice starts with `written`, and all else, the guards too, is as it was.
    pub fn has_only(&self, written: &[T]) -> bool {
        let end = GUARDS + written.len();
        written.len() <= self.len()
            && self.now[..GUARDS] == self.before[..GUARDS]
            && self.now[GUARDS..end] == *written
            && self.now[end..] == self.before[end..]
    }

    /// Whether all behind the first `count` numbers, and the guards, are as they were.
    pub fn is_kept_behind(&self, count: usize) -> bool {
        let end = GUARDS + count;
        self.now[..GUARDS] == self.before[..GUARDS] && self.now[end..] == self.before[end..]
    }

    /// What the slice holds now.
    pub fn held(&self) -> &[T] {
        &self.now[GUARDS..self.now.len() - GUARDS]
    }

    /// The slice holds `held` now, from its start on.
    pub fn hold(&mut self, held: &[T]) {
        self.now[GUARDS..GUARDS + held.len()].copy_from_slice(held);
    }

    /// What the slice holds now counts as what it held at first.
    pub fn settle(&mut self, count: usize) {
        let part = GUARDS..GUARDS + count;
        self.before[part.clone()].copy_from_slice(&self.now[part]);
    }

    /// Whether nothing has changed.
    pub fn is_untouched(&self) -> bool {
        self.has_only(&[])
    }
}

#[cfg(test)]
mod tests {
    use super::{Lent, GUARDS};
    use umarekoza_model::generate::Rng;

    #[test]
    fn changes_are_seen() {
        let mut lent = Lent::holding(&mut Rng::new(1), &[1u8, 2, 3]);
        assert!(lent.is_untouched());
        lent.now[GUARDS] = 9;
        assert!(lent.has_only(&[9]));
        assert!(lent.has_only(&[9, 2, 3]));
        assert!(!lent.has_only(&[9, 2, 3, 0]));
        assert!(!lent.is_untouched());
        assert!(lent.is_kept_behind(1) && !lent.is_kept_behind(0));
        assert_eq!(lent.held(), [9, 2, 3]);
        lent.settle(1);
        assert!(lent.is_untouched());
        lent.hold(&[7, 8]);
        assert_eq!(lent.held(), [7, 8, 3]);
        assert!(lent.is_kept_behind(2) && !lent.is_kept_behind(1));
        lent.settle(2);
        assert!(lent.is_untouched());
        lent.now[GUARDS + 3] ^= 1;
        assert!(!lent.has_only(&[9]) && !lent.is_kept_behind(3));
    }

    #[test]
    fn an_empty_slice_starts_between_its_guards() {
        let mut lent = Lent::holding(&mut Rng::new(1), &[0u32; 0]);
        assert_eq!((lent.len(), lent.start().cast_const()), (0, lent.now[GUARDS..].as_ptr()));
        lent.now[GUARDS] ^= 1;
        assert!(!lent.is_untouched());
    }
}
