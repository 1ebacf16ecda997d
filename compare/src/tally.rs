use std::collections::BTreeMap;

/// How many cases and comparisons there were, and how many of these had each refusal number, or 0 where a call that
/// can refuse accepted.
#[derive(Clone, Debug, Default)]
pub struct Tally {
    pub cases: u64,
    pub comparisons: u64,
    pub numbers: BTreeMap<u32, u64>,
}
