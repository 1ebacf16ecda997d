//! What the printed tables share.

use crate::rounds::{Spread, Times};
use std::ops::Range;

pub fn shown(Spread { low, median, high }: &Spread) -> String {
    format!("{median:.2} ({low:.2} to {high:.2})")
}

pub fn growth_head() {
    println!("| Call | Sizes | ns | ratio at each doubling |");
    println!("|---|---|---|---|");
}

/// The times of some calls, each of twice the size of the one before it.
pub fn growth_row(call: &str, sizes: &str, times: &Times, calls: Range<usize>) {
    let each: Vec<String> = calls.clone().map(|size| format!("{:.0}", times.of(size).median)).collect();
    let ratios: Vec<String> = calls.skip(1).map(|size| shown(&times.ratio(size, size - 1))).collect();
    println!("| {call} | {sizes} | {} | {} |", each.join(", "), ratios.join(", "));
}
