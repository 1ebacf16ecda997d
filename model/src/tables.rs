//! Good tables [01, The stored table] [02, R-5]: the stored forms of descriptions within the limits.

use crate::descriptions::Description;
use crate::editions::{Edition, CURRENT};
use crate::references::are_right;
use crate::refusals::{refused, Refusal};
use crate::rules::within_limits;
use crate::stored::{decode, Decoded};

/// The description whose stored form a table is, or 21.
pub fn good_description(table: &[u8]) -> Result<Description<'_>, Refusal> {
    good_in(&CURRENT, table)
}

/// The same by an edition.
pub fn good_in<'a>(edition: &Edition, table: &'a [u8]) -> Result<Description<'a>, Refusal> {
    let is_good = |Decoded { description, numbers }: &Decoded| {
        within_limits(edition, description)
            && (!edition.keeps_numbers || are_right(numbers, &description.fields))
    };
    match decode(edition, table).filter(is_good) {
        Some(Decoded { description, .. }) => Ok(description),
        None => refused(21, 0),
    }
}

/// Refuses a table that is not good.
pub fn check_table(table: &[u8]) -> Result<(), Refusal> {
    good_description(table).map(|_| ())
}
