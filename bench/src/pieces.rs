//! What a text takes that comes in pieces, beside the whole text.

use crate::calls::write;
use crate::cases::Case;
use crate::libraries::{BEFORE, NOW};
use crate::rounds::{times, Call};
use crate::tables::shown;
use std::hint::black_box;
use umarekoza::{Pieces, FIELDS_MOST, TABLE_MOST, TEXT_MOST};

/// The bytes of a piece; the first is the whole text.
const LENGTHS: [usize; 3] = [TEXT_MOST, 64, 1];

/// The table of a page in pieces of so many bytes, with one state for all calls.
fn fed(case: &Case, length: usize) -> Call<'_> {
    let (mut pieces, mut out) = (Pieces::new(), vec![0; TABLE_MOST]);
    Box::new(move || {
        pieces.start();
        for piece in black_box(&case.page).chunks(length) {
            pieces.piece(piece);
        }
        assert_eq!(black_box(pieces.end(&mut out)), Ok(case.table.len()));
    })
}

fn cases() -> [Case; 4] {
    [
        Case::blade(),
        Case::constrained(FIELDS_MOST / 2, TEXT_MOST),
        Case::constrained(FIELDS_MOST, TEXT_MOST),
        Case::short(FIELDS_MOST),
    ]
}

pub fn print(rounds: usize) {
    println!("\nTexts in pieces, beside the whole text; the whole text beside the library before.\n");
    println!(
        "| Case | whole, ns | whole / before | one piece / whole | of 64 bytes | byte by byte | again |"
    );
    println!("|---|---|---|---|---|---|---|");
    for case in &cases() {
        row(case, rounds);
    }
}

/// A row: the whole text twice, in pieces, and by the other library if there is one.
fn row(case: &Case, rounds: usize) {
    let mut calls = vec![write(&NOW, case), write(&NOW, case)];
    calls.extend(LENGTHS.map(|length| fed(case, length)));
    calls.extend(BEFORE.as_ref().map(|before| write(before, case)));
    let times = times(&mut calls, rounds);
    let before = BEFORE.as_ref().map_or(String::new(), |_| shown(&times.ratio(0, 5)));
    let [one, some, each] = [2, 3, 4].map(|call| shown(&times.ratio(call, 0)));
    let (name, ns, again) = (&case.name, times.of(0).median, shown(&times.ratio(1, 0)));
    println!("| {name} | {ns:.0} | {before} | {one} | {some} | {each} | {again} |");
}

#[cfg(test)]
mod tests {
    use super::{cases, fed, LENGTHS};

    #[test]
    fn texts_in_pieces_have_their_tables() {
        for case in cases() {
            LENGTHS.into_iter().for_each(|length| fed(&case, length)());
        }
    }
}
