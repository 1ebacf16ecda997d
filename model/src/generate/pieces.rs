//! How a text is cut into pieces [02, R-9]: at random places, byte by byte, about its LFs, about where a line gets too
//! long, and with pieces of no bytes; and a short one at every place.

use super::Rng;
use crate::lines::LONGEST_LINE;

/// A text of up to so many bytes is cut at every place.
const SHORT_TEXT: usize = 300;
/// One of up to `MIDDLE_TEXT` bytes is cut into single bytes one time in `AT_TIMES`, a longer one in `RARELY`.
const MIDDLE_TEXT: usize = 1_500;
const AT_TIMES: usize = 4;
const RARELY: usize = 64;
/// A text is cut at up to so many random places.
const PLACES: usize = 8;
/// A piece of no bytes stands before a piece one time in so many, where there are any.
const EMPTY: usize = 6;

/// A text in pieces, cut in one of several manners.
pub fn pieces<'a>(rng: &mut Rng, text: &'a [u8]) -> Vec<&'a [u8]> {
    let ends = ends(rng, text);
    parted(rng, text, ends)
}

/// A text cut at random places.
pub fn random_pieces<'a>(rng: &mut Rng, text: &'a [u8]) -> Vec<&'a [u8]> {
    let ends = places(rng, text);
    parted(rng, text, ends)
}

/// A short text cut at every place, its start and end too: into two pieces at each, and into single bytes.
pub fn every_cut(text: &[u8]) -> Vec<Vec<&[u8]>> {
    if text.len() > SHORT_TEXT {
        return Vec::new();
    }
    let in_two = (0..=text.len()).map(|place| vec![&text[..place], &text[place..]]);
    in_two.chain([text.chunks(1).collect()]).collect()
}

/// The pieces that end at these places, and the last one, with some of no bytes between them or without.
fn parted<'a>(rng: &mut Rng, text: &'a [u8], ends: Vec<usize>) -> Vec<&'a [u8]> {
    let (with_empty, mut start, mut pieces) = (rng.one_in(2), 0, Vec::new());
    for end in ends.into_iter().chain([text.len()]) {
        if with_empty && rng.one_in(EMPTY) {
            pieces.push(&text[start..start]);
        }
        pieces.push(&text[start..end]);
        start = end;
    }
    if with_empty && rng.one_in(2) {
        pieces.push(&text[start..start]);
    }
    pieces
}

/// Where the pieces end, but for the last.
fn ends(rng: &mut Rng, text: &[u8]) -> Vec<usize> {
    if rng.one_in(if text.len() > MIDDLE_TEXT { RARELY } else { AT_TIMES }) {
        return (1..text.len()).collect();
    }
    match rng.below(7) {
        0 => (64..text.len()).step_by(64).collect(),
        1 | 2 => about_lines(rng, text),
        3 => about_long_lines(rng, text),
        4 => Vec::new(),
        5 => vec![rng.below(text.len() + 1)],
        _ => anywhere(rng, text),
    }
}

/// A few random places, the start and the end of the text too.
fn places(rng: &mut Rng, text: &[u8]) -> Vec<usize> {
    let mut places: Vec<usize> = (0..rng.between(1, PLACES)).map(|_| rng.below(text.len() + 1)).collect();
    places.sort_unstable();
    places
}

/// Before each LF, behind it, or both; at times not at all of them.
fn about_lines(rng: &mut Rng, text: &[u8]) -> Vec<usize> {
    let (before, behind, all) = rng.pick([(true, false, true), (false, true, true), (true, true, false)]);
    let mut ends = Vec::new();
    for at in (0..text.len()).filter(|at| text[*at] == b'\n') {
        ends.extend((before && (all || rng.one_in(2))).then_some(at));
        ends.extend((behind && (all || rng.one_in(2))).then_some(at + 1));
    }
    ends
}

/// Within long lines: where each gets as long as a line may be, or one byte before or behind.
fn about_long_lines(rng: &mut Rng, text: &[u8]) -> Vec<usize> {
    let (mut start, mut ends) = (0, Vec::new());
    for line in text.split_inclusive(|byte| *byte == b'\n') {
        if line.len() > LONGEST_LINE {
            let first = start + rng.between(1, LONGEST_LINE - 1);
            ends.extend([first, start + LONGEST_LINE - 1 + rng.below(3)]);
        }
        start += line.len();
    }
    ends.retain(|end| *end <= text.len());
    if ends.is_empty() {
        return anywhere(rng, text);
    }
    ends.sort_unstable();
    ends
}

/// Pieces of up to so many bytes, some with none.
fn anywhere(rng: &mut Rng, text: &[u8]) -> Vec<usize> {
    let (most, mut end, mut ends) = (rng.pick([1, 3, 20, 300, 2_000]), 0, Vec::new());
    while end < text.len() {
        end = (end + rng.between(0, most)).min(text.len());
        ends.push(end);
    }
    ends
}

#[cfg(test)]
mod tests {
    use super::{every_cut, pieces, random_pieces, SHORT_TEXT};
    use crate::generate::{text, Rng};

    #[test]
    fn pieces_make_the_text() {
        let mut rng = Rng::new(1);
        for _ in 0..500 {
            let text = text(&mut rng);
            for pieces in [pieces(&mut rng, &text), random_pieces(&mut rng, &text)] {
                assert_eq!(pieces.concat(), text);
            }
        }
    }

    #[test]
    fn a_short_text_is_cut_at_every_place() {
        let text: Vec<u8> = (0..SHORT_TEXT).map(|at| at as u8).collect();
        let cuttings = every_cut(&text);
        assert!(cuttings.iter().all(|pieces| pieces.concat() == text));
        let (bytes, in_two) = cuttings.split_last().unwrap();
        assert_eq!(bytes.len(), text.len());
        let places: Vec<usize> = in_two.iter().map(|pieces| pieces[0].len()).collect();
        assert_eq!(places, (0..=text.len()).collect::<Vec<_>>());
        assert!(every_cut(&[0; SHORT_TEXT + 1]).is_empty());
    }
}
