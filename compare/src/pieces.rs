//! The calls of a text in pieces: each state and each piece between guards. Of each is compared that nothing changes
//! but the state, and of the end what is compared of `write_table` for the joined text.

use crate::calls::{kept, same, wrote, Calls, Settled, Wrong};
use crate::exports::Answer;
use crate::lent::Lent;
use umarekoza::STATE_BYTES;
use umarekoza_model as model;
use umarekoza_model::generate::Rng;

/// The state is handed on to another place before a piece one time in so many, and the end is asked early.
const MOVED: usize = 40;
const ENDED: usize = 60;
/// The end is asked early within so many bytes.
const EARLY_MOST: usize = 2_000;
/// The numbers of a state are its first bytes.
const NUMBERS: usize = 24;

impl Calls {
    /// A text in these pieces, from a fresh start, with an output of `room` bytes.
    pub fn pieces(&mut self, pieces: &[&[u8]], room: usize, due: &Settled<Vec<u8>>) -> Result<(), Wrong> {
        let mut state = self.fresh_state()?;
        let mut length = 0;
        for piece in pieces {
            if self.rng.one_in(MOVED) {
                state = self.moved(&state);
            }
            if length <= EARLY_MOST && self.rng.one_in(ENDED) {
                let so_far = joined(pieces, length);
                let early = model::write_table(&so_far, room);
                self.text_end(&mut state, room, &early)?;
            }
            self.text_piece(&mut state, piece)?;
            length += piece.len();
        }
        self.text_end(&mut state, room, due)
    }

    /// A text in each of these cuttings, from one fresh start that is handed on to all of them.
    pub fn cuttings(
        &mut self,
        cuttings: &[Vec<&[u8]>],
        room: usize,
        due: &Settled<Vec<u8>>,
    ) -> Result<(), Wrong> {
        let mut state = self.fresh_state()?;
        let fresh = state.held().to_vec();
        for pieces in cuttings {
            state.hold(&fresh);
            for piece in pieces {
                self.text_piece(&mut state, piece)?;
            }
            self.text_end(&mut state, room, due)?;
        }
        Ok(())
    }

    /// A state of any bytes, of which the numbers are often others than those that pieces leave.
    pub fn any_state(&mut self, pieces: &[&[u8]]) -> Result<(), Wrong> {
        let mut state = self.fresh_state()?;
        let spoiled = self.rng.below(pieces.len() + 1);
        for (number, piece) in pieces.iter().enumerate() {
            if number == spoiled {
                state = spoil(&mut self.rng, &state);
            }
            self.text_piece(&mut state, piece)?;
        }
        if spoiled == pieces.len() {
            state = spoil(&mut self.rng, &state);
        }
        self.any_end(&mut state)
    }

    /// A state that is too short stays as it is, and its end is refused by 11.
    pub fn short_state(&mut self, piece: &[u8]) -> Result<(), Wrong> {
        let any = self.rng.below(STATE_BYTES);
        let length = self.rng.pick([0, any, any, STATE_BYTES - 1]);
        let mut state = self.room(length);
        let mut piece = self.lent(piece);
        let (start, next) = (self.exports().text_start, self.exports().text_piece);
        // SAFETY: what is lent is valid for its length.
        unsafe { start(state.start(), state.len()) };
        self.counted(kept(&[&state]), format_args!("text_start of {length}"))?;
        // SAFETY: what is lent is valid for its length.
        unsafe { next(state.start(), state.len(), piece.start(), piece.len()) };
        self.counted(kept(&[&state, &piece]), format_args!("text_piece of {length}"))?;
        self.text_end(&mut state, 100, &Err(model::Refusal { number: 11, place: 0 }))
    }

    /// A state that was started, at times longer than it has to be; its bytes are those of the first one.
    fn fresh_state(&mut self) -> Result<Lent<u8>, Wrong> {
        let more = self.rng.pick([0, 0, 1, 50]);
        let mut state = self.room(STATE_BYTES + more);
        let call = self.exports().text_start;
        // SAFETY: what is lent is valid for its length.
        unsafe { call(state.start(), state.len()) };
        let found = changed_alone(&state).and(self.as_the_first(&state.held()[..STATE_BYTES]));
        self.counted(found, format_args!("text_start"))?;
        Ok(state)
    }

    /// What a start leaves does not depend on what was there.
    fn as_the_first(&mut self, state: &[u8]) -> Result<(), Wrong> {
        if self.fresh.is_empty() {
            self.fresh = state.to_vec();
        }
        if self.fresh != state {
            return Err("left other bytes than before".to_string());
        }
        Ok(())
    }

    fn text_piece(&mut self, state: &mut Lent<u8>, piece: &[u8]) -> Result<(), Wrong> {
        let mut piece = self.lent(piece);
        let call = self.exports().text_piece;
        // SAFETY: what is lent is valid for its length.
        unsafe { call(state.start(), state.len(), piece.start(), piece.len()) };
        let found = changed_alone(state).and(kept(&[&piece]));
        self.counted(found, format_args!("text_piece of {}", piece.len()))
    }

    /// The length is the table's. The state is not changed.
    fn text_end(&mut self, state: &mut Lent<u8>, room: usize, due: &Settled<Vec<u8>>) -> Result<(), Wrong> {
        let mut out = self.room(room);
        let due_answer = self.due(due, |table| table.len() as u64);
        state.settle(state.len());
        let call = self.exports().text_end;
        // SAFETY: what is lent is valid for its length.
        let answer = unsafe { call(state.start(), state.len(), out.start(), out.len()) };
        let found = same(answer, due_answer).and(wrote(&out, due.as_deref())).and(kept(&[state]));
        self.counted(found, format_args!("text_end to {room}"))
    }

    /// Any answer, of the form that answers have; a refusal changes nothing, an acceptance only what it says.
    fn any_end(&mut self, state: &mut Lent<u8>) -> Result<(), Wrong> {
        let room = self.rng.pick([0, 60, 2_000, umarekoza::TABLE_MOST]);
        let mut out = self.room(room);
        state.settle(state.len());
        let call = self.exports().text_end;
        // SAFETY: what is lent is valid for its length.
        let answer = unsafe { call(state.start(), state.len(), out.start(), out.len()) };
        let written = match answer {
            Answer { number: 0, place: 0, length } if length <= room as u64 => Ok(length as usize),
            Answer { number: 1.., length: 0, .. } => Ok(0),
            _ => Err(format!("answers {answer:?}")),
        };
        let wrote = |written: usize| match out.is_kept_behind(written) {
            true => Ok(()),
            false => Err(format!("changed more than goes with {answer:?}")),
        };
        let found = written.and_then(wrote).and(kept(&[state]));
        self.counted(found, format_args!("text_end of any state"))
    }

    /// The same state at another place, at times of another length.
    fn moved(&mut self, state: &Lent<u8>) -> Lent<u8> {
        let more = self.rng.below(30);
        let behind = self.rng.bytes(more);
        let bytes = [&state.held()[..STATE_BYTES], &behind].concat();
        self.lent(&bytes)
    }
}

/// Nothing has changed but the first bytes of a state.
fn changed_alone(state: &Lent<u8>) -> Result<(), Wrong> {
    if !state.is_kept_behind(STATE_BYTES) {
        return Err("changed what stands around the state".to_string());
    }
    Ok(())
}

/// The first bytes of the joined text.
fn joined(pieces: &[&[u8]], length: usize) -> Vec<u8> {
    pieces.iter().flat_map(|piece| piece.iter().copied()).take(length).collect()
}

/// A state with other bytes: one of its numbers is random, all of them are, some are as high as may be, all behind the
/// numbers is random, or the whole state; half of these with a length that a text may have, so that more of it is read.
fn spoil(rng: &mut Rng, state: &Lent<u8>) -> Lent<u8> {
    let mut bytes = state.held().to_vec();
    match rng.below(5) {
        0 => {
            let at = rng.below(NUMBERS);
            bytes[at] = rng.byte();
        }
        1 => bytes[..NUMBERS].copy_from_slice(&rng.bytes(NUMBERS)),
        2 => bytes[..NUMBERS].iter_mut().filter(|_| rng.one_in(3)).for_each(|byte| *byte = 0xFF),
        3 => bytes[NUMBERS..STATE_BYTES].copy_from_slice(&rng.bytes(STATE_BYTES - NUMBERS)),
        _ => bytes[..STATE_BYTES].copy_from_slice(&rng.bytes(STATE_BYTES)),
    }
    if rng.one_in(2) {
        bytes[1] &= 0x3F;
    }
    if rng.one_in(4) {
        let at = rng.below(bytes.len());
        bytes[at] ^= 1 << rng.below(8);
    }
    Lent::holding(rng, &bytes)
}
