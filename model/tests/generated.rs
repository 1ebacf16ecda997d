//! The generated cases: what is spelled is accepted, and every refusal turns up.

use std::collections::BTreeMap;
use umarekoza_model::generate::{packet, spelled_text, table, text, Rng};
use umarekoza_model::{check_table, field_bytes, list_packet, read_packet, write_table, Refusal};

const ROOM: usize = 1 << 16;

/// How often each refusal number turned up; 0 for what is accepted.
#[derive(Default)]
struct Tally(BTreeMap<u32, usize>);

impl Tally {
    fn add<T>(&mut self, answer: &Result<T, Refusal>) {
        let number = answer.as_ref().err().map_or(0, |refusal| refusal.number);
        *self.0.entry(number).or_default() += 1;
    }

    fn has_all(&self, numbers: impl IntoIterator<Item = u32>) {
        for number in numbers {
            assert!(self.0.contains_key(&number), "no {number} among {:?}", self.0);
        }
    }

    fn accepted(&self) -> usize {
        self.0.get(&0).copied().unwrap_or(0)
    }
}

#[test]
fn spelled_texts_give_their_tables() {
    let mut rng = Rng::new(1);
    for case in 0..2000 {
        let (text, table) = spelled_text(&mut rng);
        assert_eq!(check_table(&table), Ok(()), "case {case}");
        let shown = String::from_utf8_lossy(&text);
        let written = write_table(&text, table.len());
        if text.len() <= 16_384 {
            assert_eq!(written, Ok(table), "case {case}: {shown}");
        } else {
            assert_eq!(written, Err(Refusal { number: 1, place: 0 }));
        }
    }
}

#[test]
fn texts_of_every_answer() {
    let mut rng = Rng::new(2);
    let mut tally = Tally::default();
    for _ in 0..4000 {
        let text = text(&mut rng);
        let room = if rng.one_in(20) { rng.below(200) } else { ROOM };
        let answer = write_table(&text, room);
        tally.add(&answer);
        if let Ok(table) = answer {
            assert_eq!(check_table(&table), Ok(()));
            assert_eq!(write_table(&text, table.len()), Ok(table.clone()));
            assert_eq!(write_table(&text, table.len() - 1), Err(Refusal { number: 11, place: 0 }));
        }
    }
    tally.has_all(1..=11);
    assert!((1600..=2400).contains(&tally.accepted()), "{:?}", tally.0);
}

#[test]
fn packets_of_every_answer() {
    let mut rng = Rng::new(3);
    let mut tally = Tally::default();
    for _ in 0..6000 {
        let table = table(&mut rng);
        let packet = packet(&mut rng, &table);
        let run_len = if rng.one_in(20) { rng.below(40) } else { 512 };
        let answer = read_packet(&table, &packet, run_len);
        tally.add(&answer);
        if let Ok(reading) = answer {
            assert_eq!(reading.total as usize, 8 * packet.len());
            assert_eq!(reading.fields.iter().map(|field| field[2]).sum::<u32>(), reading.total);
            assert!(list_packet(&table, &packet).ends_with(format!("bits {}\n", reading.total).as_bytes()));
        }
        let (start, length) = field_bytes(&table, &packet, rng.below(130));
        assert!(start + length <= packet.len());
    }
    tally.has_all(21..=29);
    assert!((1200..=4200).contains(&tally.accepted()), "{:?}", tally.0);
}

#[test]
fn one_seed_gives_the_same_cases() {
    let cases = || {
        let mut rng = Rng::new(4);
        (text(&mut rng), table(&mut rng), rng.bits())
    };
    assert_eq!(cases(), cases());
}
