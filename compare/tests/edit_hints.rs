//! Hints beside the library's refusals of cuts and puttings-in, over generated ones: never another number or field. Each
//! 31 names all that still read, each 34 the rule that is broken, and all text is plain.

use std::collections::BTreeMap;
use umarekoza::{with_fields, without_fields, Refusal};
use umarekoza_compare::runs::Settings;
use umarekoza_hints::{cut_hint, put_hint, EditHint, Verdict};
use umarekoza_model::generate::{cut, put, Cut, Put, Rng};
use umarekoza_model::protocol::to_hex;

fn verdict(refusal: Refusal) -> Verdict {
    Verdict { number: refusal.number, place: refusal.place }
}

fn is_plain(hint: &EditHint) -> bool {
    let mut texts = [&hint.message, &hint.label].into_iter().chain(&hint.notes);
    texts.all(|text| text.bytes().all(|byte| (b' '..=b'~').contains(&byte)))
}

/// Whether the hint says more than the number's meaning does, where more can be said.
fn is_told(hint: &EditHint, verdict: Verdict) -> bool {
    let meaning = cut_hint(&[], 0, 0, verdict);
    let same = (hint.number, hint.field) == (verdict.number, verdict.place as usize);
    same && is_plain(hint) && (!matches!(verdict.number, 31 | 34) || hint.message != meaning.message)
}

fn number_at(table: &[u8], at: usize) -> usize {
    usize::from(u16::from_le_bytes([table[at], table[at + 1]]))
}

/// What each field of a good table reads: in its record, behind names and width, expressions with their lengths.
fn reads(table: &[u8]) -> Vec<Vec<usize>> {
    let (mut at, mut all) = (number_at(table, 0), Vec::new());
    while number_at(table, at) > 4 {
        let (end, kind) = (at + number_at(table, at), number_at(table, at + 2));
        let short = at + 8 + number_at(table, at + 6);
        let mut part = short + 2 + number_at(table, short) + if kind == 14 { 0 } else { 2 };
        let mut read = Vec::new();
        while part < end {
            let after = part + 2 + number_at(table, part);
            let mut code = part + 2;
            while code < after {
                read.extend((table[code] == 2).then(|| usize::from(table[code + 1])));
                code += [1, 5, 2].get(usize::from(table[code])).copied().unwrap_or(1);
            }
            part = after;
        }
        all.push(read);
        at = end;
    }
    all
}

/// How many fields of a table read one of a run and are not of it.
fn readers(Cut { table, first, last }: &Cut) -> usize {
    let run = *first..=*last;
    let reads = reads(table).into_iter().enumerate().filter(|(index, _)| !run.contains(index));
    reads.filter(|(_, read)| read.iter().any(|one| run.contains(one))).count()
}

#[test]
fn hints_for_cuts_agree_with_the_library() {
    let settings = Settings::from_environment().unwrap();
    let mut rng = Rng::new(settings.seed);
    let mut numbers: BTreeMap<u32, u64> = BTreeMap::new();
    for number in 0..settings.cases / 4 {
        let one = cut(&mut rng);
        let Err(refused) = without_fields(&one.table, one.first, one.last) else { continue };
        *numbers.entry(refused.number).or_default() += 1;
        let hint = cut_hint(&one.table, one.first, one.last, verdict(refused));
        let label = umarekoza::field_label(&one.table, (refused.place as usize).wrapping_sub(1));
        let is_named = refused.number != 31 || label == Some(hint.label.as_bytes());
        let case = || format!("cut {number}: {hint:?}\n{} {} {}", one.first, one.last, to_hex(&one.table));
        assert!(is_told(&hint, verdict(refused)) && is_named, "{}", case());
    }
    println!("{numbers:?}");
    assert!(settings.cases < 10_000 || [21, 30, 31, 34].iter().all(|number| numbers.contains_key(number)));
}

#[test]
fn hints_for_puttings_in_agree_with_the_library() {
    let settings = Settings::from_environment().unwrap();
    let mut rng = Rng::new(settings.seed);
    let mut numbers: BTreeMap<u32, u64> = BTreeMap::new();
    for number in 0..settings.cases / 4 {
        let Put { table, index, records } = put(&mut rng);
        let Err(refused) = with_fields(&table, index, &records) else { continue };
        *numbers.entry(refused.number).or_default() += 1;
        let hint = put_hint(&table, index, &records, verdict(refused));
        let case = || format!("put {number}: {hint:?}\n{index} {} {}", to_hex(&table), to_hex(&records));
        assert!(is_told(&hint, verdict(refused)), "{}", case());
    }
    println!("{numbers:?}");
    assert!(settings.cases < 10_000 || [21, 30, 34].iter().all(|number| numbers.contains_key(number)));
}

/// Each field that reads the run and is not of it is told once.
#[test]
fn all_that_read_are_told() {
    let (mut rng, mut found) = (Rng::new(4), 0);
    for _ in 0..20_000 {
        let one = cut(&mut rng);
        let Err(refused) = without_fields(&one.table, one.first, one.last) else { continue };
        if refused.number != 31 {
            continue;
        }
        let hint = cut_hint(&one.table, one.first, one.last, verdict(refused));
        let others = hint.notes.iter().filter(|note| note.contains(" too: its ")).count();
        assert_eq!(others + 1, readers(&one), "{hint:?}\n{} {}", one.first, to_hex(&one.table));
        found += 1;
    }
    assert!(found > 50, "{found}");
}

/// Whatever is given, there is a hint with the verdict's number.
#[test]
fn hints_answer_every_input() {
    let mut rng = Rng::new(5);
    for _ in 0..5000 {
        let due = Verdict { number: rng.between(20, 36) as u32, place: rng.below(140) as u32 };
        let Cut { table, first, last } = cut(&mut rng);
        let hint = cut_hint(&table, first, last, due);
        assert!(hint.number == due.number && is_plain(&hint), "{hint:?}");
        let Put { table, index, records } = put(&mut rng);
        let hint = put_hint(&table, index, &records, due);
        assert!(hint.number == due.number && is_plain(&hint), "{hint:?}");
        let (noise, other) = (rng.bytes(20), rng.bytes(20));
        assert!(is_plain(&put_hint(&noise, 0, &other, due)) && is_plain(&cut_hint(&noise, 0, 0, due)));
    }
}
