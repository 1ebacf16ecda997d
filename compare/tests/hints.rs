//! Hints beside the library's refusals, over generated pages and packets: never another number, line or field. Each
//! page that is refused by 2 to 10 gets a column, each packet by 24 to 29 its reason, and all text is plain.

use std::collections::BTreeMap;
use std::fs;
use std::path::Path;
use umarekoza::{read_partly, table_of, write_table, Refusal, RUN_MOST};
use umarekoza_compare::{runs::Settings, FILES};
use umarekoza_hints::{fields_before, packet_hint, page_hint, plain, plain_packet, Hint, Verdict, ALSO_MOST};
use umarekoza_model::generate::{packet, spelled_text, table, text, Rng};
use umarekoza_model::protocol::{from_hex, to_hex};

fn verdict(refusal: Refusal) -> Verdict {
    Verdict { number: refusal.number, place: refusal.place }
}

/// A generated page, or now and then random bytes.
fn page(rng: &mut Rng) -> Vec<u8> {
    if rng.one_in(50) {
        return (0..rng.between(0, 60)).map(|_| rng.byte()).collect();
    }
    text(rng)
}

fn is_plain(text: &str) -> bool {
    text.bytes().all(|byte| (b' '..=b'~').contains(&byte) || byte == b'\n')
}

/// The refusal of a page, by 11 if it needs more room than one byte less than its table; and that table's length.
fn refusal_of(page: &[u8]) -> (Verdict, Option<usize>) {
    match table_of(page) {
        Err(refusal) => (verdict(refusal), None),
        Ok(table) => {
            let short = write_table(page, &mut vec![0; table.len() - 1]);
            (verdict(short.unwrap_err()), Some(table.len()))
        }
    }
}

/// What is wrong with the hint for a refused page.
fn wrong(hint: &Hint, verdict: Verdict, page: &[u8]) -> Option<&'static str> {
    let located = (2..=10).contains(&verdict.number);
    let mut told = [&hint.message, &hint.label].into_iter().chain(&hint.notes);
    if hint.number != verdict.number {
        Some("another number")
    } else if verdict.place != 0 && hint.line != verdict.place as usize {
        Some("another line")
    } else if located && (hint.line == 0 || hint.column == 0 || hint.width == 0 || hint.label.is_empty()) {
        Some("no column")
    } else if hint.message.is_empty() || !told.all(|text| is_plain(text) && !text.contains('\n')) {
        Some("no message, or one that is not plain")
    } else if hint.also.len() > ALSO_MOST || hint.also.iter().any(|also| also.column == 0 || also.line == 0) {
        Some("too many further mistakes, or one without a place")
    } else if !is_plain(&plain(hint, "page\u{1B}", page)) {
        Some("its text is not plain")
    } else {
        None
    }
}

#[test]
fn hints_for_pages_agree_with_the_library() {
    let settings = Settings::from_environment().unwrap();
    println!("{} pages from seed {}", settings.cases, settings.seed);
    let mut rng = Rng::new(settings.seed);
    let mut numbers: BTreeMap<u32, u64> = BTreeMap::new();
    for number in 0..settings.cases {
        let page = page(&mut rng);
        let (verdict, needed) = refusal_of(&page);
        let hint = page_hint(&page, verdict);
        let found = wrong(&hint, verdict, &page);
        let counts = |length: usize| hint.message.replace(',', "").ends_with(&format!(" {length} bytes"));
        assert!(
            found.is_none() && needed.is_none_or(counts),
            "page {number}: {found:?} {hint:?}\n{}",
            to_hex(&page)
        );
        *numbers.entry(verdict.number).or_default() += 1;
    }
    println!("{numbers:?}");
    let due = settings.cases >= 10_000;
    assert!(!due || (1..=11).all(|number| numbers.contains_key(&number)), "not every number turned up");
}

/// The text and the refusal of a stored case; none for other cases.
fn stored(line: &str) -> Option<(Vec<u8>, Verdict)> {
    let (request, answer) = line.split_once('\t')?;
    let text = request.strip_prefix("text ").or_else(|| request.strip_prefix("pieces "))?;
    let (_, pieces) = text.split_once(' ')?;
    let pieces: Option<Vec<Vec<u8>>> = pieces.split(',').map(from_hex).collect();
    let (number, place) = answer.strip_prefix("refused ")?.split_once(' ')?;
    Some((pieces?.concat(), Verdict { number: number.parse().ok()?, place: place.parse().ok()? }))
}

#[test]
fn hints_for_pages_agree_with_the_stored_cases() {
    let folder = Path::new(env!("CARGO_MANIFEST_DIR")).join("../vectors");
    let mut refused = 0;
    for file in FILES {
        for (page, verdict) in fs::read_to_string(folder.join(file)).unwrap().lines().filter_map(stored) {
            let hint = page_hint(&page, verdict);
            let found = wrong(&hint, verdict, &page);
            assert!(found.is_none(), "{file}: {found:?} {hint:?}\n{}", to_hex(&page));
            refused += 1;
        }
    }
    assert_eq!(refused, 1581);
}

/// A wrong verdict gets the number's meaning alone, at its line.
#[test]
fn no_hint_argues_with_a_verdict() {
    let mut rng = Rng::new(1);
    for _ in 0..3000 {
        let page = page(&mut rng);
        let (due, _) = refusal_of(&page);
        for other in [Verdict { number: due.number % 11 + 1, ..due }, Verdict { place: due.place + 1, ..due }]
        {
            let hint = page_hint(&page, other);
            assert_eq!((hint.number, hint.line), (other.number, other.place as usize));
            assert!(hint.column == 0 && hint.also.is_empty() && !hint.message.is_empty(), "{hint:?}");
        }
    }
}

/// An accepted page with a blank behind some lines above the field lines, and without the full stop in some field
/// lines; and the numbers of these lines.
fn damaged(rng: &mut Rng, page: &[u8]) -> (Vec<u8>, Vec<usize>) {
    let mut lines: Vec<Vec<u8>> = page.split_inclusive(|byte| *byte == b'\n').map(<[u8]>::to_vec).collect();
    let fields = lines.iter().position(|line| line == b"where:\n").unwrap() + 2;
    let mut changed = Vec::new();
    for (index, line) in lines.iter_mut().enumerate().filter(|_| rng.one_in(6)) {
        if index < fields {
            line.insert(line.len() - 1, b' ');
        } else {
            line.remove(line.iter().position(|byte| *byte == b'.').unwrap());
        }
        changed.push(index + 1);
    }
    (lines.concat(), changed)
}

/// Whether a line is one of a row, and neither its first nor alone: then the page may be refused at the line above.
fn is_further(page: &[u8], number: usize) -> bool {
    let mut lines = page.split(|byte| *byte == b'\n').skip(number.saturating_sub(2));
    lines.by_ref().take(2).all(|line| line.starts_with(b"|"))
}

/// The mistakes that are told are those that were made, in the order of lines.
#[test]
fn further_mistakes_are_those_that_were_made() {
    let mut rng = Rng::new(3);
    for _ in 0..5000 {
        let (page, _) = spelled_text(&mut rng);
        let (page, changed) = damaged(&mut rng, &page);
        let Err(refused) = table_of(&page) else { continue };
        if refused.number == 1 {
            continue;
        }
        let hint = page_hint(&page, verdict(refused));
        let mut told: Vec<usize> =
            [hint.line].into_iter().chain(hint.also.iter().map(|also| also.line)).collect();
        if hint.line + 1 == changed[0] && is_further(&page, changed[0]) {
            told.remove(0);
        }
        let most = changed.len().min(if told[0] == hint.line { ALSO_MOST + 1 } else { ALSO_MOST });
        assert_eq!(told, changed[..most], "{}", plain(&hint, "page", &page));
    }
}

/// What the library reads of a packet before it refuses it, if it does.
fn read_before(table: &[u8], packet: &[u8]) -> (Result<u64, Refusal>, Vec<[u32; 4]>) {
    let mut run = [0; RUN_MOST];
    let (answer, count) = read_partly(table, packet, &mut run);
    let fours = run.chunks_exact(4).take(count).map(|four| [four[0], four[1], four[2], four[3]]);
    (answer, fours.collect())
}

#[test]
fn hints_for_packets_agree_with_the_library() {
    let settings = Settings::from_environment().unwrap();
    let mut rng = Rng::new(settings.seed);
    let mut numbers: BTreeMap<u32, u64> = BTreeMap::new();
    for number in 0..settings.cases {
        let table = table(&mut rng);
        let packet = packet(&mut rng, &table);
        let (answer, before) = read_before(&table, &packet);
        let same = before == fields_before(&table, &packet);
        let found = match answer {
            Ok(_) => same,
            Err(refused) => {
                *numbers.entry(refused.number).or_default() += 1;
                let hint = packet_hint(&table, &packet, &before, verdict(refused));
                let meaning = packet_hint(&[], &packet, &[], verdict(refused));
                (hint.number, hint.field) == (refused.number, refused.place as usize)
                    && (refused.number < 24 || (same && hint.message != meaning.message))
                    && is_plain(&plain_packet(&hint, "packet\u{1B}"))
            }
        };
        assert!(found, "packet {number}: {before:?}\n{}\n{}", to_hex(&table), to_hex(&packet));
    }
    println!("{numbers:?}");
    let due = settings.cases >= 10_000;
    assert!(!due || (24..=29).all(|number| numbers.contains_key(&number)), "not every number turned up");
}

/// Whatever the table, the packet and the numbers before are, there is a hint with the verdict's number and field.
#[test]
fn hints_for_packets_answer_every_input() {
    let mut rng = Rng::new(2);
    for _ in 0..5000 {
        let table = table(&mut rng);
        let packet = packet(&mut rng, &table);
        let fields = rng.below(140);
        let before: Vec<[u32; 4]> = (0..fields)
            .map(|_| [rng.below(3) as u32, rng.bits() as u32, rng.bits() as u32, rng.below(9) as u32])
            .collect();
        let due = Verdict { number: rng.between(20, 31) as u32, place: rng.below(140) as u32 };
        let hint = packet_hint(&table, &packet, &before, due);
        assert_eq!((hint.number, hint.field), (due.number, due.place as usize));
        assert!(is_plain(&plain_packet(&hint, "packet")));
    }
}
