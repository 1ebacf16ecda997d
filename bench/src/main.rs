//! Prints how long the library takes against the model and against a plain C reader, how its times grow as
//! sizes double, what cutting fields out and putting them in takes, what texts in pieces take, and what looking up
//! names takes.
//! UMAREKOZA_ROUNDS is the number of rounds, 21 if not set. Where another library is linked (UMAREKOZA_BEFORE_DIR),
//! prints the ratios to its times too.

#[cfg(before)]
mod before;
mod calls;
mod cases;
mod checks;
mod edits;
mod folder;
mod libraries;
mod lookups;
mod pieces;
mod reader;
mod rounds;
mod tables;

use calls::{check, count, model_check, model_count, model_read, model_write, plain, read, write};
use cases::Case;
use libraries::{Library, BEFORE, NOW};
use rounds::{times, Call};
use std::env;
use tables::{growth_head, growth_row, shown};
use umarekoza::{FIELDS_MOST, PACKET_MOST, TEXT_MOST};

fn main() {
    let rounds =
        env::var("UMAREKOZA_ROUNDS").ok().and_then(|rounds| rounds.parse().ok()).unwrap_or(21).max(1);
    println!(
        "Ratios are medians of {rounds} interleaved rounds, quartiles in brackets; CPU times of a thread or process."
    );
    println!(
        "Lent buffers are made once for each row and not cleared between calls; the model makes its own."
    );
    println!("'again' is the library against itself, the noise of the machine. Functions lie at multiples of 64.\n");
    ratios(rounds);
    println!("\nGrowth of the library's times as sizes double; 2 is linear.\n");
    growth(rounds);
    edits::print(rounds);
    pieces::print(rounds);
    if let Some(before) = &BEFORE {
        println!("\nAgainst the library of UMAREKOZA_BEFORE_DIR.\n");
        against(before, rounds);
    }
    lookups::print(rounds);
}

/// The library twice, and the other one, by what both accept, each by tables in its own form.
fn against(before: &Library, rounds: usize) {
    let cases =
        [Case::blade(), Case::constrained(16, 4096), Case::constrained(64, TEXT_MOST), Case::long(2048)];
    println!("| Call | Case | library, ns | / before | again |");
    println!("|---|---|---|---|---|");
    let libraries = [&NOW, &NOW, before];
    for case in &cases {
        against_row("check_table", case, &mut libraries.map(|library| check(library, case)), rounds);
        against_row("read_packet", case, &mut libraries.map(|library| read(library, case)), rounds);
        against_row("write_table", case, &mut libraries.map(|library| write(library, case)), rounds);
    }
}

fn against_row(call: &str, case: &Case, calls: &mut [Call], rounds: usize) {
    let times = times(calls, rounds);
    let (ratio, again) = (shown(&times.ratio(0, 2)), shown(&times.ratio(1, 0)));
    println!("| {call} | {} | {:.0} | {ratio} | {again} |", case.name, times.of(0).median);
}

fn ratios(rounds: usize) {
    let blade = Case::blade();
    let half = Case::constrained(FIELDS_MOST / 2, TEXT_MOST);
    let fields = Case::constrained(FIELDS_MOST, TEXT_MOST);
    let long = Case::long(PACKET_MOST);
    println!("| Call | Case | library, ns | / model | / plain C | / C with constraints | again |");
    println!("|---|---|---|---|---|---|---|");
    for case in [&blade, &half, &fields] {
        let mut calls = [check(&NOW, case), check(&NOW, case), model_check(case)];
        ratio_row("check_table", case, &mut calls, rounds);
    }
    for case in [&blade, &half, &fields] {
        ratio_row("count_readers", case, &mut [count(case), count(case), model_count(case)], rounds);
    }
    for case in [&blade, &half, &fields, &long] {
        let (plain, constrained) = (plain(case, false), plain(case, true));
        let mut calls = [read(&NOW, case), read(&NOW, case), model_read(case), plain, constrained];
        ratio_row("read_packet", case, &mut calls, rounds);
    }
    for case in [&blade, &half, &fields, &Case::flags(FIELDS_MOST)] {
        let mut calls = [write(&NOW, case), write(&NOW, case), model_write(case)];
        ratio_row("write_table", case, &mut calls, rounds);
    }
}

/// A row: the library twice, and then what it is compared with.
fn ratio_row(call: &str, case: &Case, calls: &mut [Call], rounds: usize) {
    let times = times(calls, rounds);
    let others = (2..5).map(|other| match calls.get(other) {
        Some(_) => shown(&times.ratio(0, other)),
        None => "".to_string(),
    });
    let others: Vec<String> = others.collect();
    let again = shown(&times.ratio(1, 0));
    println!("| {call} | {} | {:.0} | {} | {again} |", case.name, times.of(0).median, others.join(" | "));
}

fn growth(rounds: usize) {
    let fields: Vec<Case> =
        (0..5).map(|doubling| Case::constrained(8 << doubling, 1024 << doubling)).collect();
    let long: Vec<Case> = (0..5).map(|doubling| Case::long((512 << doubling).min(PACKET_MOST))).collect();
    growth_head();
    let (check, read, write) = (|case| check(&NOW, case), |case| read(&NOW, case), |case| write(&NOW, case));
    growth_of("check_table", "8, 16, 32, 64, 128 fields", fields.iter().map(check), rounds);
    growth_of("read_packet", "8, 16, 32, 64, 128 fields", fields.iter().map(read), rounds);
    growth_of("read_packet", "512, 1024, 2048, 4096, 8191 bytes", long.iter().map(read), rounds);
    growth_of("write_table", "1 to 16 KiB with 8 to 128 fields", fields.iter().map(write), rounds);
}

fn growth_of<'a>(call: &str, sizes: &str, calls: impl Iterator<Item = Call<'a>>, rounds: usize) {
    let mut calls: Vec<Call> = calls.collect();
    growth_row(call, sizes, &times(&mut calls, rounds), 0..calls.len());
}
