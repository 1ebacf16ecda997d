//! What looking up names takes, in folders of texts that are full of them.

use crate::calls::{find_all, write_all, Asked};
use crate::cases::Case;
use crate::checks::Pages;
use crate::folder::{folder, Reads, Size, GROWN, WHOLE};
use crate::libraries::{Library, BEFORE, NOW};
use crate::rounds::{child_times, times, Call, Times};
use crate::tables::{growth_head, growth_row, shown};
use std::env;
use std::path::PathBuf;
use umarekoza::{field_label, field_short};

/// A folder and its twins.
const FOLDERS: [(&str, Reads); 3] = [
    ("a text", Reads::All),
    ("its twin with the first field's name throughout", Reads::First),
    ("its twin with names as long, of the first four fields", Reads::Early),
];

/// Fields are asked for by name in the tables of so many texts.
const TABLES: usize = 6;

pub fn print(rounds: usize) {
    let Size { texts, fields, names } = WHOLE;
    println!("\nNames looked up: {texts} texts of {fields} fields, {names} names read by each line.\n");
    let folders = FOLDERS.map(|(_, reads)| folder(WHOLE, reads));
    let whole = whole_times(&folders, rounds);
    println!("| Call | Case | ns |{} again |", if_before(|| " / before |".into()));
    println!("|---|---|---|{}---|", if_before(|| "---|".into()));
    for (place, (case, _)) in FOLDERS.iter().enumerate() {
        row("write_table", case, &whole, [NOW_AT, AGAIN_AT, BEFORE_AT].map(|library| library + place));
    }
    row("find_field", "a name of a text's table", &find_times(&folders[0][..TABLES], rounds), [0, 1, 2]);
    if let Some(times) = check_times(&folders[0], rounds) {
        row("umarekoza check", "a text, of the command's time for the folder", &times, [0, 1, 2]);
    }
    println!("\nThe walk's share of a text's time: what a text takes longer than a twin. What every");
    println!("lookup takes, wherever its name stands, is in the twins' own times.\n");
    shares(&whole);
    println!("\nGrowth for texts with {} names read by each line.\n", GROWN[0].names);
    growth(rounds);
}

/// What is printed only where another library is linked.
fn if_before(cells: impl FnOnce() -> String) -> String {
    if BEFORE.is_some() {
        cells()
    } else {
        String::new()
    }
}

/// A row: the call, the call again, and that of the other library.
fn row(call: &str, case: &str, times: &Times, [now, again, before]: [usize; 3]) {
    let before = if_before(|| format!(" {} |", shown(&times.ratio(now, before))));
    let again = shown(&times.ratio(again, now));
    println!("| {call} | {case} | {:.0} |{before} {again} |", times.of(now).median);
}

/// Where the calls of each library begin in a round of `whole_times`.
const NOW_AT: usize = 0;
const AGAIN_AT: usize = FOLDERS.len();
const BEFORE_AT: usize = 2 * FOLDERS.len();

/// What a text and its twins take, with each of the libraries.
fn whole_times(folders: &[Vec<Case>], rounds: usize) -> Times {
    let calls = libraries().flat_map(|library| folders.iter().map(|cases| write_all(library, cases)));
    times(&mut calls.collect::<Vec<Call>>(), rounds).per(|_| WHOLE.texts)
}

fn shares(whole: &Times) {
    println!("| Twin | share |{}", if_before(|| " share before | time / before |".into()));
    println!("|---|---|{}", if_before(|| "---|---|".into()));
    for (place, (case, _)) in FOLDERS.iter().enumerate().skip(1) {
        let (now, earlier) = ([NOW_AT, NOW_AT + place], [BEFORE_AT, BEFORE_AT + place]);
        let before = if_before(|| {
            let ratio = whole.ratio_of_differences(now, earlier);
            format!(" {} | {} |", shown(&whole.share(earlier)), shown(&ratio))
        });
        println!("| {case} | {} |{before}", shown(&whole.share(now)));
    }
}

/// The library twice, and the other one.
fn libraries() -> impl Iterator<Item = &'static Library> {
    [&NOW, &NOW].into_iter().chain(&BEFORE)
}

/// The names of some tables, asked for in turns, so that the processor learns no table by heart.
fn find_times(cases: &[Case], rounds: usize) -> Times {
    let stored = |library: &Library| cases.iter().map(|case| library.table(&case.page)).collect();
    let tables: Vec<Vec<Vec<u8>>> = libraries().map(stored).collect();
    let asked: Vec<Vec<Asked>> = tables.iter().map(|tables| asked(cases, tables)).collect();
    let calls = libraries().zip(&asked).map(|(library, asked)| find_all(library, asked));
    let mut calls: Vec<Call> = calls.collect();
    times(&mut calls, rounds).per(|call| asked[call].len())
}

/// Each name of each field, asked for in a library's own table of the case.
fn asked<'a>(cases: &'a [Case], tables: &'a [Vec<u8>]) -> Vec<Asked<'a>> {
    let fields = (0..WHOLE.fields).flat_map(|field| cases.iter().zip(tables).map(move |pair| (pair, field)));
    let asked = fields.flat_map(|((case, table), field)| {
        let names = [field_label(&case.table, field), field_short(&case.table, field)].into_iter().flatten();
        names.map(move |name| Asked { table, name, index: field as u64 })
    });
    asked.collect()
}

/// What the commands take that are made with the libraries. UMAREKOZA_COMMAND and UMAREKOZA_COMMAND_BEFORE
/// name them; none where these are not set.
fn check_times(cases: &[Case], rounds: usize) -> Option<Times> {
    let now = PathBuf::from(env::var_os("UMAREKOZA_COMMAND")?);
    let mut commands = vec![now.clone(), now];
    if BEFORE.is_some() {
        commands.push(env::var_os("UMAREKOZA_COMMAND_BEFORE")?.into());
    }
    let pages = Pages::new(cases);
    let mut calls: Vec<Call> = commands.iter().map(|command| pages.check(command)).collect();
    Some(child_times(&mut calls, rounds).per(|_| cases.len()))
}

fn growth(rounds: usize) {
    let folders = GROWN.map(|size| folder(size, Reads::All));
    let calls = libraries().skip(1).flat_map(|library| folders.iter().map(|cases| write_all(library, cases)));
    let mut calls: Vec<Call> = calls.collect();
    let times = times(&mut calls, rounds).per(|call| GROWN[call % GROWN.len()].texts);
    let sizes = GROWN.map(|size| size.fields.to_string()).join(", ") + " fields";
    growth_head();
    growth_row("write_table", &sizes, &times, 0..GROWN.len());
    if BEFORE.is_some() {
        growth_row("write_table before", &sizes, &times, GROWN.len()..calls.len());
        let ratios = (0..GROWN.len()).map(|size| shown(&times.ratio(size, GROWN.len() + size)));
        println!("\nNow / before, for {sizes}: {}.", ratios.collect::<Vec<_>>().join(", "));
    }
}
