//! The blade report, changed, and what is told of it, which `crate::told_of` answers. The tests of the command have
//! these cases too.

pub const BLADE: &str = "\
A Blade Report is formatted as follows:

 0                   1
 0 1 2 3 4 5 6 7 8 9 0 1 2 3 4 5
+-+-+-+-+-+-+-+-+-+-+-+-+-+-+-+-+
| V |L|  Cells  |     Blade     |
+-+-+-+-+-+-+-+-+-+-+-+-+-+-+-+-+
|           Borrower            |
+-+-+-+-+-+-+-+-+-+-+-+-+-+-+-+-+
:            Readings           :
+-+-+-+-+-+-+-+-+-+-+-+-+-+-+-+-+
|             Sum               |
+-+-+-+-+-+-+-+-+-+-+-+-+-+-+-+-+

where:

Version (V): 2 bits; V == 1.
On Loan (L): 1 bit.
Cells (N): 5 bits; N <= 20.
Blade: 1 byte.
Borrower (Bor): 2 bytes; present only when L == 1.
Readings: N bytes.
Sum: 2 bytes.
";

pub const VERSION: &str = "Version (V): 2 bits; V == 1.";
pub const ON_LOAN: &str = "On Loan (L): 1 bit.";
pub const CELLS: &str = "Cells (N): 5 bits; N <= 20.";
pub const BLADE_LINE: &str = "Blade: 1 byte.";
pub const BORROWER: &str = "Borrower (Bor): 2 bytes; present only when L == 1.";
pub const READINGS: &str = "Readings: N bytes.";
pub const SUM: &str = "Sum: 2 bytes.";

/// The blade report with parts of it, each of which stands there once, replaced.
pub fn with(changes: &[(&str, &str)]) -> String {
    changes.iter().fold(BLADE.to_string(), |page, (from, to)| {
        assert_eq!(page.matches(from).count(), 1, "{from}");
        page.replace(from, to)
    })
}

/// The page is refused by this number at this place, and this is told of it.
#[track_caller]
pub fn told(page: impl AsRef<[u8]>, number: u32, place: u32, due: &str) {
    let told = crate::told_of(page.as_ref(), number, place);
    assert_eq!(told, due, "told:\n{told}\ndue:\n{due}");
}

/// The blade report with some lines replaced is refused by this number at the line that is now `line`, and this is
/// told: a message, a caret with its label, and notes.
#[track_caller]
pub fn line_told(number: u32, changes: &[(&str, &str)], line: &str, due: (&str, &str, &[&str])) {
    let page = with(changes);
    let place = page.lines().position(|other| other == line).unwrap() + 1;
    told(&page, number, place as u32, &due_at(number, place, line, due));
}

pub fn due_at(
    number: u32,
    place: usize,
    line: &str,
    (message, caret, notes): (&str, &str, &[&str]),
) -> String {
    let column = caret.find('^').unwrap() + 1;
    let mut due = format!("error[{number}]: {message}\n   --> page.txt:{place}:{column}\n   |\n");
    due += &format!("{}\n   | {caret}\n", format!("{place} | {line}").trim_end());
    if !notes.is_empty() {
        due += "   |\n";
    }
    notes.iter().for_each(|note| due += &format!("   = note: {note}\n"));
    due
}

/// The blade report with one line replaced is refused by 5 there, and this is told: a message, a caret with its
/// label, and notes.
#[track_caller]
pub fn form_told(from: &str, to: &str, message: &str, caret: &str, notes: &[&str]) {
    line_told(5, &[(from, to)], to, (message, caret, notes));
}
