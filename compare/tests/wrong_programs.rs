//! The comparison notices wrong programs: the library's functions, with one fault in one of them at a time.

use std::sync::Mutex;
use umarekoza::STATE_BYTES;
use umarekoza_compare::exports::{Answer, Exports, Partial, Span, LIBRARY};
use umarekoza_compare::runs::{generated, Settings, Tally};
use Fault::*;

/// What goes wrong: something in an answer or a span, or a byte in or beside the buffer of this number.
#[derive(Clone, Copy, Debug)]
enum Fault {
    Nothing,
    Accepted(u32, u32, u64),
    Refused(u32, u32, u64),
    AnySpan(u64, u64),
    EmptySpan(u64, u64),
    Count(u64),
    Before(usize),
    First(usize),
    FirstOfEmpty(usize),
    LastOfLong(usize),
    Behind(usize),
    BehindState(usize),
    FirstOfShortState(usize),
}

const OF_ANSWERS: [Fault; 6] = [
    Accepted(9, 0, 0),
    Accepted(0, 9, 0),
    Accepted(0, 0, 1),
    Refused(32, 0, 0),
    Refused(0, 9, 0),
    Refused(0, 0, 9),
];
const SPANS: [&str; 3] = ["field_bytes", "field_label", "field_short"];
const OF_SPANS: [Fault; 4] = [AnySpan(1, 0), AnySpan(0, 1), EmptySpan(3, 0), EmptySpan(0, 3)];

/// The call that goes wrong, and how.
static WRONG: Mutex<(&str, Fault)> = Mutex::new(("", Nothing));

fn fault(call: &str) -> Fault {
    match *WRONG.lock().unwrap() {
        (wrong, fault) if wrong == call => fault,
        _ => Nothing,
    }
}

fn answered(call: &str, Answer { number, place, length }: Answer) -> Answer {
    let (a, b, c) = match fault(call) {
        Accepted(a, b, c) if number == 0 => (a, b, c),
        Refused(a, b, c) if number != 0 => (a, b, c),
        _ => (0, 0, 0),
    };
    Answer { number: number ^ a, place: place ^ b, length: length ^ c }
}

fn told_partly(call: &str, Partial { number, place, length, count }: Partial) -> Partial {
    let Answer { number, place, length } = answered(call, Answer { number, place, length });
    let d = if let Count(d) = fault(call) { d } else { 0 };
    Partial { number, place, length, count: count ^ d }
}

fn placed(call: &str, Span { offset, length }: Span) -> Span {
    let (a, b) = match fault(call) {
        AnySpan(a, b) => (a, b),
        EmptySpan(a, b) if length == 0 => (a, b),
        _ => (0, 0),
    };
    Span { offset: offset ^ a, length: length ^ b }
}

/// No answer, whatever goes wrong.
fn nothing(_: &str, (): ()) {}

/// A buffer as bytes.
fn bytes<T>(start: *const T, length: usize) -> (*const u8, usize) {
    (start.cast(), length * size_of::<T>())
}

fn spoil(call: &str, buffers: &[(*const u8, usize)]) {
    let (buffer, at) = match fault(call) {
        Before(buffer) => (buffer, usize::MAX),
        First(buffer) => (buffer, 0),
        FirstOfEmpty(buffer) if buffers[buffer].1 == 0 => (buffer, 0),
        LastOfLong(buffer) if buffers[buffer].1 >= 1024 => (buffer, buffers[buffer].1 - 1),
        Behind(buffer) => (buffer, buffers[buffer].1),
        BehindState(buffer) if buffers[buffer].1 > STATE_BYTES => (buffer, STATE_BYTES),
        FirstOfShortState(buffer) if (1..STATE_BYTES).contains(&buffers[buffer].1) => (buffer, 0),
        _ => return,
    };
    // SAFETY: the comparison lends buffers between guards.
    unsafe { *buffers[buffer].0.wrapping_add(at).cast_mut() ^= 1 }
}

/// The library's function of this name, with the fault that it has now.
macro_rules! wrong {
    ($call:ident, $told:ident, $($start:ident $length:ident $type:ty),+; $($index:ident)? -> $answer:ty) => {
        unsafe extern "C" fn $call($($start: $type, $length: usize,)+ $($index: usize)?) -> $answer {
            let answer = (LIBRARY.$call)($($start, $length,)+ $($index)?);
            spoil(stringify!($call), &[$(bytes($start, $length)),+]);
            $told(stringify!($call), answer)
        }
    };
}

wrong!(write_table, answered, text m *const u8, out n *mut u8; -> Answer);
wrong!(check_table, answered, table m *const u8; -> Answer);
wrong!(read_packet, answered, table m *const u8, packet n *const u8, run o *mut u32; -> Answer);
wrong!(field_bytes, placed, table m *const u8, packet n *const u8; index -> Span);
wrong!(list_packet, answered, table m *const u8, packet n *const u8, out o *mut u8; -> Answer);
wrong!(find_field, answered, table m *const u8, name n *const u8; -> Answer);
wrong!(field_label, placed, table m *const u8; index -> Span);
wrong!(field_short, placed, table m *const u8; index -> Span);
wrong!(count_fields, answered, table m *const u8; -> Answer);
wrong!(field_kind, answered, table m *const u8; index -> Answer);
wrong!(count_readers, answered, table m *const u8; index -> Answer);
wrong!(convert_table, answered, table m *const u8, out n *mut u8; -> Answer);
wrong!(read_partly, told_partly, table m *const u8, packet n *const u8, run o *mut u32; -> Partial);
wrong!(text_start, nothing, state m *mut u8; -> ());
wrong!(text_piece, nothing, state m *mut u8, piece n *const u8; -> ());
wrong!(text_end, answered, state m *const u8, out n *mut u8; -> Answer);

unsafe extern "C" fn cut_fields(
    table: *const u8,
    m: usize,
    first: usize,
    last: usize,
    out: *mut u8,
    n: usize,
) -> Answer {
    let answer = (LIBRARY.cut_fields)(table, m, first, last, out, n);
    spoil("cut_fields", &[bytes(table, m), bytes(out, n)]);
    answered("cut_fields", answer)
}

unsafe extern "C" fn put_fields(
    table: *const u8,
    m: usize,
    index: usize,
    records: *const u8,
    n: usize,
    out: *mut u8,
    o: usize,
) -> Answer {
    let answer = (LIBRARY.put_fields)(table, m, index, records, n, out, o);
    spoil("put_fields", &[bytes(table, m), bytes(records, n), bytes(out, o)]);
    answered("put_fields", answer)
}

const EXPORTS: Exports = Exports {
    write_table,
    check_table,
    read_packet,
    field_bytes,
    list_packet,
    find_field,
    field_label,
    field_short,
    count_fields,
    field_kind,
    count_readers,
    convert_table,
    cut_fields,
    put_fields,
    read_partly,
    text_start,
    text_piece,
    text_end,
};

fn compared(call: &'static str, fault: Fault) -> Result<Tally, String> {
    *WRONG.lock().unwrap() = (call, fault);
    generated(Settings { cases: 3000, seed: 1 }, EXPORTS)
}

#[test]
fn wrong_programs_are_noticed() {
    compared("", Nothing).unwrap_or_else(|wrong| panic!("without a fault: {wrong}"));
    let with_buffers = [
        ("check_table", 1),
        ("find_field", 2),
        ("field_bytes", 2),
        ("field_label", 1),
        ("field_short", 1),
        ("count_fields", 1),
        ("field_kind", 1),
        ("count_readers", 1),
    ];
    let with_output = [
        ("write_table", 2),
        ("read_packet", 3),
        ("list_packet", 3),
        ("read_partly", 3),
        ("convert_table", 2),
        ("cut_fields", 2),
        ("put_fields", 3),
        ("text_end", 2),
    ];
    for (call, buffers) in with_buffers.into_iter().chain(with_output) {
        let of_answer = if SPANS.contains(&call) { &OF_SPANS[..] } else { &OF_ANSWERS };
        let of_buffers = (0..buffers).flat_map(|i| [Before(i), First(i), FirstOfEmpty(i), Behind(i)]);
        let beyond = with_output.contains(&(call, buffers)).then_some(LastOfLong(buffers - 1));
        let of_count = (call == "read_partly").then_some(Count(1));
        for fault in of_answer.iter().copied().chain(of_buffers).chain(beyond).chain(of_count) {
            is_noticed(call, fault);
        }
    }
    those_for_pieces_are_noticed();
}

#[track_caller]
fn is_noticed(call: &'static str, fault: Fault) {
    let wrong = compared(call, fault).err();
    let wrong = wrong.unwrap_or_else(|| panic!("{call}, {fault:?}: not noticed"));
    assert!(wrong.contains(&format!(": {call}")), "{call}, {fault:?}: {wrong}");
}

/// What is changed beside a state, in one that is too short, and in a piece.
fn those_for_pieces_are_noticed() {
    let of_state = [Before(0), Behind(0), BehindState(0), FirstOfShortState(0)];
    of_state.into_iter().for_each(|fault| is_noticed("text_start", fault));
    let of_piece = [Before(1), First(1), FirstOfEmpty(1), LastOfLong(1), Behind(1)];
    of_state.into_iter().chain(of_piece).for_each(|fault| is_noticed("text_piece", fault));
}
