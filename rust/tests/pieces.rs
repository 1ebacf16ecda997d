//! Page texts that come in pieces.

use std::io::{self, Write};
use umarekoza::*;

const BLADE: &[u8] = include_bytes!("../../examples/pages/blade-report.txt");

fn refused<T>(number: u32, place: u32) -> Result<T, Refusal> {
    Err(Refusal { number, place })
}

fn fed<'a>(pieces: impl IntoIterator<Item = &'a [u8]>) -> Pieces {
    let mut fed = Pieces::new();
    pieces.into_iter().for_each(|piece| fed.piece(piece));
    fed
}

/// The blade report with a remark that makes its last line so long.
fn long_line(bytes: usize) -> Vec<u8> {
    let remark = b"x".repeat(bytes - b"Sum: 2 bytes. ".len());
    [&BLADE[..BLADE.len() - 1], b" ", &remark, b"\n"].concat()
}

#[test]
fn a_page_cut_anywhere() {
    let table = table_of(BLADE);
    for cut in 0..=BLADE.len() {
        let (start, end) = BLADE.split_at(cut);
        assert_eq!(fed([start, end]).table(), table, "{cut}");
        assert_eq!(fed([b"", start, b"", end, b""]).table(), table, "{cut}");
    }
    for length in [1, 2, 3, 64, 100] {
        assert_eq!(fed(BLADE.chunks(length)).table(), table, "{length}");
    }
}

#[test]
fn the_end_may_be_asked_at_any_time() {
    let mut pieces = Pieces::default();
    // A last line without its LF, and what is missing above the field lines, is 3; cells without a line are 7.
    let (mut lines, mut is_ended) = (0, true);
    for byte in BLADE.chunks(1) {
        let number = if is_ended && lines > 16 { 7 } else { 3 };
        assert_eq!(pieces.table(), refused(number, lines + 1));
        pieces.piece(byte);
        is_ended = byte == b"\n";
        lines += u32::from(is_ended);
    }
    let (table, state) = (table_of(BLADE).unwrap(), pieces.state().to_vec());
    let mut out = [9; 300];
    assert_eq!(pieces.end(&mut out[..table.len() - 1]), refused(11, 0));
    assert_eq!(out, [9; 300]);
    assert_eq!(pieces.end(&mut out), Ok(table.len()));
    assert_eq!((&out[..table.len()], &out[table.len()..]), (&table[..], &[9; 300][table.len()..]));
    assert_eq!(pieces.state(), state);
    pieces.piece(b"\n");
    assert_eq!(pieces.table(), refused(5, 24));
}

#[test]
fn lines_of_1024_bytes_and_more() {
    for length in [1, 64, 1_000, 20_000] {
        assert_eq!(fed(long_line(1_024).chunks(length)).table(), table_of(BLADE), "{length}");
        assert_eq!(fed(long_line(1_025).chunks(length)).table(), refused(3, 23), "{length}");
    }
    assert_eq!(table_of(&long_line(1_024)), table_of(BLADE));
    assert_eq!(table_of(&long_line(1_025)), refused(3, 23));
    assert_eq!(fed(long_line(16_000).chunks(1)).table(), refused(1, 0));
}

/// The lowest refusal counts, wherever it stands, and of that the first line.
#[test]
fn the_lowest_refusal() {
    let page = String::from_utf8_lossy(BLADE).into_owned();
    let clash = page.replace("(Bor)", "(Cells)");
    let both = clash.replace("Sum: 2 bytes.", "Sum: 2 bytes");
    let other = clash.replace("(V): 2 bits", "(V): 02 bits");
    for (page, number, place) in [(&clash, 8, 21), (&both, 5, 23), (&other, 5, 17)] {
        for length in [1, 7, 64] {
            assert_eq!(fed(page.as_bytes().chunks(length)).table(), refused(number, place));
        }
    }
    let bytes = [other.as_bytes(), b"\x80\n"].concat();
    assert_eq!(fed(bytes.chunks(1)).table(), refused(2, 0));
}

#[test]
fn states_of_any_length_and_bytes() {
    let mut short = vec![9; STATE_BYTES - 1];
    text_start(&mut short);
    text_piece(&mut short, BLADE);
    assert!(short.iter().all(|byte| *byte == 9));
    assert_eq!(text_end(&short, &mut [0; 300]), refused(11, 0));
    assert!(Pieces::from_state(&short).is_none());
    let mut long = vec![9; STATE_BYTES + 5];
    text_start(&mut long);
    text_piece(&mut long, BLADE);
    assert_eq!(long[STATE_BYTES..], [9; 5]);
    assert_eq!(Pieces::from_state(&long).unwrap().table(), table_of(BLADE));
    for byte in [0, 1, 9, 127, 128, 255] {
        let mut pieces = Pieces::from_state(&vec![byte; STATE_BYTES]).unwrap();
        pieces.piece(BLADE);
        let mut out = [7; 200];
        if pieces.end(&mut out).is_err() {
            assert_eq!(out, [7; 200]);
        }
        pieces.start();
        pieces.piece(BLADE);
        assert_eq!(pieces.table(), table_of(BLADE));
    }
}

#[test]
fn a_writer_and_a_copy() -> io::Result<()> {
    let mut pieces = Pieces::new();
    pieces.write_all(&BLADE[..300])?;
    let mut other = pieces.clone();
    pieces.write_all(&BLADE[300..])?;
    pieces.flush()?;
    other.piece(b"\t");
    assert_eq!((pieces.table(), other.table()), (table_of(BLADE), refused(2, 0)));
    assert_eq!(format!("{pieces:?}"), "Pieces { .. }");
    Ok(())
}
