"""Pages that come in pieces."""

import unittest
from pathlib import Path

import umarekoza
from umarekoza import STATE_BYTES, Pieces, Refusal

ROOT = Path(__file__).resolve().parents[2]
BLADE = (ROOT / "examples/pages/blade-report.txt").read_bytes()
TABLE = umarekoza.table_of(BLADE)


def fed(pieces, page, length):
    for at in range(0, len(page), length):
        pieces.piece(page[at : at + length])
    return pieces


class InPieces(unittest.TestCase):
    def refused(self, number, place, call, *arguments):
        with self.assertRaises(Refusal) as caught:
            call(*arguments)
        self.assertEqual((caught.exception.number, caught.exception.place), (number, place))

    def test_pieces_of_every_length(self):
        for length in (1, 2, 7, 64, 100, len(BLADE)):
            self.assertEqual(fed(Pieces(), BLADE, length).table(), TABLE)
        with_none = Pieces()
        for piece in (b"", BLADE[:39], b"", b"", BLADE[39:40], b"", BLADE[40:], b""):
            with_none.piece(piece)
        self.assertEqual(with_none.table(), TABLE)

    def test_the_end_may_be_asked_at_any_time(self):
        pieces = Pieces()
        self.refused(3, 1, pieces.table)
        fed(pieces, BLADE[:100], 9)
        lines = BLADE[:100].count(b"\n")
        self.refused(3, lines + 1, pieces.table)
        state = bytes(pieces.state)
        out = bytearray(b"\xee" * 300)
        self.refused(3, lines + 1, pieces.end, out)
        self.assertEqual((out, pieces.state), (b"\xee" * 300, state))
        pieces.piece(BLADE[100:])
        self.assertEqual(pieces.end(out), len(TABLE))
        self.assertEqual(out, TABLE + b"\xee" * (300 - len(TABLE)))
        short = bytearray(len(TABLE) - 1)
        self.refused(11, 0, pieces.end, short)
        self.assertEqual(short, bytes(len(TABLE) - 1))

    def test_a_line_of_over_1024_bytes(self):
        for length, place in ((1024, None), (1025, 23)):
            page = BLADE[:-1] + b" " + b"x" * (length - len(b"Sum: 2 bytes. ")) + b"\n"
            for piece in (1, 700, len(page)):
                pieces = fed(Pieces(), page, piece)
                if place is None:
                    self.assertEqual(pieces.table(), TABLE)
                else:
                    self.refused(3, place, pieces.table)
            if place:
                self.refused(3, place, umarekoza.table_of, page)

    def test_a_state_is_started_anew_and_handed_on(self):
        pieces = fed(Pieces(), b"\xff" * 20000, 64)
        self.refused(1, 0, pieces.table)
        pieces.start()
        pieces.piece(BLADE[:200])
        later = Pieces(bytearray(bytes(pieces.state)))
        later.piece(BLADE[200:])
        self.assertEqual(later.table(), TABLE)

    def test_states_of_other_lengths(self):
        short = bytearray(b"\xee" * (STATE_BYTES - 1))
        pieces = Pieces(short)
        pieces.start()
        pieces.piece(BLADE)
        self.assertEqual(short, b"\xee" * (STATE_BYTES - 1))
        self.refused(11, 0, pieces.table)
        longer = bytearray(b"\xee" * (STATE_BYTES + 9))
        pieces = Pieces(longer)
        pieces.start()
        self.assertEqual(fed(pieces, BLADE, 5).table(), TABLE)
        self.assertEqual(longer[STATE_BYTES:], b"\xee" * 9)

    def test_wrong_buffers(self):
        pieces = Pieces()
        self.assertRaises(TypeError, pieces.piece, "A Tag")
        self.assertRaises(ValueError, pieces.piece, pieces.state)
        self.assertRaises(ValueError, pieces.end, pieces.state)
        self.assertRaises(BufferError, Pieces(bytes(STATE_BYTES)).start)


if __name__ == "__main__":
    unittest.main()
