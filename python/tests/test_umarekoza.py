"""The module's calls on the marked cases of document 01, and what buffers they take."""

import doctest
import mmap
import os
import re
import tempfile
import unittest
from array import array
from pathlib import Path

import umarekoza
from umarekoza import Field, Kind, Refusal

ROOT = Path(__file__).resolve().parents[2]
BLADE = (ROOT / "examples/pages/blade-report.txt").read_bytes()
M1 = bytes.fromhex("6207012caabb0009")
M2 = bytes.fromhex("4207aabb0009")
M1_LISTING = (
    b"Version: 0 2 1\nOn Loan: 2 1 1\nCells: 3 5 2\nBlade: 8 8 7\n"
    b"Borrower: 16 16 300\nReadings: 32 16\nSum: 48 16 9\nbits 64\n"
)
TAG = (
    b"A Tag is formatted as follows:\n\n 0\n 0 1 2 3 4 5 6 7\n+-+-+-+-+-+-+-+-+\n|       K       |\n"
    b"+-+-+-+-+-+-+-+-+\n\nwhere:\n\nKind (K): 1 byte; K == 7.\n"
)
TAG_TABLE = bytes.fromhex(
    "0D000100080001000300546167 1D000C0000000400 4B696E6401004B08000800 2002000107000000 0000 04000500"
)
# As it was before records kept a number.
OLD_TAG_TABLE = bytes.fromhex(
    "0D000100080001000300546167 1B0002000400 4B696E6401004B08000800 2002000107000000 0000 04000500"
)
TABLE = umarekoza.table_of(BLADE)


def load_tests(loader, tests, pattern):
    os.chdir(ROOT)
    for module in (umarekoza, umarekoza._pieces):
        tests.addTests(doctest.DocTestSuite(module, optionflags=doctest.IGNORE_EXCEPTION_DETAIL))
    return tests


class Marked(unittest.TestCase):
    def refused(self, number, place, call, *arguments):
        with self.assertRaises(Refusal) as caught:
            call(*arguments)
        self.assertEqual((caught.exception.number, caught.exception.place), (number, place))
        self.assertEqual(str(caught.exception), f"refused {number} at {place}")

    def test_tables(self):
        self.assertEqual(umarekoza.table_of(TAG), TAG_TABLE)
        out = bytearray(b"\xee" * 50)
        self.assertEqual(umarekoza.write_table(TAG, out), 46)
        self.assertEqual(out, TAG_TABLE + b"\xee" * 4)
        short = bytearray(b"\xee" * 45)
        self.refused(11, 0, umarekoza.write_table, TAG, short)
        self.assertEqual(short, b"\xee" * 45)
        self.refused(7, 19, umarekoza.table_of, (ROOT / "examples/mistake.txt").read_bytes())
        self.refused(3, 1, umarekoza.table_of, b"")
        self.assertIsNone(umarekoza.check_table(TAG_TABLE))
        self.refused(21, 0, umarekoza.check_table, b"no table")

    def test_listings(self):
        self.assertEqual(umarekoza.listing(TABLE, M1), M1_LISTING)
        self.assertEqual(umarekoza.listing(TABLE, M1[:7]), b"refused 24 at 7\n")
        out = bytearray(b"?" * 200)
        self.assertEqual(umarekoza.list_packet(TABLE, M1, out), len(M1_LISTING))
        self.assertEqual(out, M1_LISTING + b"?" * (200 - len(M1_LISTING)))
        self.refused(11, 0, umarekoza.list_packet, TABLE, M1, bytearray(len(M1_LISTING) - 1))

    def test_readings(self):
        fields = umarekoza.fields_of(TABLE, M1)
        self.assertEqual(len(fields), 7)
        self.assertEqual(fields[4], Field(True, 16, 16, 300))
        self.assertEqual(umarekoza.fields_of(TABLE, M2)[4], Field(False, 0, 0, 0))
        run = array("I", [7] * 30)
        self.assertEqual(umarekoza.read_packet(TABLE, M1, run), 64)
        self.assertEqual(run[16:20].tolist() + run[28:].tolist(), [1, 16, 16, 300, 7, 7])
        self.refused(23, 0, umarekoza.read_packet, TABLE, M1, array("I", [0] * 27))
        self.refused(23, 0, umarekoza.read_packet, TABLE, M1, array("I"))
        refusals = {M1[:7]: (24, 7), M1 + b"\0": (28, 0), b"\x22" + M1[1:]: (25, 1), b"\x55\x07": (25, 3), b"": (24, 1)}
        for packet, (number, place) in refusals.items():
            self.refused(number, place, umarekoza.fields_of, TABLE, packet)
        self.refused(22, 0, umarekoza.fields_of, TABLE, bytes(8192))
        page = TAG.replace(b"|       K       |", b":     Kind      :").replace(b"1 byte; K == 7", b"variable")
        rest = umarekoza.table_of(page)
        self.assertEqual(umarekoza.fields_of(rest, bytes(8191)), [Field(True, 0, 65528, 0)])
        self.assertEqual(umarekoza.listing(rest, bytes(8191)), b"Kind: 0 65528\nbits 65528\n")
        self.refused(21, 0, umarekoza.fields_of, b"", M1)

    def test_what_was_read_before_a_refusal(self):
        run = array("I", [7] * 30)
        refusal, count = umarekoza.read_partly(TABLE, M1[:7], run)
        self.assertEqual(((refusal.number, refusal.place), count), ((24, 7), 6))
        self.assertEqual(run[16:].tolist(), [1, 16, 16, 300, 1, 32, 16, 0, 7, 7, 7, 7, 7, 7])
        run = array("I", [7] * 28)
        self.assertEqual(umarekoza.read_partly(TABLE, M1, run), (None, 7))
        self.assertEqual(run[24:].tolist(), [1, 48, 16, 9])
        refusal, count = umarekoza.read_partly(TABLE, M1, array("I", [7] * 27))
        self.assertEqual(((refusal.number, refusal.place), count), ((23, 0), 0))

    def test_zero_divisors(self):
        table = umarekoza.table_of(TAG.replace(b"K == 7", b"7 / K == 2"))
        self.assertEqual(umarekoza.fields_of(table, b"\x03"), [Field(True, 0, 8, 3)])
        self.refused(29, 1, umarekoza.fields_of, table, b"\0")
        self.assertEqual(umarekoza.listing(table, b"\0"), b"refused 29 at 1\n")

    def test_fields_by_name_and_index(self):
        labels = ["Version", "On Loan", "Cells", "Blade", "Borrower", "Readings", "Sum"]
        self.assertEqual([umarekoza.field_label(TABLE, index) for index in range(8)], labels + [None])
        shorts = ["V", "L", "N", None, "Bor", None, None, None]
        self.assertEqual([umarekoza.field_short(TABLE, index) for index in range(8)], shorts)
        for index, label in enumerate(labels):
            self.assertEqual(umarekoza.find_field(TABLE, label), index)
        self.assertEqual(umarekoza.find_field(TABLE, b"Bor"), 4)
        self.refused(30, 0, umarekoza.find_field, TABLE, "bor")
        self.refused(30, 0, umarekoza.find_field, TABLE, "")
        self.refused(21, 0, umarekoza.find_field, b"no table", "Bor")
        self.assertEqual(umarekoza.count_fields(TABLE), 7)
        self.refused(21, 0, umarekoza.count_fields, b"")
        kinds = [umarekoza.field_kind(TABLE, index) for index in range(7)]
        self.assertEqual(kinds, [Kind.FIXED] * 5 + [Kind.MEASURED, Kind.FIXED])
        self.refused(30, 0, umarekoza.field_kind, TABLE, 7)
        self.refused(21, 0, umarekoza.field_kind, b"", 0)

    def test_how_often_fields_are_read(self):
        self.assertEqual([umarekoza.count_readers(TABLE, index) for index in range(7)], [0, 1, 1, 0, 0, 0, 0])
        more = umarekoza.table_of(BLADE.replace(b"Sum: 2 bytes.", b"Sum: 2 bytes; L == 1 || V + V < N."))
        self.assertEqual([umarekoza.count_readers(more, index) for index in range(7)], [2, 2, 2, 0, 0, 0, 0])
        for index in (7, 2**64, 2**80):
            self.refused(30, 0, umarekoza.count_readers, TABLE, index)
        self.refused(21, 0, umarekoza.count_readers, OLD_TAG_TABLE, 0)
        self.refused(21, 0, umarekoza.count_readers, b"", 9)

    def test_old_tables(self):
        self.refused(21, 0, umarekoza.check_table, OLD_TAG_TABLE)
        self.assertEqual(umarekoza.converted(OLD_TAG_TABLE), TAG_TABLE)
        out = bytearray(b"\xee" * 50)
        self.refused(21, 0, umarekoza.convert_table, TAG_TABLE, out)
        self.refused(11, 0, umarekoza.convert_table, OLD_TAG_TABLE, memoryview(out)[:45])
        self.assertEqual(out, b"\xee" * 50)
        self.assertEqual(umarekoza.convert_table(OLD_TAG_TABLE, out), 46)
        self.assertEqual(out, TAG_TABLE + b"\xee" * 4)
        self.refused(21, 0, umarekoza.converted, b"no table")
        self.assertRaises(ValueError, umarekoza.convert_table, out, out)

    def test_fields_cut_out_and_put_in(self):
        # The records of Borrower, and the table of the page without it.
        borrower = TABLE[129:164]
        page = BLADE.replace(b"|           Borrower            |\n+-+-+-+-+-+-+-+-+-+-+-+-+-+-+-+-+\n", b"")
        shorter = umarekoza.table_of(page.replace(b"Borrower (Bor): 2 bytes; present only when L == 1.\n", b""))
        self.assertEqual(umarekoza.without_fields(TABLE, 4, 4), shorter)
        self.assertEqual(umarekoza.with_fields(shorter, 4, borrower), TABLE)
        self.assertEqual(umarekoza.with_fields(shorter, 4, borrower[:4] + b"\xee\xee" + borrower[6:]), TABLE)
        for first, last in ((0, 7), (1, 0), (7, 7), (0, 2**64), (2**80, 2**80)):
            self.refused(30, 0, umarekoza.without_fields, TABLE, first, last)
        self.refused(31, 5, umarekoza.without_fields, TABLE, 1, 1)
        self.refused(31, 6, umarekoza.without_fields, TABLE, 0, 4)
        self.refused(34, 0, umarekoza.without_fields, TABLE, 0, 6)
        self.refused(21, 0, umarekoza.without_fields, b"", 0, 0)
        for index, records in ((7, borrower), (4, b""), (2**64, borrower)):
            self.refused(30, 0, umarekoza.with_fields, shorter, index, records)
        for index, records in ((3, borrower), (4, borrower[:-1]), (4, 2 * borrower), (4, TAG_TABLE)):
            self.refused(34, 0, umarekoza.with_fields, shorter, index, records)
        self.refused(21, 0, umarekoza.with_fields, b"", 0, borrower)

    def test_outputs_of_cut_and_put(self):
        borrower, out = TABLE[129:164], bytearray(b"\xee" * 220)
        self.refused(11, 0, umarekoza.cut_fields, TABLE, 4, 4, memoryview(out)[:179])
        self.refused(31, 6, umarekoza.cut_fields, TABLE, 2, 2, out)
        self.assertEqual(out, b"\xee" * 220)
        self.assertEqual(umarekoza.cut_fields(TABLE, 4, 4, out), 180)
        shorter = bytes(out[:180])
        self.assertEqual(out[180:], b"\xee" * 40)
        out = bytearray(b"\xee" * 220)
        self.refused(11, 0, umarekoza.put_fields, shorter, 4, borrower, memoryview(out)[:214])
        self.assertEqual(out, b"\xee" * 220)
        self.assertEqual(umarekoza.put_fields(shorter, 4, borrower, out), 215)
        self.assertEqual(out, TABLE + b"\xee" * 5)
        self.assertRaises(ValueError, umarekoza.cut_fields, out, 4, 4, out)
        self.assertRaises(ValueError, umarekoza.put_fields, shorter, 4, memoryview(out)[:35], out)
        self.assertRaises(ValueError, umarekoza.cut_fields, TABLE, -1, 4, out)

    def test_labels_are_names_too(self):
        self.assertEqual(umarekoza.table_of(BLADE.replace(b"Readings: N", b"Readings: Cells")), TABLE)
        self.refused(9, 22, umarekoza.table_of, BLADE.replace(b"Readings: N", b"Readings: Sum"))
        self.refused(8, 21, umarekoza.table_of, BLADE.replace(b"(Bor)", b"(Cells)"))
        both = umarekoza.table_of(BLADE.replace(b"Blade: 1", b"Blade (Blade): 1"))
        self.assertEqual((umarekoza.find_field(both, "Blade"), umarekoza.field_short(both, 3)), (3, "Blade"))
        self.refused(21, 0, umarekoza.check_table, TABLE.replace(b"\x03\0Bor", b"\x03\0Sum"))

    def test_rows_of_several_lines(self):
        row, blank = b"| V |L|  Cells  |     Blade     |\n", b"|   | |         |               |\n"
        self.assertEqual(umarekoza.table_of(BLADE.replace(row, blank + row + blank)), TABLE)
        self.refused(3, 10, umarekoza.table_of, BLADE.replace(row, row + 4 * blank))
        self.refused(3, 7, umarekoza.table_of, BLADE.replace(row, row + blank.replace(b"| |", b"|  ")))
        self.refused(3, 7, umarekoza.table_of, BLADE.replace(row, blank + blank))

    def test_an_index_is_never_taken_for_another(self):
        for index in (7, 2**63, 2**64, 2**64 + 4, 2**80):
            self.assertIsNone(umarekoza.field_label(TABLE, index))
            self.assertEqual(umarekoza.field_bytes(TABLE, M1, index), b"")
        self.assertRaises(ValueError, umarekoza.field_label, TABLE, -1)
        self.assertRaises(TypeError, umarekoza.field_label, TABLE, "1")


class Buffers(unittest.TestCase):
    def test_a_part_is_of_the_packet_itself(self):
        packet = bytearray(M1)
        part = umarekoza.field_bytes(TABLE, packet, 5)
        self.assertEqual(part, b"\xaa\xbb")
        packet[4] = 0x11
        self.assertEqual(part, b"\x11\xbb")
        self.assertEqual(umarekoza.field_bytes(TABLE, M2, 4), b"")
        self.assertEqual(umarekoza.field_bytes(TABLE, b"", 4), b"")

    def test_bytes_of_every_sort(self):
        stretched = memoryview(b"-" + M1 + b"-")[1:9]
        for packet in (M1, bytearray(M1), memoryview(M1), stretched, array("B", M1), array("H", M1)):
            for table in (TABLE, bytearray(TABLE), memoryview(TABLE)):
                self.assertEqual(umarekoza.listing(table, packet), M1_LISTING)
                self.assertEqual(umarekoza.field_bytes(table, packet, 5), b"\xaa\xbb")

    def test_a_mapped_file(self):
        with tempfile.TemporaryFile() as file:
            file.write(M1)
            file.flush()
            with mmap.mmap(file.fileno(), 0, access=mmap.ACCESS_READ) as mapped:
                self.assertEqual(umarekoza.listing(TABLE, mapped), M1_LISTING)

    def test_outputs_of_every_sort(self):
        room = memoryview(bytearray(62))
        self.assertEqual(umarekoza.write_table(TAG, room[8:54]), 46)
        self.assertEqual(bytes(room), bytes(8) + TAG_TABLE + bytes(8))
        numbers = memoryview(bytearray(4 * 28)).cast("I")
        self.assertEqual(umarekoza.read_packet(TABLE, M1, numbers), 64)
        self.assertEqual(numbers[16:20].tolist(), [1, 16, 16, 300])

    def test_wrong_buffers(self):
        self.assertRaises(BufferError, umarekoza.write_table, TAG, bytes(46))
        self.assertRaises(TypeError, umarekoza.table_of, "A Tag")
        self.assertRaises(TypeError, umarekoza.table_of, None)
        self.assertRaises(BufferError, umarekoza.listing, TABLE, memoryview(M1)[::2])
        self.assertRaises(TypeError, umarekoza.read_packet, TABLE, M1, bytearray(112))
        self.assertRaises(TypeError, umarekoza.read_packet, TABLE, M1, array("i", [0] * 28))
        shifted = memoryview(bytearray(4 * 28 + 4))[1:-3].cast("I")
        self.assertRaises(ValueError, umarekoza.read_packet, TABLE, M1, shifted)

    def test_buffers_that_overlap(self):
        buffer = bytearray(TAG + bytes(100))
        whole = memoryview(buffer)
        self.assertRaises(ValueError, umarekoza.write_table, whole[: len(TAG)], whole[len(TAG) - 1 :])
        self.assertRaises(ValueError, umarekoza.write_table, whole, whole)
        self.assertEqual(umarekoza.write_table(whole[: len(TAG)], whole[len(TAG) :]), 46)
        self.assertEqual(whole[len(TAG) :][:46], TAG_TABLE)

    def test_buffers_are_given_back(self):
        packet = bytearray(M1)
        self.assertEqual(umarekoza.listing(TABLE, packet), M1_LISTING)
        packet.append(0)
        self.assertEqual(umarekoza.listing(TABLE, packet), b"refused 28 at 0\n")


class Constants(unittest.TestCase):
    def test_limits_of_the_header(self):
        header = (ROOT / "include/umarekoza.h").read_text()
        limits = dict(re.findall(r"#define UMAREKOZA_(\w+_(?:MOST|BYTES)) (\d+)", header))
        self.assertEqual(len(limits), 8)
        for name, limit in limits.items():
            self.assertEqual(getattr(umarekoza, name), int(limit))

    def test_version(self):
        versions = re.findall(r'^version = "(.*)"$', (ROOT / "Cargo.toml").read_text(), re.MULTILINE)
        self.assertEqual(versions, [umarekoza.VERSION])


if __name__ == "__main__":
    unittest.main()
