"""The stored cases of vectors/: every call that has requests there answers each as it stands."""

import unittest
from array import array
from pathlib import Path

import umarekoza
from umarekoza import Refusal

VECTORS = Path(__file__).resolve().parents[2] / "vectors"
# How many lines each file has.
FILES = {
    "base2": 200, "large": 24, "r9": 150, "r1": 300, "r4": 400, "r5": 300, "tables": 512, "packets": 494, "spelled": 94,
    "edge": 389, "mutated": 540, "r10": 47, "r2": 181, "r7": 187,
}  # fmt: skip


def from_hex(word):
    return bytes.fromhex(word.lstrip("-"))


def text(room, page):
    out = bytearray(int(room))
    return "ok " + out[: umarekoza.write_table(from_hex(page), out)].hex()


def table(stored):
    umarekoza.check_table(from_hex(stored))
    return "ok"


def read(length, stored, packet):
    stored, packet = from_hex(stored), from_hex(packet)
    bits = umarekoza.read_packet(stored, packet, array("I", [0] * int(length)))
    fields = umarekoza.fields_of(stored, packet)
    return " ".join([f"ok {bits}"] + ["%d,%d,%d,%d" % field for field in fields])


def part(index, stored, packet):
    packet = bytearray(from_hex(packet))
    found = umarekoza.field_bytes(from_hex(stored), packet, int(index))
    length = len(found)
    if not length:
        return None
    before = bytes(packet)
    found[0] ^= 0xFF
    return "part %d %d" % (next(at for at in range(len(packet)) if packet[at] != before[at]), length)


def listed(stored, packet):
    return umarekoza.listing(from_hex(stored), from_hex(packet)).hex()


def readers(index, stored):
    return "ok %d" % umarekoza.count_readers(from_hex(stored), int(index))


def convert(room, stored):
    out = bytearray(int(room))
    return "ok " + out[: umarekoza.convert_table(from_hex(stored), out)].hex()


def cut(first, last, room, stored):
    out = bytearray(int(room))
    return "ok " + out[: umarekoza.cut_fields(from_hex(stored), int(first), int(last), out)].hex()


def put(index, room, stored, records):
    out = bytearray(int(room))
    return "ok " + out[: umarekoza.put_fields(from_hex(stored), int(index), from_hex(records), out)].hex()


def pieces(room, words):
    out, given = bytearray(int(room)), umarekoza.Pieces()
    for word in words.split(","):
        given.piece(from_hex(word))
    return "ok " + out[: given.end(out)].hex()


CALLS = {
    "text": text, "pieces": pieces, "table": table, "read": read, "part": part, "list": listed, "readers": readers,
    "convert": convert, "cut": cut, "put": put,
}  # fmt: skip


def answer(request):
    call, *words = request.split(" ")
    try:
        return CALLS[call](*words)
    except Refusal as refusal:
        return f"refused {refusal.number} {refusal.place}"


class Stored(unittest.TestCase):
    def test_stored_cases_are_answered(self):
        for name, count in FILES.items():
            lines = (VECTORS / f"{name}.tsv").read_text().splitlines()
            self.assertEqual(len(lines), count)
            for number, line in enumerate(lines, 1):
                request, expected = line.split("\t")
                given = answer(request)
                # The place of an empty part shows in no byte.
                if given is None:
                    self.assertRegex(expected, r"^part \d+ 0$", f"{name}.tsv, line {number}")
                else:
                    self.assertEqual(given, expected, f"{name}.tsv, line {number}")
