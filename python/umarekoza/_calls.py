"""The functions of the shared library, as the header declares them."""

import ctypes
import os

from ._buffers import Lent, index_of


class Refusal(Exception):
    """A refusal: its number, and its place (a line of a text, a field of a packet or table, or 0)."""

    def __init__(self, number, place):
        super().__init__(number, place)
        self.number = number
        self.place = place

    def __str__(self):
        return f"refused {self.number} at {self.place}"


class _Answer(ctypes.Structure):
    _fields_ = [("number", ctypes.c_uint32), ("place", ctypes.c_uint32), ("length", ctypes.c_uint64)]

    def settled(self):
        """The length that goes with an acceptance; raises a refusal."""
        if self.number:
            raise Refusal(self.number, self.place)
        return self.length


class _Partial(ctypes.Structure):
    _fields_ = [*_Answer._fields_, ("count", ctypes.c_uint64)]


class _Span(ctypes.Structure):
    _fields_ = [("offset", ctypes.c_uint64), ("length", ctypes.c_uint64)]


_library = ctypes.CDLL(os.environ.get("UMAREKOZA_LIBRARY") or "libumarekoza.so.0")


_BUFFER = [ctypes.c_void_p, ctypes.c_size_t]
_NUMBER = [ctypes.c_size_t]


def _declared(name, answer, arguments):
    function = getattr(_library, "umarekoza_" + name)
    function.restype = answer
    function.argtypes = arguments
    return function


def _entry(name, answer, buffers, index=False):
    return _declared(name, answer, _BUFFER * buffers + _NUMBER * index)


_write_table = _entry("write_table", _Answer, 2)
_check_table = _entry("check_table", _Answer, 1)
_read_packet = _entry("read_packet", _Answer, 3)
_field_bytes = _entry("field_bytes", _Span, 2, index=True)
_list_packet = _entry("list_packet", _Answer, 3)
_find_field = _entry("find_field", _Answer, 2)
_field_label = _entry("field_label", _Span, 1, index=True)
_field_short = _entry("field_short", _Span, 1, index=True)
_count_fields = _entry("count_fields", _Answer, 1)
_field_kind = _entry("field_kind", _Answer, 1, index=True)
_count_readers = _entry("count_readers", _Answer, 1, index=True)
_convert_table = _entry("convert_table", _Answer, 2)
_read_partly = _entry("read_partly", _Partial, 3)
_cut_fields = _declared("cut_fields", _Answer, _BUFFER + 2 * _NUMBER + _BUFFER)
_text_start = _entry("text_start", None, 1)
_text_piece = _entry("text_piece", None, 2)
_text_end = _entry("text_end", _Answer, 2)
_put_fields = _declared("put_fields", _Answer, _BUFFER + _NUMBER + 2 * _BUFFER)


def write_table(text, out):
    with Lent() as lent:
        text, out = lent.reads(text), lent.writes(out)
        lent.see_that_none_overlap()
        return _write_table(*text, *out).settled()


def check_table(table):
    with Lent() as lent:
        return _check_table(*lent.reads(table)).settled()


def read_packet(table, packet, run):
    with Lent() as lent:
        table, packet, (run, length) = lent.reads(table), lent.reads(packet), lent.writes_numbers(run)
        lent.see_that_none_overlap()
        return _read_packet(*table, *packet, run, length // 4).settled()


def read_partly(table, packet, run):
    with Lent() as lent:
        table, packet, (run, length) = lent.reads(table), lent.reads(packet), lent.writes_numbers(run)
        lent.see_that_none_overlap()
        read = _read_partly(*table, *packet, run, length // 4)
    return Refusal(read.number, read.place) if read.number else None, read.count


def field_bytes(table, packet, index):
    with Lent() as lent:
        return _field_bytes(*lent.reads(table), *lent.reads(packet), index_of(index))


def list_packet(table, packet, out):
    with Lent() as lent:
        table, packet, out = lent.reads(table), lent.reads(packet), lent.writes(out)
        lent.see_that_none_overlap()
        return _list_packet(*table, *packet, *out).settled()


def find_field(table, name):
    with Lent() as lent:
        return _find_field(*lent.reads(table), *lent.reads(name)).settled()


def field_label(table, index):
    with Lent() as lent:
        return _field_label(*lent.reads(table), index_of(index))


def field_short(table, index):
    with Lent() as lent:
        return _field_short(*lent.reads(table), index_of(index))


def count_fields(table):
    with Lent() as lent:
        return _count_fields(*lent.reads(table)).settled()


def field_kind(table, index):
    with Lent() as lent:
        return _field_kind(*lent.reads(table), index_of(index)).settled()


def count_readers(table, index):
    with Lent() as lent:
        return _count_readers(*lent.reads(table), index_of(index)).settled()


def convert_table(old, out):
    with Lent() as lent:
        old, out = lent.reads(old), lent.writes(out)
        lent.see_that_none_overlap()
        return _convert_table(*old, *out).settled()


def cut_fields(table, first, last, out):
    with Lent() as lent:
        table, out = lent.reads(table), lent.writes(out)
        lent.see_that_none_overlap()
        return _cut_fields(*table, index_of(first), index_of(last), *out).settled()


def put_fields(table, index, records, out):
    with Lent() as lent:
        table, records, out = lent.reads(table), lent.reads(records), lent.writes(out)
        lent.see_that_none_overlap()
        return _put_fields(*table, index_of(index), *records, *out).settled()


def text_start(state):
    with Lent() as lent:
        _text_start(*lent.writes(state))


def text_piece(state, piece):
    with Lent() as lent:
        state, piece = lent.writes(state), lent.reads(piece)
        lent.see_that_none_overlap()
        _text_piece(*state, *piece)


def text_end(state, out):
    with Lent() as lent:
        state, out = lent.reads(state), lent.writes(out)
        lent.see_that_none_overlap()
        return _text_end(*state, *out).settled()


def part(whole, span):
    """The part of a buffer that a span is, without a copy."""
    view = memoryview(whole)
    if view.ndim != 1 or view.format != "B":
        view = view.cast("B")
    return view[span.offset : span.offset + span.length]
