"""Packet diagrams as a person writes them, turned into field tables, and packets read by a table: calls of the proved
library by ctypes. Document 01 has the rules, the numbers and the places; only 29, for a zero divisor, 30, for a field
that is not there, 31, for a field that is still read, and 34, for fields that do not go together, are document 02's.

A text, table, packet or name is anything with the bytes of one: bytes, bytearray, memoryview, mmap; none is copied. A
name may be a str too. What is written to is a bytearray or another buffer that may be written, and for a run one of
unsigned 32-bit numbers, such as array('I').

The shared library is libumarekoza.so.0, or the file that the environment names in UMAREKOZA_LIBRARY.

    >>> import pathlib, umarekoza
    >>> table = umarekoza.table_of(pathlib.Path('examples/pages/blade-report.txt').read_bytes())
    >>> packet = bytes.fromhex('6207012caabb0009')
    >>> umarekoza.fields_of(table, packet)[umarekoza.find_field(table, 'Borrower')]
    Field(present=True, offset=16, width=16, value=300)
    >>> umarekoza.fields_of(table, packet[:7])
    Traceback (most recent call last):
    umarekoza.Refusal: refused 24 at 7

A page that comes in pieces is read by Pieces.
"""

import enum
from array import array
from itertools import takewhile
from typing import NamedTuple

from . import _calls
from ._calls import Refusal
from ._limits import (
    FIELDS_MOST, LINE_MOST, LISTING_MOST, PACKET_MOST, RUN_MOST, STATE_BYTES, TABLE_MOST, TEXT_MOST,
)  # fmt: skip
from ._pieces import Pieces

__all__ = [
    "FIELDS_MOST", "Field", "Kind", "LINE_MOST", "LISTING_MOST", "PACKET_MOST", "Pieces", "RUN_MOST", "Refusal",
    "STATE_BYTES", "TABLE_MOST", "TEXT_MOST", "VERSION", "check_table", "convert_table", "converted", "count_fields",
    "count_readers", "cut_fields", "field_bytes", "field_kind", "field_label", "field_short", "fields_of", "find_field",
    "list_packet", "listing", "put_fields", "read_packet", "read_partly", "table_of", "with_fields", "without_fields",
    "write_table",
]  # fmt: skip

VERSION = "0.1.0"

# No number of a reading, which is 0 or 1 where a field begins.
_UNTOUCHED = 0xFFFFFFFF


class Kind(enum.Enum):
    """The kind of a field; one that is measured or the rest is long and has no value."""

    FIXED = 12
    MEASURED = 13
    REST = 14


class Field(NamedTuple):
    """One field of a reading. Offset and width are in bits; an absent field has 0 for all, a long one the value 0."""

    present: bool
    offset: int
    width: int
    value: int


def write_table(text, out):
    """Writes the table of a page text to the start of out and answers its length. Refuses by 1 to 11."""
    return _calls.write_table(text, out)


def table_of(text):
    """The table of a page text, as bytes. Refuses by 1 to 10."""
    out = bytearray(TABLE_MOST)
    return bytes(memoryview(out)[: write_table(text, out)])


def check_table(table):
    """Refuses a table that is not good, by 21."""
    _calls.check_table(table)


def read_packet(table, packet, run):
    """Writes four numbers a field to the start of run: present (1 or 0), offset, width and value. Answers the bits of
    the packet. Refuses by 21 to 29."""
    return _calls.read_packet(table, packet, run)


def read_partly(table, packet, run):
    """Reads a packet as far as it goes. Answers the refusal, or None where it is accepted, and how many fields' numbers
    are at the start of run: those before the first refused one, or all."""
    return _calls.read_partly(table, packet, run)


def fields_of(table, packet):
    """The fields of a packet, in the order of the table. Refuses by 21, 22 and 24 to 29."""
    run = array("I", [_UNTOUCHED]) * RUN_MOST
    read_packet(table, packet, run)
    fields = (Field._make(run[at : at + 4]) for at in range(0, RUN_MOST, 4))
    touched = takewhile(lambda field: field.present != _UNTOUCHED, fields)
    return [field._replace(present=field.present == 1) for field in touched]


def field_bytes(table, packet, index):
    """The bytes of a field, as a memoryview of that very part of the packet: if the packet is accepted and the field is
    present, starts on a byte and has whole bytes. Else the empty part at the packet's start."""
    return _calls.part(packet, _calls.field_bytes(table, packet, index))


def list_packet(table, packet, out):
    """Writes the listing of a packet, or the line of its refusal, to the start of out and answers its length. Refuses
    by 11 if out is too short."""
    return _calls.list_packet(table, packet, out)


def listing(table, packet):
    """The listing of a packet, or the line of its refusal, as bytes."""
    out = bytearray(LISTING_MOST)
    return bytes(memoryview(out)[: list_packet(table, packet, out)])


def find_field(table, name):
    """The index, from 0, of the field with this label or short name; no two fields of a good table share a name.

    Refuses by 21, and by 30 if there is none.
    """
    return _calls.find_field(table, name.encode() if isinstance(name, str) else name)


def field_label(table, index):
    """The label of a field; None if the table is not good or has no such field."""
    return _word(table, _calls.field_label(table, index))


def count_fields(table):
    """The number of a table's fields. Refuses by 21."""
    return _calls.count_fields(table)


def field_kind(table, index):
    """The kind of a field. Refuses by 21, and by 30 if there is no such field."""
    return Kind(_calls.field_kind(table, index))


def count_readers(table, index):
    """How many places read a field: the references to it in the expressions of other fields, every one counted.

    Refuses by 21, and by 30 if there is no such field.
    """
    return _calls.count_readers(table, index)


def convert_table(old, out):
    """Writes the new table of an old one, whose records keep no number of readers, to the start of out and answers its
    length. Refuses by 21 what is no good table by the rules for old ones, and by 11 if out is too short."""
    return _calls.convert_table(old, out)


def converted(old):
    """The new table of an old one, as bytes. Refuses by 21."""
    out = bytearray(TABLE_MOST)
    return bytes(memoryview(out)[: convert_table(old, out)])


def cut_fields(table, first, last, out):
    """Writes the table of a good one without its fields from the index first to the index last, both cut out, to the
    start of out and answers its length. Later fields get the indexes that they then have, in what reads them too.

    Refuses by 21; by 30 if first is over last or last is no field's index; by 31 at the first field that is left and
    reads one that is cut out, counted from 1 as the table is; by 34 if what is left is no good table for another
    reason; by 11 if out is too short.
    """
    return _calls.cut_fields(table, first, last, out)


def without_fields(table, first, last):
    """The table of a good one without its fields from the index first to the index last, as bytes. Refuses by 21, 30,
    31 and 34."""
    out = bytearray(TABLE_MOST)
    return bytes(memoryview(out)[: cut_fields(table, first, last, out)])


def put_fields(table, index, records, out):
    """Writes the table of a good one with the fields of records before the field of an index, or behind the last one
    where the index is the number of fields, to the start of out and answers its length. Later fields get the indexes
    that they then have, in what reads them too. References in the records are by the numbering of the new table; the
    numbers of readers in them may be any, and the new table has the right ones.

    Refuses by 21; by 30 if there are no records or the index is over the number of fields; by 34 if the records are no
    whole ones of fields or the fields are no good table together; by 11 if out is too short.
    """
    return _calls.put_fields(table, index, records, out)


def with_fields(table, index, records):
    """The table of a good one with the fields of records before the field of an index, or behind the last one, as
    bytes. Refuses by 21, 30 and 34."""
    out = bytearray(TABLE_MOST)
    return bytes(memoryview(out)[: put_fields(table, index, records, out)])


def field_short(table, index):
    """The short name of a field; None if it has none, the table is not good, or there is no such field."""
    return _word(table, _calls.field_short(table, index))


def _word(table, span):
    return str(_calls.part(table, span), "ascii") or None
