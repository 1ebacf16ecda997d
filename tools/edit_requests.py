"""The requests of crates/runs on fields that are cut out and put in, with their answers: those of the blade report and
of a small chain of fields, of as many fields as may be, and those of the vectors. What is due is the table of the fields
without the run, or with it, made field by field; an output has just room for it, a byte less, or more.
"""
from packet_requests import chosen
from runs import (
    BLADE, BLADE_FIELDS, OLD_TAG, TAG, both, field, fixed, full, measured, number, packed, records, rest, spelled,
    table,
)  # fmt: skip

MORE = 60000  # more than any table has


# A cut with room enough, with just enough and with a byte less; `left` is the table that is due.
def cut(stored, first, last, left):
    words = stored.hex()
    yield "cut %d %d %d %s" % (first, last, len(left), words), "ok " + left.hex()
    yield "cut %d %d %d %s" % (first, last, MORE, words), "ok " + left.hex()
    yield "cut %d %d %d %s" % (first, last, len(left) - 1, words), "refused 11 0"


def put(stored, index, new, longer):
    words = "%s %s" % (stored.hex(), spelled(new))
    yield "put %d %d %s" % (index, len(longer), words), "ok " + longer.hex()
    yield "put %d %d %s" % (index, MORE, words), "ok " + longer.hex()
    yield "put %d %d %s" % (index, len(longer) - 1, words), "refused 11 0"


def no_cut(stored, first, last, refusal, room=0):
    yield "cut %d %d %d %s" % (first, last, room, stored.hex()), "refused " + refusal


def no_put(stored, index, new, refusal, room=0):
    yield "put %d %d %s %s" % (index, room, stored.hex(), spelled(new)), "refused " + refusal


# The blade report: without Borrower, Readings, Sum, and all but Sum. None of these is read by what is left, and what
# they read stands before them, so no index in an expression changes.
def marked_blade():
    blade = list(BLADE_FIELDS)
    for first, last in ((4, 4), (5, 5), (6, 6), (5, 6), (4, 6), (0, 5)):
        left = table(b"Blade Report", 16, *blade[:first], *blade[last + 1 :])
        yield from cut(BLADE, first, last, left)
        for numbers in (0, 1, 65535):
            yield from put(left, first, records(blade[first : last + 1], numbers), BLADE)
    yield from no_cut(BLADE[:-1], 4, 4, "21 0", MORE)
    yield from no_cut(bytes.fromhex(OLD_TAG), 9, 0, "21 0")
    for first, last in ((1, 0), (7, 7), (0, 7), (6, 5), (0, 65536), (9999999, 9999999)):
        yield from no_cut(BLADE, first, last, "30 0")
    # Borrower reads On Loan, and Readings reads Cells.
    for first, last, place in ((1, 1, 5), (2, 2, 6), (0, 3, 5), (1, 3, 5), (0, 4, 6), (2, 4, 6)):
        yield from no_cut(BLADE, first, last, "31 %d" % place)
        yield from no_cut(BLADE, first, last, "31 %d" % place, MORE)
    for first, last in ((0, 0), (3, 3), (3, 4), (0, 6)):
        yield from no_cut(BLADE, first, last, "34 0", MORE)
    yield from no_cut(TAG, 0, 0, "34 0", MORE)


# A field of a byte, one that its own constraint reads, and one that reads that in its width.
A, N, D = fixed(b"A", b"", 8), fixed(b"N", b"", 8, both("<=", field(1), number(9))), measured(b"D", b"", 8, field(1))
N0, D0 = fixed(b"N", b"", 8, both("<=", field(0), number(9))), measured(b"D", b"", 8, field(0))
CHAIN, SHORTER = table(b"Chain", 8, A, N, D), table(b"Chain", 8, N0, D0)


def marked_chain():
    yield from cut(CHAIN, 0, 0, SHORTER)
    yield from cut(CHAIN, 2, 2, table(b"Chain", 8, A, N))
    yield from cut(CHAIN, 1, 2, table(b"Chain", 8, A))
    yield from no_cut(CHAIN, 1, 1, "31 3")
    yield from no_cut(CHAIN, 0, 1, "31 3")
    for numbers in (0, 7, 65535):
        yield from put(SHORTER, 0, records([A], numbers), CHAIN)
        yield from put(table(b"Chain", 8, A, N), 2, records([D], numbers), CHAIN)
        yield from put(table(b"Chain", 8, A), 1, records([N, D], numbers), CHAIN)
    # Between the two, what reads the second field reads it by its new index.
    behind = table(b"Chain", 8, N0, A, D0)
    yield from put(SHORTER, 1, records([A], 3), behind)
    yield from cut(behind, 1, 1, SHORTER)


# Records that are none, or not whole; the head's and the end's; old ones; wrong places and wrong fields.
def marked_records():
    one = records([A], 0)
    yield from no_put(SHORTER[:-1], 0, one, "21 0", MORE)
    for index, new in ((0, b""), (2, b""), (3, one), (3, one[:5]), (256, one), (9999999, one)):
        yield from no_put(SHORTER, index, new, "30 0", MORE)
    ends = (one[:-1], one[:3], one[:1], one + b"\0", one + one[:4], b"\0", b"\0\0\0\0")
    lengths = (b"\x10" + one[1:], b"\x12" + one[1:], b"\xff\xff" + one[2:], b"\x22" + one[1:] + one)
    kinds = (one[:2] + bytes([kind]) + one[3:] for kind in (0, 1, 2, 3, 4, 5, 11, 13, 14, 15))
    wholes = (TAG[:13], TAG[-4:], TAG, bytes.fromhex(OLD_TAG)[13:-4], one + TAG[-4:])
    for new in (*ends, *lengths, *kinds, *wholes):
        yield from no_put(SHORTER, 0, new, "34 0", MORE)
    wrong = (
        fixed(b"N", b"", 8),  # a label that is there
        fixed(b"X", b"D", 8),  # a short name that is a label there
        fixed(b"X", b"", 4),  # half a row
        fixed(b"X", b"", 9),  # over a row
        fixed(b"X", b"", 0),
        fixed(b"X", b"", 8, both("<=", field(1), number(9))),  # a field that is later in the result
        fixed(b"X", b"", 8, field(0)),  # no truth
        fixed(b"X Y", b"", 8, both("<=", field(0), number(9))),  # no name to read it by
        measured(b"X", b"", 8, field(0)),  # itself
        rest(b"X", b""),  # before a measured field
    )
    for new in wrong:
        yield from no_put(SHORTER, 0, records([new], 0), "34 0", MORE)
    yield from no_put(SHORTER, 2, records([A, A], 0), "34 0", MORE)


# As many fields as may be, less a run of them; and one more.
def limits():
    labels = [label for label, _ in full(128)]
    bytes_of = lambda names: [fixed(name, b"", 8) for name in names]
    all_of = table(b"Full", 8, *bytes_of(labels))
    for first, last in ((0, 0), (127, 127), (0, 126), (1, 127), (63, 64), (32, 95)):
        left = table(b"Full", 8, *bytes_of(labels[:first] + labels[last + 1 :]))
        yield list(cut(all_of, first, last, left))[0]
        yield list(put(left, first, records(bytes_of(labels[first : last + 1]), 9), all_of))[0]
    yield from no_cut(all_of, 0, 127, "34 0", MORE)
    yield from no_cut(all_of, 0, 128, "30 0", MORE)
    yield from no_put(all_of, 128, records([A], 0), "34 0", MORE)
    yield from no_put(all_of, 129, records([A], 0), "30 0", MORE)
    yield from no_put(TAG, 0, records(bytes_of(labels), 0), "34 0", MORE)


def files(vectors):
    marked = [*marked_blade(), *marked_chain(), *marked_records()]
    return {"marked_edits": marked, **packed("edits", [*limits(), *chosen(vectors, "edits")])}
