"""The requests of crates/runs on texts, with their answers: the Tag and the blade report of document 01, a TCP header
and a QUIC long header, with outputs that are exactly long enough, too short and longer; texts of as many fields as may
be, and of more, of rows of several lines too; texts with a line as long as may be, and longer; and those of the
vectors.
"""
from runs import BLADE, TAG, both, field, fixed, full, full_table, measured, number, packed, spelled, stored, table, tcp

VECTORS = ("base2", "large", "r9", "r1", "r5", "spelled", "edge", "mutated", "r10", "r2", "r7")
# So many texts of each group are taken, the shortest, and the longest accepted one: of r9.tsv, r1.tsv, r5.tsv, r2.tsv,
# r7.tsv and of the others.
TAKEN_OF = {
    "r9": {"ok": 4, "refused 3": 12, "refused 2": 2, "refused 5": 2},
    "r1": {"ok": 40, "many": 4, "refused 3": 70, "refused 7": 8, "refused 4": 4, "refused 11": 4},
    "r5": {"ok": 18, "many": 5},
    "r2": {"refused 8": 16, "refused 9": 8, "refused 5": 8, "refused 11": 4},
    "r7": {"refused 5": 10, "refused 6": 3, "refused 9": 8, "refused 11": 4},
}
TAKEN = {"ok": 64, "many": 5, "refused 1": 8, "refused 4": 12}
REFUSED = 12  # of every other group

# The source document's QUIC long header as far as document 01 takes it: a cell shows a short name that fits it, and
# what has no fixed width stands in long rows.
LONG_HEADER = table(
    b"Long Header",
    8,
    fixed(b"Header Form", b"H", 1, both("==", field(0), number(1))),
    fixed(b"Fixed Bit", b"F", 1, both("==", field(1), number(1))),
    fixed(b"Long Packet Type", b"T", 2),
    fixed(b"Reserved Bits", b"R", 2),
    fixed(b"Packet Number Length", b"P", 2),
    measured(b"Version ID", b"VID", 8, both("*", number(4), number(1))),
    fixed(b"DCID Len", b"DLen", 8, both("<=", field(6), number(20))),
    measured(b"Destination Connection ID", b"DCID", 8, field(6)),
    fixed(b"SCID Len", b"SLen", 8, both("<=", field(8), number(20))),
    measured(b"Source Connection ID", b"SCID", 8, field(8)),
)

# Texts: NAME and W, the rows, `+` for each border below one, and the field lines.
TAG_TEXT = """Tag 8
|       K       |
+

Kind (K): 1 byte; K == 7.
"""
BLADE_TEXT = """Blade Report 16
| V |L|  Cells  |     Blade     |
+
|           Borrower            |
+
:            Readings           :
+
|             Sum               |
+

Version (V): 2 bits; V == 1.
On Loan (L): 1 bit.
Cells (N): 5 bits; N <= 20.
Blade: 1 byte.
Borrower (Bor): 2 bytes; present only when L == 1.
Readings: N bytes.
Sum: 2 bytes.
"""
TCP_TEXT = """TCP Header 32
|          Source Port          |       Destination Port        |
+
|                        Sequence Number                        |
+
|                    Acknowledgment Number                      |
+
|  Data |       |C|E|U|A|P|R|S|F|                               |
| Offset| Rsrvd |W|C|R|C|S|S|Y|I|         Window Size           |
|       |       |R|E|G|K|H|T|N|N|                               |
+
|           Checksum            |         Urgent Pointer        |
+
:                            Options                            :
+
:                            Payload                            :
+

Source Port: 16 bits. A fixed-width field, whose full label is shown in the diagram.
Destination Port: 2 bytes.
Sequence Number: 32 bits.
Acknowledgment Number: 4 bytes.
Data Offset (DOffset): 4 bits; DOffset >= 5. The header's length in words of 32 bits.
Reserved (Rsrvd): 4 bits; Rsrvd == 0.
CWR: 1 bit.
ECE: 1 bit.
URG: 1 bit.
ACK: 1 bit.
PSH: 1 bit.
RST: 1 bit.
SYN: 1 bit.
FIN: 1 bit; (FIN == 0) || (SYN == 0).
Window Size: 16 bits.
Checksum: 16 bits.
Urgent Pointer: 16 bits.
Options: (DOffset-5)*32 bits; present only when DOffset > 5.
Payload: variable. What is left of the packet.
"""
LONG_HEADER_TEXT = """Long Header 8
|H|F| T | R | P |
+
:      VID      :
+
|      DLen     |
+
:      DCID     :
+
|      SLen     |
+
:      SCID     :
+

Header Form (H): 1 bit; H == 1.
Fixed Bit (F): 1 bit; F == 1.
Long Packet Type (T): 2 bits.
Reserved Bits (R): 2 bits.
Packet Number Length (P): 2 bits.
Version ID (VID): 4 * 1 bytes. Four bytes, which no row of a byte holds.
DCID Len (DLen): 1 byte; DLen <= 20.
Destination Connection ID (DCID): DLen bytes.
SCID Len (SLen): 1 byte; SLen <= 20.
Source Connection ID (SCID): SLen bytes.
"""


# The text of document 01's 'The lines of a text', from NAME, W, the rows and the field lines.
def whole(short):
    head, *lines = short.split("\n")
    name, width = head.rsplit(" ", 1)
    w = int(width)
    gap = lines.index("")
    tens = [" "] * (2 * w + 1)
    for i in range(0, w, 10):
        tens[2 * i + 1] = str(i // 10)
    border = "+" + "-+" * w
    rows = [border if row == "+" else row for row in lines[:gap]]
    rulers = ["".join(tens).rstrip(), "".join(" %d" % (i % 10) for i in range(w)), border]
    opening = ["A %s is formatted as follows:" % name, ""]
    return "\n".join(opening + rulers + rows + ["", "where:", ""] + lines[gap + 1 :]).encode()


def marked():
    for short, due in ((TAG_TEXT, TAG), (BLADE_TEXT, BLADE), (TCP_TEXT, tcp()), (LONG_HEADER_TEXT, LONG_HEADER)):
        for size in (len(due), len(due) - 1, 57344) + ((0, len(due) + 1) if due == TAG else ()):
            answer = "ok " + due.hex() if len(due) <= size else "refused 11 0"
            yield "text %d %s" % (size, spelled(whole(short))), answer


# The text of so many cells and lines of full().
def full_text(cells, lines):
    rows = []
    for at in range(0, cells, 16):
        row = full(cells)[at : at + 16]
        rows += ["|%s|" % "|".join(label.decode().center(2 * bits - 1) for label, bits in row), "+"]
    told = ["%s: %d bits." % (label.decode(), bits) for label, bits in full(lines)]
    return whole("\n".join(["Full 32"] + rows + [""] + told + [""]))


# 128 fields of a bit, and the rows that have their labels downwards.
FLAG_LABELS = ["F%03d" % i for i in range(128)]
FLAG_TABLE = table(b"Flags", 32, *(fixed(label.encode(), b"", 1) for label in FLAG_LABELS))
FLAG_ROWS = [["|%s|" % "|".join(letters) for letters in zip(*FLAG_LABELS[at : at + 32])] for at in (0, 32, 64, 96)]


# The text of these fields, with other lines in its last row, which begins at line 21; the field lines at 29.
def flags_text(last):
    rows = [line for row in FLAG_ROWS[:3] + [last] for line in row + ["+"]]
    return whole("\n".join(["Flags 32"] + rows + [""] + ["%s: 1 bit." % label for label in FLAG_LABELS] + [""]))


def flags():
    last, blank = FLAG_ROWS[3], "| " * 32 + "|"
    yield "text %d %s" % (len(FLAG_TABLE), flags_text(last).hex()), "ok " + FLAG_TABLE.hex()
    yield "text %d %s" % (len(FLAG_TABLE) - 1, flags_text(last).hex()), "refused 11 0"
    wrong = (
        (last + [blank], 3, 25),
        (last[:2] + [last[2][:16] + " " + last[2][17:]] + last[3:], 3, 23),
        ([line[:-2] + " |" for line in last], 3, 24),
        ([line[:-2] + " |" for line in last] + [blank], 3, 24),
        (last[:3] + [blank], 7, 29 + 96),
    )
    for rows, number, line in wrong:
        yield "text 57344 %s" % flags_text(rows).hex(), "refused %d %d" % (number, line)


# The Tag with a remark that makes its last line, line 11, so long; and the same with a byte that is not allowed, with a
# wrong line above it, and without its LF.
def long_lines():
    for n in (1023, 1024, 1025, 1026):
        text = whole(TAG_TEXT)[:-1] + b" "
        text += b"x" * (n - len(text.split(b"\n")[-1])) + b"\n"
        due = "ok " + TAG.hex() if n <= 1024 else "refused 3 11"
        yield "text %d %s" % (len(TAG), text.hex()), due
    yield "text 57344 %s" % text.replace(b"xx\n", b"x\t\n").hex(), "refused 2 0"
    yield "text 57344 %s" % text.replace(b"\nwhere", b"where", 1).hex(), "refused 3 8"
    yield "text 57344 %s" % text[:-1].hex(), "refused 3 11"


# Texts of 64, 65 and 128 fields, and of 129 cells or lines.
def limits():
    for n in (64, 65, 128):
        due = full_table(n)
        yield "text %d %s" % (len(due), full_text(n, n).hex()), "ok " + due.hex()
    yield "text %d %s" % (len(due) - 1, full_text(128, 128).hex()), "refused 11 0"
    for cells, lines in ((129, 129), (129, 128), (128, 129), (129, 1), (1, 129)):
        yield "text 57344 %s" % full_text(cells, lines).hex(), "refused 4 0"
    yield from flags()
    yield from long_lines()


# `ok`, or `refused N`; of over 64 fields `many`.
def group(answer):
    if answer.startswith("ok"):
        return "many" if bytes.fromhex(answer.split(" ")[1])[6] > 64 else "ok"
    return answer.rsplit(" ", 1)[0]


# The shortest requests of each group, and the longest that is accepted.
def chosen(vectors):
    groups = {}
    for file, request, answer in stored(vectors, VECTORS, ("text",)):
        groups.setdefault((file if file in TAKEN_OF else "", group(answer)), []).append((request, answer))
    for (file, kind), cases in groups.items():
        cases.sort(key=lambda case: len(case[0]))
        yield from cases[: TAKEN_OF[file].get(kind, 0) if file else TAKEN.get(kind, REFUSED)]
    yield groups["", "ok"][-1]


def files(vectors):
    return {"marked_texts": list(marked()), **packed("texts", [*limits(), *chosen(vectors)])}
