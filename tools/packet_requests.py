"""The requests of crates/runs on tables and packets, with their answers: M1 to M10 of document 01; tables with wrong
numbers, and an old one; quotients, remainders and powers; as many fields and bytes as may be, and one more; and those
of the vectors. A part is answered by its length and its bytes, `part LEN HEX`, where the vectors have `part START LEN`.
"""
from collections import Counter

from runs import (
    BLADE, OLD_TAG, TAG, both, fixed, full, full_table, number, packed, rest, spelled, split, stored, table, tcp,
)  # fmt: skip

VECTORS = ("base2", "large", "r4", "r5", "packets", "r10", "r7")
KINDS = {"tables": ("table",), "readers": ("readers", "convert"), "packets": ("read", "part", "list")}
ALL_KINDS = {**KINDS, "edits": ("cut", "put")}
# Every request of at most so many bytes is taken.
SHORT = {"tables": 420, "readers": 420, "packets": 500, "edits": 500}
SHORT_R10 = 6000  # of r10.tsv of so many
LEAST = 30  # so many of each kind of request and answer are taken, as far as there are, whatever their length

# Document 01's packets, the answer to `read` and the listing of each.
M1 = "62 07 01 2C AA BB 00 09"
M1_LISTING = """Version: 0 2 1
On Loan: 2 1 1
Cells: 3 5 2
Blade: 8 8 7
Borrower: 16 16 300
Readings: 32 16
Sum: 48 16 9
bits 64
"""
M2 = "42 07 AA BB 00 09"
M2_LISTING = """Version: 0 2 1
On Loan: 2 1 0
Cells: 3 5 2
Blade: 8 8 7
Borrower: absent
Readings: 16 16
Sum: 32 16 9
bits 48
"""
READINGS = [
    (M1, "ok 64 1,0,2,1 1,2,1,1 1,3,5,2 1,8,8,7 1,16,16,300 1,32,16,0 1,48,16,9", M1_LISTING),
    (M2, "ok 48 1,0,2,1 1,2,1,0 1,3,5,2 1,8,8,7 0,0,0,0 1,16,16,0 1,32,16,9", M2_LISTING),
    ("62 07 01 2C AA BB 00", "refused 24 7", "refused 24 at 7\n"),
    (M1 + " 00", "refused 28 0", "refused 28 at 0\n"),
    ("22 07 01 2C AA BB 00 09", "refused 25 1", "refused 25 at 1\n"),
    ("55 07", "refused 25 3", "refused 25 at 3\n"),
    ("", "refused 24 1", "refused 24 at 1\n"),
]
# The fields' bytes by index; one index more than there are fields.
M1_PARTS = ["", "", "", "07", "01 2C", "AA BB", "00 09", ""]
M2_PARTS = ["", "", "", "07", "", "AA BB", "00 09", ""]

# M8 and M9, and request R-7 of document 02: a tree, and its value or the number of its fault.
VALUES = [
    (both("+", number(2), both("*", number(3), number(4))), 14),
    (both("-", both("-", number(7), number(2)), number(1)), 4),
    (both("*", number(65535), number(65537)), 4294967295),
    (both("*", number(65536), number(65536)), "27"),
    (both("-", number(3), number(5)), "27"),
    (both("/", number(7), number(2)), 3),
    (both("%", number(7), number(2)), 1),
    (both("^", number(2), both("^", number(3), number(2))), 512),
    (both("^", both("^", number(2), number(3)), number(2)), 64),
    (both("^", number(0), number(0)), 1),
    (both("^", number(2), number(31)), 2147483648),
    (both("^", number(1), number(4294967295)), 1),
    (both("/", number(1), number(0)), "29"),
    (both("%", number(1), number(0)), "29"),
    (both("/", both("-", number(1), number(2)), number(0)), "27"),
    (both("^", number(2), number(32)), "27"),
    (both("^", number(4294967295), number(4294967295)), "27"),
]

# Segments of TCP: a SYN with an option of four bytes, whose flags are bits 104 to 111, and one with SYN and FIN set.
SYN = "c0000050123456780000000060 02 ffff ead70000 020405b4"
SYN_FIN = "c0000050123456780000000050 03 ffff 00000000"
SYN_READ = "ok 192 1,0,16,49152 1,16,16,80 1,32,32,305419896 1,64,32,0 1,96,4,6 1,100,4,0 %s %s" % (
    " ".join("1,%d,1,%d" % (bit, bit == 110) for bit in range(104, 112)),
    "1,112,16,65535 1,128,16,60119 1,144,16,0 1,160,32,0 1,192,0,0",
)


def shown(part):
    return "part %d %s" % (len(part), spelled(part))


def marked():
    blade = BLADE.hex()
    yield "table " + blade, "ok"
    for packet, answer, listing in READINGS:
        words = "%s %s" % (blade, spelled(bytes.fromhex(packet)))
        yield "read 28 " + words, answer
        yield "read 40 " + words, answer
        yield "list " + words, spelled(listing.encode())
    yield "read 27 %s %s" % (blade, spelled(bytes.fromhex(M1))), "refused 23 0"
    for packet, parts in ((M1, M1_PARTS), (M2, M2_PARTS)):
        for index, part in enumerate(parts):
            request = "part %d %s %s" % (index, blade, spelled(bytes.fromhex(packet)))
            yield request, shown(bytes.fromhex(part))
    yield from marked_values()
    yield "table " + TAG.hex(), "ok"
    yield "read 4 %s 07" % TAG.hex(), "ok 8 1,0,8,7"
    yield "read 4 %s 08" % TAG.hex(), "refused 25 1"
    yield from marked_numbers()
    yield from marked_flags()


# The blade report's table with another number in the record of each field, and the Tag's table as it was.
def marked_numbers():
    at = BLADE[0]
    for _ in range(BLADE[6]):
        for number in (BLADE[at + 4] + 1, BLADE[at + 4] ^ 1):
            wrong = BLADE[: at + 4] + bytes([number]) + BLADE[at + 5 :]
            yield "table " + wrong.hex(), "refused 21 0"
        at += BLADE[at]
    old = bytes.fromhex(OLD_TAG).hex()
    yield "table " + old, "refused 21 0"
    yield "read 4 %s 07" % old, "refused 21 0"
    yield "list %s 07" % old, b"refused 21 at 0\n".hex()


# The published TCP header reads SYN and FIN by their labels, which have no short names beside them.
def marked_flags():
    header = tcp().hex()
    yield "table " + header, "ok"
    yield "read 76 %s %s" % (header, bytes.fromhex(SYN).hex()), SYN_READ
    yield "read 76 %s %s" % (header, bytes.fromhex(SYN_FIN).hex()), "refused 25 14"


# Each tree in the constraint of a byte: accepted where its value is the one compared with.
def marked_values():
    for tree, value in VALUES:
        is_fault = isinstance(value, str)
        for compared in (0 if is_fault else value, 1 if value != 1 else 2):
            kind = table(b"Tag", 8, fixed(b"Kind", b"K", 8, both("==", tree, number(compared))))
            due = "ok 8 1,0,8,9" if compared == value else "refused %s 1" % (value if is_fault else "25")
            yield "read 4 %s 09" % kind.hex(), due


# Tables of 64, 65, 128 and 129 fields, and packets for them, whose fields of two bits hold 0, 1, 2, 3 in turn.
def limits():
    for n in (64, 65, 128):
        full_n, end = full_table(n).hex(), n // 16 * 32
        packet = "1b" * (end // 8) + "00000007" * (n % 16)
        fields = [(2 * i, 2, i % 4) for i in range(n - n % 16)] + [(end, 32, 7)] * (n % 16)
        total = 4 * len(packet)
        lines = ["%s: %d %d %d\n" % (label.decode(), *three) for (label, _), three in zip(full(n), fields)]
        yield "table " + full_n, "ok"
        yield "read %d %s %s" % (4 * n, full_n, packet), "ok %d" % total + "".join(" 1,%d,%d,%d" % f for f in fields)
        yield "read %d %s %s" % (4 * n - 1, full_n, packet), "refused 23 0"
        yield "list %s %s" % (full_n, packet), ("".join(lines) + "bits %d\n" % total).encode().hex()
    yield "table " + full_table(129).hex(), "refused 21 0"
    yield "read 516 %s -" % full_table(129).hex(), "refused 21 0"
    yield "list %s -" % full_table(129).hex(), b"refused 21 at 0\n".hex()
    yield from long_packets()


# Packets of one rest field, of 2,048 and 8,191 bytes and of one more.
def long_packets():
    note = table(b"Note", 8, rest(b"Text", b"")).hex()
    for size in (2048, 2049, 8191):
        yield "read 4 %s %s" % (note, "5a" * size), "ok %d 1,0,%d,0" % (8 * size, 8 * size)
    listing = b"Text: 0 65528\nbits 65528\n"
    for size, part, listed in ((8191, b"Z" * 8191, listing), (8192, b"", b"refused 22 at 0\n")):
        yield "part 0 %s %s" % (note, "5a" * size), shown(part)
        yield "list %s %s" % (note, "5a" * size), listed.hex()
    yield "read 4 %s %s" % (note, "5a" * 8192), "refused 22 0"
    yield "read 3 %s %s" % (note, "5a" * 8192), "refused 22 0"


# A vector's answer as the program gives it.
def due_to(request, answer):
    words = request.split(" ")
    if words[0] != "part":
        return answer
    start, size = map(int, answer.split(" ")[1:])
    packet = b"" if words[3] == "-" else bytes.fromhex(words[3])
    return shown(packet[start : start + size])


# The kind of a request and of its answer.
def group(request, answer):
    kind = request.split(" ")[0]
    if kind == "part":
        return kind, "empty" if answer.endswith(" 0") else "bytes"
    if kind == "list":
        answer = bytes.fromhex(answer).decode()
        return kind, answer[:10] if answer.startswith("refused") else "lines"
    return kind, answer[:10] if answer.startswith("refused") else "ok"


# The short requests, more where a group has few, and the longest of each kind.
def chosen(vectors, name):
    cases, short, longest = [], set(), {}
    for file, *case in stored(vectors, VECTORS, ALL_KINDS[name]):
        kind = case[0].split(" ")[0]
        cases.append(tuple(case))
        if len(case[0]) <= (SHORT_R10 if file == "r10" else SHORT[name]):
            short.add(cases[-1])
        longest[kind] = max(longest.get(kind, cases[-1]), cases[-1], key=lambda c: len(c[0]))
    have = Counter(group(*case) for case in short)
    for case in cases:
        if case not in short and case not in longest.values():
            if have[group(*case)] >= LEAST:
                continue
            have[group(*case)] += 1
        yield case


def files(vectors):
    files = {"marked_packets": list(marked()), **split("limits", list(limits()))}
    for name in KINDS:
        files.update(packed(name, [(r, due_to(r, a)) for r, a in chosen(vectors, name)]))
    return files
