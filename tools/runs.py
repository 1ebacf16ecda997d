"""What text_requests.py, packet_requests.py and edit_requests.py share: the stored form, the vectors, and files of
requests.
"""
import struct

ROOM = 65536  # no file of requests is longer

# The stored form of document 01, 'The stored table', with the operators and the field records of document 02.
CODES = {"+": 0x10, "-": 0x11, "*": 0x12, "/": 0x13, "%": 0x14, "^": 0x15}
CODES.update({"==": 0x20, "<=": 0x23, ">": 0x24, ">=": 0x25, "||": 0x31})


def two(n):
    return struct.pack("<H", n)


def sized(s):
    return two(len(s)) + s


def number(n):
    return b"\x01" + struct.pack("<I", n)


def field(i):
    return bytes([2, i])


def both(op, a, b):
    return bytes([CODES[op]]) + a + b


def record(kind, body):
    return two(4 + len(body)) + two(kind) + body


# A field: its kind, its body behind the number, and its expressions.
def fixed(label, short, bits, constraint=b"", condition=b""):
    body = sized(label) + sized(short) + two(bits) + sized(constraint) + sized(condition)
    return 12, body, (constraint, condition)


def measured(label, short, unit, width, condition=b""):
    body = sized(label) + sized(short) + two(unit) + sized(width) + sized(b"") + sized(condition)
    return 13, body, (width, condition)


def rest(label, short):
    return 14, sized(label) + sized(short) + sized(b"") + sized(b""), ()


# The indexes that an expression reads, each as often as it does.
def reads(tree):
    at, found = 0, []
    while at < len(tree):
        if tree[at] == 2:
            found.append(tree[at + 1])
        at += {1: 5, 2: 2}.get(tree[at], 1)
    return found


# How often other fields read the field of an index.
def readers(fields, index):
    others = (trees for i, (_, _, trees) in enumerate(fields) if i != index)
    return sum(reads(tree).count(index) for trees in others for tree in trees)


def table(name, w, *fields):
    head = record(1, two(w) + two(len(fields)) + sized(name))
    records = (record(kind, two(readers(fields, i)) + body) for i, (kind, body, _) in enumerate(fields))
    return head + b"".join(records) + record(5, b"")


# The records of fields, each with this number.
def records(fields, number):
    return b"".join(record(kind, two(number) + body) for kind, body, _ in fields)


BLADE_FIELDS = (
    fixed(b"Version", b"V", 2, both("==", field(0), number(1))),
    fixed(b"On Loan", b"L", 1),
    fixed(b"Cells", b"N", 5, both("<=", field(2), number(20))),
    fixed(b"Blade", b"", 8),
    fixed(b"Borrower", b"Bor", 16, b"", both("==", field(1), number(1))),
    measured(b"Readings", b"", 8, field(2)),
    fixed(b"Sum", b"", 16),
)
BLADE = table(b"Blade Report", 16, *BLADE_FIELDS)
FLAGS = (b"CWR", b"ECE", b"URG", b"ACK", b"PSH", b"RST", b"SYN", b"FIN")


# The source document's TCP header as far as documents 01 and 02 take it: what has no fixed width stands in long rows.
def tcp():
    no_fin_and_syn = both("||", both("==", field(13), number(0)), both("==", field(12), number(0)))
    rules = [b""] * 7 + [no_fin_and_syn]
    more = both(">", field(4), number(5))
    options = both("*", both("-", field(4), number(5)), number(32))
    return table(
        b"TCP Header",
        32,
        fixed(b"Source Port", b"", 16),
        fixed(b"Destination Port", b"", 16),
        fixed(b"Sequence Number", b"", 32),
        fixed(b"Acknowledgment Number", b"", 32),
        fixed(b"Data Offset", b"DOffset", 4, both(">=", field(4), number(5))),
        fixed(b"Reserved", b"Rsrvd", 4, both("==", field(5), number(0))),
        *(fixed(flag, b"", 1, rule) for flag, rule in zip(FLAGS, rules)),
        fixed(b"Window Size", b"", 16),
        fixed(b"Checksum", b"", 16),
        fixed(b"Urgent Pointer", b"", 16),
        measured(b"Options", b"", 1, options, more),
        rest(b"Payload", b""),
    )


TAG = table(b"Tag", 8, fixed(b"Kind", b"K", 8, both("==", field(0), number(7))))
TAG_OF_02 = """0D 00 01 00 08 00 01 00 03 00 54 61 67 1D 00 0C 00 00 00 04 00 4B 69 6E 64 01 00 4B 08 00 08 00
    20 02 00 01 07 00 00 00 00 00 04 00 05 00"""
OLD_TAG = """0D 00 01 00 08 00 01 00 03 00 54 61 67 1B 00 02 00 04 00 4B 69 6E 64 01 00 4B 08 00 08 00
    20 02 00 01 07 00 00 00 00 00 04 00 05 00"""
assert TAG == bytes.fromhex(TAG_OF_02)


# The labels and bits of n fields in rows of 32 bits: sixteen to a row, and one alone where one is left.
def full(n):
    assert n % 16 < 2
    bits = [2] * (n - n % 16) + [32] * (n % 16)
    return [(b"%c%d" % (65 + i // 10, i % 10), bits[i]) for i in range(n)]


def full_table(n):
    return table(b"Full", 32, *(fixed(label, b"", bits) for label, bits in full(n)))


# The requests of these kinds in files of the vectors, with their answers.
def stored(vectors, names, kinds):
    for name in names:
        with open("%s/%s.tsv" % (vectors, name)) as lines:
            for line in lines:
                request, answer = line.rstrip("\n").split("\t")
                if request.split(" ")[0] in kinds:
                    yield name, request, answer


def spelled(s):
    return s.hex() or "-"


# The cases in order, in files that fit the room.
def split(name, cases):
    files, size = [[]], 0
    for case in cases:
        size += len(case[0]) + 1
        if size > ROOM:
            files.append([])
            size = len(case[0]) + 1
        files[-1].append(case)
    return {"%s%d" % (name, i): file for i, file in enumerate(files, 1)}


# The cases, the longest first, each in the first file with room for it.
def packed(name, cases):
    files = []
    for case in sorted(cases, key=lambda case: -len(case[0])):
        for file in files:
            if sum(len(request) + 1 for request, _ in file) + len(case[0]) < ROOM:
                file.append(case)
                break
        else:
            files.append([case])
    return {"%s%d" % (name, i): file for i, file in enumerate(files, 1)}
