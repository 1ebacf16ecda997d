#!/usr/bin/env python3
"""Makes what the program crates/runs is run on. Run by hand in the project's root:

  tools/make_runs.py VECTORS

Reads VECTORS/*.tsv (a request, a TAB and its answer to a line).
Writes crates/runs/data/marked_texts    texts of text_requests.py
       crates/runs/data/texts1 ..       texts at their limits, of text_requests.py, and requests `text` of the vectors
       crates/runs/data/marked_packets  M1 to M10 of document 01, and cases of requests R-5 and R-7 of document 02
       crates/runs/data/limits1 ..      tables and packets at their limits, of packet_requests.py
       crates/runs/data/tables1 ..      requests `table` of the vectors
       crates/runs/data/readers1 ..     requests `readers` and `convert` of the vectors
       crates/runs/data/packets1 ..     requests `read`, `part` and `list` of the vectors
       crates/runs/data/marked_edits    fields of the blade report and of a small table cut out and put in
       crates/runs/data/edits1 ..       as many fields as may be, and requests `cut` and `put` of the vectors
       crates/runs/stdout               the answers due to these files, in this order, in which main names them
No answer comes from a run of the program: those of M1 to M10 are document 01's, those of R-5 and R-7 document 02's,
those at the limits follow from how their tables and packets are built, as does a marked text's table and what fields
that are cut out or put in leave, the others are the vectors'.
"""
import sys

import edit_requests
import packet_requests
import text_requests

CRATE = "crates/runs/"


# The requests of each file, and the answers due to all in this order.
def write(files):
    stdout = []
    for name, cases in files.items():
        with open(CRATE + "data/" + name, "w") as out:
            out.writelines(request + "\n" for request, _ in cases)
        stdout += [answer + "\n" for _, answer in cases]
        print(name, len(cases), "requests,", sum(len(r) + 1 for r, _ in cases), "bytes")
    with open(CRATE + "stdout", "w") as out:
        out.writelines(stdout)
    print("stdout", sum(map(len, stdout)), "bytes")


if len(sys.argv) != 2:
    sys.exit(__doc__)
parts = (text_requests, packet_requests, edit_requests)
write({name: cases for part in parts for name, cases in part.files(sys.argv[1]).items()})
