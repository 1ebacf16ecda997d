#!/usr/bin/env python3
"""Spells the repository's own names anew, after the kit's port.py: words in snake case, types and modules in camel case.

usage: respell_names.py [--check]      at the top of the repository

A name of a definition, a constructor, a lemma or a variable that has capitals or dashes inside gets underscores: 'readTwo' is
'read_two', 'cut-put' is 'cut_put'; a lemma that would have its function's name gets `_lem`. What a file imports from the kit, what
Rattle makes for a function's proof, strings and comments' words with dashes stay. Two names that would meet in one file are told.
--check writes nothing.
"""

import os
import re
import sys

TOKEN = re.compile(r'--[^\n]*|"(?:[^"\\\n]|\\.)*"|(?<![\w\'-])[A-Za-z_][\w\'-]*')
DECLARED = re.compile(r"(?m)^ *(?:(?:pub|abbrev|unfoldable|data|record) +)*([a-z][\w'-]*)(?: \{[^{}\n]*\})* :(?: |$)")
# Names that Rattle makes for a function's proof: they follow the code.
MADE = re.compile(r"(?:Need|Lts|After|Given|Loop)-|.*-(?:spec|requires|init|preserved|smaller|told|known)(?:-\d+)?$|^(?:returns|enum|overflow|slice|shared|loop|same)-")
# Lemmas that port.py spelled like a definition that turns here: a lemma that would have its function's name gets `_lem`.
LEMMAS = "first_kind all_true part_shifted strict_place plain_row on_same on_row rows_in rows_fit skip_at".split()


def crates():
    return sorted(c for c in os.listdir("crates") if os.path.isdir(os.path.join("crates", c)))


def files():
    for folder, dirs, names in os.walk("crates"):
        dirs[:] = sorted(d for d in dirs if d != "out")
        for f in sorted(names):
            if f.endswith((".antt", ".rt", ".edit")):
                yield os.path.join(folder, f)


def is_proof(path):
    return os.path.basename(path) in ("Proof.antt", "Answers.antt", "Invariants.antt")


def bare(text):
    return TOKEN.sub(lambda m: m.group() if m.group()[0] not in '-"' else " " * len(m.group()), text)


def snake(part):
    part = re.sub(r"(?<=[a-z0-9])(?=[A-Z])", "_", part)
    part = re.sub(r"(?<=[A-Z])(?=[A-Z][a-z])", "_", part)
    return part.lower()


def camel(name):
    """A name with capitals inside that begins small, outside of parts that are types."""
    return [p for p in name.split("-") if re.match(r"[a-z]\w*[A-Z]", p)]


def respelled(name):
    return "_".join(snake(p) if re.match(r"[a-z]", p) else p for p in name.split("-"))


def kit_names(text, own):
    found = set()
    for m in re.finditer(r"(?m)^ *(?:ghost )?use ([^\s;{]+?)\.?\{([^}]*)\}", text):
        head = m.group(1).split(".")
        if head[0] == "Rattle" and len(head) > 1 and head[1] in own and not (len(head) > 3 and head[2] == "proofs" and head[-1] in MADE_MODULES):
            continue
        for item in m.group(2).split(","):
            found |= set(item.split(" as ")[0].split())
    return found


MADE_MODULES = {"Statement", "Tie", "Reads", "Lts", "Goals", "Given"}


def main(argv):
    check = "--check" in argv
    own = set(crates())
    texts = {p: open(p, encoding="utf-8").read() for p in files()}
    # the names that turn: those of files other than functions' proofs, and there those that no generated module has
    table = {}
    kit_of = {}
    for p, t in texts.items():
        kit_of[p] = kit_names(t, own)
        if p.endswith(".edit"):
            continue
        for n in set(re.findall(r"(?<![\w'-])[a-z][\w'-]*", bare(t))):
            if n in kit_of[p] or n in table:
                continue
            if not re.search(r"\w-\w", n) and not camel(n):
                continue
            if p.endswith(".rt") and not (camel(n) and "-" not in n):
                continue
            if is_proof(p):
                continue
            table[n] = respelled(n)
    defined = set()
    for p, t in texts.items():
        if p.endswith(".antt") and not is_proof(p):
            defined |= {snake(n) for n in DECLARED.findall(bare(t)) if "-" not in n and ("/specs/" in p or camel(n))}
    for n in table:
        if "-" in n and table[n] in defined:
            table[n] += "_lem"
    table.update({n: n + "_lem" for n in LEMMAS})
    # names that a function's proof declares for itself
    local = {}
    for p, t in texts.items():
        if not is_proof(p):
            continue
        b = bare(t)
        made = set(re.findall(r"(?m)^ *(?:abbrev +)?(?:pub +)?(\S+) : (?:tie|goal)\.", b)) | {m for m in re.findall(r"(?<![\w'-])[a-z][\w'-]*(?=-spec\b)", b)}
        mine = {}
        for n in set(DECLARED.findall(b)) | set(re.findall(r"\blet ([a-z][\w'-]*)", b)) | set(re.findall(r"[(λ] ?([a-z][\w'-]*) :", b)) | set(re.findall(r"(?<=[λ ])([a-z]\w*[A-Z]\w*)", b)):
            if n in made or n in kit_of[p] or MADE.match(n):
                continue
            if re.search(r"\w-\w", n) or camel(n):
                mine[n] = respelled(n)
        local[p] = (mine, made)
    changed = 0
    for p, t in texts.items():
        mine, made = local.get(p, ({}, set()))
        kit = kit_of[p]
        behind_c = is_proof(p)

        def turn(m):
            w = m.group()
            if w[0] == '"':
                return w
            if w.startswith("--"):
                return re.sub(r"(?<![\w'-])[a-z]\w*[A-Z]\w*(?![\w'-])", lambda k: table.get(k.group(), k.group()), w) if not p.endswith(".rt") else w
            if w in kit or w in made:
                return w
            if behind_c and "-" in w and m.start() and t[m.start() - 1] == ".":
                return w
            if p.endswith(".rt") and not (camel(w) and "-" not in w):
                return w
            if w in LEMMAS and m.start() and t[m.start() - 1] == ".":
                return w
            return mine.get(w, table.get(w, w))

        if p.endswith(".rt"):
            # comments of Rust begin with two strokes
            new = re.sub(r"//[^\n]*|[^/]+|/", lambda m: re.sub(r"(?<![\w'-])[a-z]\w*[A-Z]\w*(?![\w'-])", lambda k: table.get(k.group(), k.group()), m.group()) if m.group().startswith("//") else TOKEN.sub(lambda k: (table.get(k.group(), k.group()) if camel(k.group()) and "-" not in k.group() and k.group()[0] != '"' else k.group()), m.group()), t)
        elif p.endswith(".edit"):
            new = re.sub(r"(?<![\w'-])[a-z][\w'-]*", lambda k: table.get(k.group(), k.group()) if camel(k.group()) or re.search(r"\w-\w", k.group()) else k.group(), t)
        else:
            new = TOKEN.sub(turn, t)
        # two names that meet
        before, seen = set() if p.endswith(".rt") else set(re.findall(r"(?<![\w'.-])[a-z][\w'-]*(?!\.\w)", bare(t))), {}
        for n in before:
            to = n if (n in kit or n in made) else mine.get(n, table.get(n, n))
            seen.setdefault(to, set()).add(n)
        for to, ns in sorted(seen.items()):
            if len(ns) > 1:
                print(f"meet: {p}: {', '.join(sorted(ns))} -> {to}")
        if new != t:
            changed += 1
            if not check:
                with open(p, "w", encoding="utf-8") as f:
                    f.write(new)
    # the pages: names in code spans
    for folder in (".", "docs"):
        for f in sorted(os.listdir(folder)):
            if not f.endswith(".md") or f == "PORT.md":
                continue
            p = os.path.join(folder, f)
            t = open(p, encoding="utf-8").read()
            new = re.sub(r"`[^`\n]+`", lambda s: re.sub(r"(?<![\w'-])[a-z][\w'-]*", lambda k: table.get(k.group(), k.group()), s.group()) if not re.search(r"[/ ]", s.group()) or camel(s.group()) else s.group(), t)
            if new != t:
                changed += 1
                if not check:
                    with open(p, "w", encoding="utf-8") as g:
                        g.write(new)
    print(f"respell_names: {len(table)} names, {changed} files")
    return 0


if __name__ == "__main__":
    sys.exit(main(sys.argv[1:]))
