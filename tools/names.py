#!/usr/bin/env python3
"""Brings the names that this repository's own .antt files declare to the spelling of today's Rattle: words in snake case, as dwords_of for
dwordsOf and fit_table for fit-table. It ran right after port.py (docs/PORT.md).

usage: python3 tools/names.py [--check] [--again]    at the top of the repository; --check writes nothing and prints what would be renamed;
--again leaves out the names that are listed below, for a repository in which it ran before

It goes by whole words, in crates/*/specs, crates/*/proofs, the text of src/*.rt and the must-fail edits. A name stays where a library's
name of the same spelling is imported, and types, modules, functions and exported names keep theirs.
"""

import collections
import os
import re
import sys

WORD = re.compile(r'[^\s(){}.;,@"«»:`]+|:')
TOP = re.compile(r"^(?:(?:abbrev|unfoldable|pub|data|record|ruleset)\s+)*([^\s(){};,\"]+)\s*(?:\([^)]*\)\s*|\{[^}]*\}\s*)*:\s")
# Below a heading: fields, cases, and what a module or a where declares; several may share a line.
WITHIN = re.compile(r"^\s+(?:(?:abbrev|unfoldable|pub)\s+)*([^\s(){};,\":=λ.]+(?:\s+[^\s(){};,\":=λ.]+)*)\s*(?:\([^)]*\)\s*|\{[^}]*\}\s*)*:\s")
WORDS = {"let", "in", "module", "where", "elim", "open", "use", "do", "as"}
USE = re.compile(r"(?:^|\n)\s*(?:pub |ghost )*use ([^\s{;]+?)\.\{([^}]*)\}")
# Lemmas about getD, which is get_or now.
OWN = {
    "getD-dwords": "get_or_dwords",
    "getD-fits": "get_or_fits",
    # Lemmas that would have their definition's name get _lem.
    "bytes-of": "bytes_of_lem",
    # One whose statement begins on its second line.
    "pools-after": "pools_after_lem",
}
# The same, where the name has another meaning in other files.
HERE = {
    "./crates/format/proofs/Dwords.antt": {"none_left": "none_left_lem"},
    "./crates/format/proofs/Instructions.antt": {"none_left": "none_left_lem"},
    "./crates/format/proofs/Remade.antt": {"none_left": "none_left_lem"},
    "./crates/format/proofs/Editions.antt": {"past_end": "past_end_lem"},
    "./crates/format/proofs/Refusals.antt": {"past_end": "past_end_lem"},
    "./crates/format/proofs/Entries.antt": {"next_row": "next_row_lem"},
    "./crates/instruction_deep/proofs/Complete.antt": {"none_left": "none_left_lem"},
    "./crates/instruction_deep/proofs/Heads.antt": {"sized_row": "sized_row_lem"},
    "./crates/instruction_deep/proofs/SameRows.antt": {"words-of": "words_of_lem"},
    "./crates/instruction_walk/proofs/Short.antt": {"in_bounds": "in_bounds_lem"},
    "./crates/layouts/proofs/Others.antt": {"by_count": "by_count_lem"},
    "./crates/operand_deep/proofs/Told.antt": {"front_same": "front_same_lem"},
}


def files(root):
    for folder, dirs, names in os.walk(os.path.join(root, "crates")):
        dirs[:] = sorted(d for d in dirs if d not in ("out", "data"))
        for n in sorted(names):
            p = os.path.join(folder, n)
            if n.endswith((".antt", ".rt", ".edit")):
                yield p


def is_laws(p):
    """A file of definitions or of laws, and not the proof of a function."""
    return p.endswith(".antt") and os.path.basename(os.path.dirname(p)) in ("specs", "proofs")


def in_snake_case(name):
    words = re.sub(r"(?<=[a-z0-9])[A-Z]", lambda m: "_" + m[0].lower(), name)
    return words.replace("-", "_").replace("′", "'")


def is_old(name):
    return name not in ("-", "->") and ("-" in name.strip("-") or "′" in name or (name[0].islower() and re.search("[a-z0-9][A-Z]", name)))


def declared(text):
    for line in text.split("\n"):
        if line.startswith(("use ", "pub use ", "--")):
            continue
        m = TOP.match(line) or WITHIN.match(line)
        if m and not WORDS & set(m[1].split()):
            yield from m[1].split()


def main(argv):
    check = "--check" in argv
    if "--again" in argv:
        OWN.clear()
        HERE.clear()
    texts = {}
    for p in files("."):
        with open(p, encoding="utf-8") as f:
            texts[p] = f.read()
    ours = {c for c in os.listdir("crates")}
    library, own, plain = collections.defaultdict(set), set(), set()
    for p, t in texts.items():
        for m in USE.finditer(t):
            steps = m[1].split(".")
            if not (steps[0] == "Rattle" and steps[1] in ours):
                library[p] |= {n.strip().split(" as ")[-1] for n in m[2].split(",")}
        if is_laws(p):
            names = set(declared(t))
            own |= {n for n in names if is_old(n)}
            plain |= {n for n in names if not is_old(n)}
    anywhere = set().union(*library.values())
    stays = own & anywhere
    table = {n: in_snake_case(n) for n in own - stays} | OWN
    # A lemma that would have another name's new spelling gets _lem.
    for old in [n for n in table if "-" in n]:
        if table[old] in plain or any(table[n] == table[old] and n != old for n in table):
            table[old] += "_lem"
    for p, t in texts.items():
        turned = table | HERE.get(p, {})
        words = set(WORD.findall(t))
        met = collections.Counter(turned.get(w, w) for w in words)
        for old in sorted(words & set(turned)):
            if met[turned[old]] > 1 or turned[old] in library[p]:
                print("taken:", p, old, "would be", turned[old])
    print("stays:", *sorted(stays))
    print(len(table), "names")
    if check:
        return
    for p, t in texts.items():
        turned = table | HERE.get(p, {})
        new = WORD.sub(lambda m: turned.get(m[0], m[0]), t)
        if new != t:
            with open(p, "w", encoding="utf-8") as f:
                f.write(new)


main(sys.argv[1:])
