#!/usr/bin/env python3
"""Counts the places of docs/DESIGN-PASS.md in crates/*/src. tools/design.py [POINT..]: all points, or 1 to 5. Points 6 to 8 are counted by reading."""
import collections
import glob
import re
import sys

FILES = {file: open(file).read() for file in sorted(glob.glob("crates/*/src/*.rt"))}
HEAD = re.compile(r'^ *(?:pub )?(?:extern "C" )?(?:const )?fn (\w+)(?:<[^(]*>)?\(([^{]*?)\)(?: -> ([^{]*?))?\s*\n? *(?:requires|ensures|\{)', re.M)


def crate(file):
    return file.split("/")[1]


def functions():
    """Gives each function: its crate, name, parameters, result and the comment above it."""
    for file, text in FILES.items():
        for found in HEAD.finditer(text):
            above = text[: found.start()].rstrip("\n").split("\n")
            said = []
            while above and above[-1].strip().startswith(("//", "#")):
                said.insert(0, above.pop())
            yield crate(file), found[1], found[2], (found[3] or "").strip(), " ".join(said)


def point_1():
    enums = [(crate(file), it[0]) for file, text in FILES.items() for it in re.findall(r"^(?:pub )?enum (\w+) \{((?:.|\n)*?)^\}", text, re.M)]
    print("1a. enums:", len(enums), " ".join(f"{a}::{b}" for a, b in enums))
    word = r"\b(?:0|1|2|7|40|128|Off|Not)(?:: | if | says | where there | for none|, as for |; 0|;)"
    said = [(a, b) for a, b, _, result, above in functions() if re.search(r"\b(u8|u32|u64|usize)$", result) and re.search(word, above)]
    print("1b. a number whose comment says that it means none:", len(said), " ".join(f"{a}::{b}" for a, b in said))
    kinds = [(crate(file), it) for file, text in FILES.items() for it in re.findall(r"^ *(?:pub )?(?:kind|way|shown|late): (?:u8|u32|usize)", text, re.M)]
    print("1c. numbers for kinds in structs:", len(kinds), " ".join(f"{a}::{b.strip()}" for a, b in kinds))


def point_2():
    names = collections.defaultdict(list)
    for a, b, *_ in functions():
        names[b].append(a)
    twice = {b: it for b, it in names.items() if len(it) > 1}
    print("2. names of functions in more than one crate:", len(twice))
    for b, it in sorted(twice.items(), key=lambda it: (-len(it[1]), it[0])):
        print(f"   {b}: {' '.join(it)}")


def point_3():
    loops = [(crate(file), it.strip()) for file, text in FILES.items() for it in re.findall(r"^ *(?:while|loop)\b.*", text, re.M)]
    print("3. while and loop:", len(loops))
    for a, b in loops:
        print(f"   {a}: {b}")


def point_4():
    hand = re.compile(r"^(wide|narrow|far|long|both|behind|join|same_\w+|print_\w+|equal\w*|copy\w*|byte|entry)$")
    found = [(a, b) for a, b, *_ in functions() if hand.match(b)]
    print("4. conversions, comparisons, copies and printing by name:", len(found), " ".join(f"{a}::{b}" for a, b in found))


def split(text):
    depth, parts = 0, [""]
    for it in re.split(r"( × |[()])", text):
        depth += (it == "(") - (it == ")")
        if it == " × " and depth == 0:
            parts.append("")
        else:
            parts[-1] += it
    return [it.strip()[1:-1] if it.strip().startswith("(") and it.strip().endswith(")") else it.strip() for it in parts]


def point_5():
    facts = collections.defaultdict(list)
    for file, text in FILES.items():
        name = None
        for line in text.split("\n"):
            found = re.match(r' *(?:pub )?(?:extern "C" )?fn (\w+)', line)
            name = found[1] if found else name
            found = re.match(r" *requires(?: \w+)? \{ (.*) \}", line)
            for it in split(found[1]) if found else []:
                facts[it].append(f"{crate(file)}::{name}")
    many = {it: where for it, where in facts.items() if len(where) > 2}
    print("5. facts that three or more functions ask:", len(many), "in", sum(map(len, many.values())), "clauses")
    for it, where in sorted(many.items(), key=lambda it: -len(it[1])):
        print(f"   {len(where)}  {it}  {' '.join(where)}")


for number in sys.argv[1:] or "12345":
    globals()[f"point_{number}"]()
