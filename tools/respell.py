#!/usr/bin/env python3
"""Brings the names of this repository's own definitions and lemmas to the spelling of today's Rattle.

usage: tools/respell.py [--dry]     at the top of the repository, once, right after the kit's own port script

Types and facts are in upper camel case (Adds-lot: AddsLot), all else in snake case (lots-of: lots_of, lotRows: lot_rows). Where two names would
fall together, OTHER says what one of them is called instead. Names that the checker makes (goals, invariants, steps) are left alone; so are strings,
functions of src/, inputs and outputs.
"""

import os
import re
import sys

NAME = r"[A-Za-z_0-9'·₀-₉-]+"
TOKEN = re.compile(r"(?<![A-Za-z_0-9'·₀-₉◌-])[A-Za-z_][A-Za-z_0-9'·₀-₉-]*(?![◌])")
DECLARED = re.compile(r"^(\s*)((?:(?:abbrev|unfoldable|pub|record|data|let)\s+)*)(" + NAME + r")((?:\s+\([^)]*\))*)\s+:\s+(.*)$")
MADE = re.compile(r"(goal|given|need)\.")

# names that would fall together with another one in reach: what they are called instead
OTHER = {
    # getters of memory beside the addresses of the layout
    "lot-at": "lot_record",
    "order-at": "order_record",
    "entry-at": "entry_record",
    "part-at": "part_record",
    # facts of where rows lie beside the rows
    "lot-rows": "lot_rows_placed",
    "order-rows": "order_rows_placed",
    "entry-rows": "entry_rows_placed",
    "tail-at": "tail_lies",
    # lines of a text beside the crate of that name
    "call-lines": "lines_of_calls",
}


def files(top, *endings):
    for folder, dirs, names in os.walk(os.path.join(top, "crates")):
        dirs[:] = sorted(d for d in dirs if d not in ("out", "target"))
        for n in sorted(names):
            if n.endswith(endings):
                yield os.path.join(folder, n)


def words(name):
    return [w for w in re.split(r"[-_]+", name) if w]


def camel(name):
    return "".join(w[0].upper() + w[1:] for w in words(name))


def snake(name):
    name = name.replace("-", "_")
    if name[0].islower():
        name = re.sub(r"(?<=[a-z0-9])([A-Z])(?=[a-z])", lambda m: "_" + m[1].lower(), name)
    return name


def declared(top):
    """Each own name with a dash or a hump, with what it is to be called."""
    new = {}
    for path in files(top, ".antt"):
        for line in open(path, encoding="utf-8"):
            m = DECLARED.match(line)
            if not m or MADE.search(m[5]):
                continue
            name, kind, ends = m[3], m[2].split(), m[5].strip()
            if name in ("_",) or name.startswith("-"):
                continue
            is_type = "record" in kind or "data" in kind or bool(re.search(r"(^|→ )Type \d( where)?$", ends))
            if not re.search(r"[-_]|[a-z][A-Z]", name):
                continue
            to = camel(name) if is_type or name[0].isupper() else snake(name)
            if to != name:
                if name in new and new[name] != to:
                    print(f"two spellings: {name}: {new[name]} and {to} in {path}")
                new[name] = to
    new.update({a: b for a, b in OTHER.items()})
    return new


def turned(text, new):
    return TOKEN.sub(lambda m: new.get(m[0], m[0]), text)


def turn_code(text, new):
    """In a source file clauses and ghost lines alone: no comment and no string, and no word that Rust reads as a difference."""
    out = []
    for line in text.split("\n"):
        bare = line.strip()
        ghost = bare.startswith(("ghost", "requires", "ensures", "#[tactic", "#![tactic")) or "{ λ" in line
        out.append(turned(line, new) if ghost else line)
    return "\n".join(out)


def main():
    if sys.argv[1:] not in ([], ["--dry"]):
        sys.exit("usage: tools/respell.py [--dry]")
    top, dry = os.getcwd(), "--dry" in sys.argv[1:]
    new = declared(top)
    if dry:
        for a, b in sorted(new.items()):
            print(a, "->", b)
        return
    n = 0
    for path in files(top, ".antt", ".rt"):
        text = open(path, encoding="utf-8").read()
        to = turned(text, new) if path.endswith(".antt") else turn_code(text, new)
        if to != text:
            n += 1
            with open(path, "w", encoding="utf-8") as f:
                f.write(to)
    print(f"respell: {len(new)} names, {n} files")


main()
