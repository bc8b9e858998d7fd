#!/usr/bin/env python3
"""Respells this repository's own names in specs/ and proofs/: run once, right after port.py, at the top.

A word of a name is in snake case: `slotCount` becomes `slot_count`. A dash stays only where it joins two names (definitions or types), as in
`sets-append`; any other becomes `_`, as in `then_one`. Names from src/, goals' names, strings, inputs and outputs stay. `--check` writes nothing
and prints what falls together.
"""
import collections
import os
import re
import sys

IDENT = r"[A-Za-z_][A-Za-z0-9_'\u2032\u2080-\u2089\u2262\u2261?-]*"
CRATES = sorted(os.listdir("crates"))
OWN = r"Rattle\.(?:" + "|".join(CRATES) + r")\."
# Where two names would fall together, or a name would be one of the library's that is in use beside it.
APART = {
    "close-line": "close_line_lem",
    "closed-line": "closed_line_lem",
    "fed-length": "fed_length_lem",
    "in-range": "is_within",
    "line-end": "line_end_lem",
    "no-fit": "no_fit_lem",
    "on-wire": "on_wire_lem",
    "on_line": "on_line_lem",
    "refused-line": "refused_line_lem",
    "shown-data": "shown_data_lem",
    "table-most": "table_most_lem",
    "to_write": "to_write_lem",
    "told-all": "told_all_lem",
    "too_long": "too_long_vector",
    "until-used": "until_used_lem",
    "word_end": "word_end_lem",
    "write-all": "write_all_lem",
}


def files(ending):
    for folder, dirs, names in os.walk("crates"):
        dirs[:] = sorted(d for d in dirs if d != "out")
        for name in sorted(names):
            if name.endswith(ending):
                yield os.path.join(folder, name)


def generated(path):
    """Whether what a file declares is named after goals."""
    return "/proofs/" in path and os.path.basename(path) in ("Proof.antt", "Answers.antt", "Invariants.antt")


def read(path):
    with open(path, encoding="utf-8") as f:
        return f.read()


def bare(text):
    """The text without comments, for looking names up."""
    return re.sub(r"(?m)--.*$", "", text)


def declared(text):
    """Names that a file declares: definitions, lemmas, fields, constructors, and locals with a type."""
    found = set()
    for m in re.finditer(r"(?m)^\s*(?:unfoldable |abbrev )?(?:pub )?(?:data |record )?(" + IDENT + r")\s*(?:[({][^\n]*?[)}]\s*)*:(?=\s)", text):
        found.add(m.group(1))
    for m in re.finditer(r"\b(?:let|as)\s+(" + IDENT + r")", text):
        found.add(m.group(1))
    for m in re.finditer(r"[({]((?:" + IDENT + r"\s+)+):\s", text):
        found.update(m.group(1).split())
    for m in re.finditer(r"\u03bb\s+((?:" + IDENT + r"\s*)+)\.", text):
        found.update(m.group(1).split())
    return found


def library(text):
    """Names that a file imports from the kit's libraries."""
    found = set()
    for m in re.finditer(r"(?m)^(?:ghost )?use (?!" + OWN + r")\S+?\.\{([^}]*)\}", text):
        found.update(n.strip().split(" as ")[0].strip() for n in m.group(1).split(","))
    return found


def snake(word):
    return re.sub(r"(?<=[a-z0-9])([A-Z])(?=[a-z0-9]|$)", lambda m: "_" + m.group(1).lower(), word) if re.match(r"[a-z]", word) else word


def names():
    """The definitions (what a dash may join), and each declared name's new spelling."""
    joins, mine, kits, given, fields = set(), set(), set(), set(), set()
    for path in files(".antt"):
        text = bare(read(path))
        kits |= library(text)
        if generated(path):
            mine |= {n for n in declared(text) if re.search(r"[a-z][A-Z]", n) and re.match(r"[a-z]", n)}
            continue
        mine |= declared(text)
        # What an equation defines is a definition or a lemma; no field, constructor or local has a dash.
        given.update(re.findall(r"(?m)^\s*(" + IDENT + r")(?:\s[^\n=]*)?\s=(?:\s|$)", text))
        for m in re.finditer(r"(?m)^( *)(?:pub )?(?:record|data) .*where\n((?:\1 +.*\n|\n)+)", text + "\n"):
            fields.update(re.findall(r"(?m)^\s*(?:pub )?(" + IDENT + r")\s*:", m.group(2)))
        joins.update(re.findall(r"(?m)^\s*(?:abbrev|unfoldable) (?:pub )?(" + IDENT + ")", text))
        joins.update(re.findall(r"(?m)^\s*(?:pub )?(?:data|record) (" + IDENT + ")", text))
    for path in files(".rt"):
        kits |= library(read(path))
    joins |= {n for n in kits if re.match(r"[A-Za-z]", n) and "-" not in n and "_" not in n}
    new = {}
    for name in mine - kits:
        parts = name.split("-")
        out = snake(parts[0])
        for a, b in zip(parts, parts[1:]):
            keep = (a in joins or re.match(r"[A-Z]", a)) and (b in joins or re.match(r"[A-Z]", b)) and len(parts) == 2 and name in given - fields
            out += ("-" if keep else "_") + snake(b)
        if name in APART:
            out = APART[name]
        if out != name:
            new[name] = out
    return new, mine, kits


def main():
    new, mine, kits = names()
    check = "--check" in sys.argv
    clash = collections.defaultdict(set)
    for old, to in new.items():
        clash[to].add(old)
    for to, olds in sorted(clash.items()):
        if len(olds) > 1:
            print("fall together:", to, sorted(olds))
        if to in kits:
            print("the library's:", to, sorted(olds))
        if to in mine and to not in new:
            print("there already:", to, sorted(olds))
    code = set()
    for path in files(".rt"):
        text = re.sub(r"(?m)^ghost use .*$|//.*$", "", read(path))
        code.update(re.findall(r"\b(" + IDENT + r"):", text))
        code.update(re.findall(r"\bconst (" + IDENT + r")", text))
    for old, to in sorted(new.items()):
        if to in code:
            print("a field, parameter or constant:", to, old)
    token = re.compile(r"(?<![A-Za-z0-9_'\u2032-])" + IDENT)
    for path in list(files(".antt")) + list(files(".rt")):
        text = read(path)
        use = new
        if generated(path):
            # What such a file declares is named after a goal.
            own = set(re.findall(r"(?m)^(?:abbrev )?(?:pub )?(" + IDENT + r")\s*:", text))
            use = {a: b for a, b in new.items() if a not in own}
        if path.endswith(".rt"):
            use = {a: b for a, b in new.items() if re.search(r"[A-Z-]", a)}

        def turn(m):
            # A part of a path is a module's name.
            path_part = re.match(r"\.[A-Za-z_{]", text[m.end() : m.end() + 2]) and text.rfind("use Rattle.", 0, m.start()) > text.rfind("\n", 0, m.start())
            return m.group(0) if path_part else use.get(m.group(0), m.group(0))

        out = token.sub(turn, text)
        if out != text and not check:
            with open(path, "w", encoding="utf-8") as f:
                f.write(out)
    print(len(new), "names respelled")


main()
