#!/usr/bin/env python3
"""Brings the repository's own definitions and lemmas to snake case: `mapEntry` to `map_entry`, `chain-once` to `chain_once`.

usage: python3 tools/snake_case.py        at the top of the repository, once, behind the kit's own script

It goes by text. A name is one that a file of specs/ or proofs/ declares, a Proof.antt apart; types keep their capitals. Where a
definition and a lemma would fall together, the lemma gets `_lem` behind its name; where a definition would have the name of a
field of the sources, it has a name of its own (OWN). Names that a library has too (LIBRARY) stay. Contracts, must-fail edits and
comments follow; functions of src/, strings, inputs and outputs do not change.
"""

import collections
import os
import re
import sys

LIBRARY = {"and-true", "or-false"}
OWN = {"freeBlocks": "blocks_free", "nextNumber": "next_file_number"}
DECLARED = re.compile(r"^\s*((?:(?:abbrev|unfoldable|pub|data|record)\s+)*)([^\s:(){}.,;\[\]]+) (:|\()")
WORD = re.compile(r"[^\s(){}\[\].,;:`\"'|=]+'*")


def files(*endings):
    for folder, folders, names in os.walk("crates"):
        folders[:] = sorted(f for f in folders if f != "out")
        for name in sorted(names):
            if name.endswith(endings):
                yield os.path.join(folder, name)


def read(path):
    with open(path, encoding="utf-8") as f:
        return f.read()


def declared():
    found = collections.defaultdict(set)
    for path in files(".antt"):
        if path.endswith("/Proof.antt"):
            continue
        for line in read(path).splitlines():
            m = DECLARED.match(line)
            if m and m.group(3) == ":" and not line.lstrip().startswith("--"):
                found[m.group(2)].add(path)
    return found


def snake(name):
    name = name.replace("-", "_")
    return re.sub(r"(?<=[a-z0-9])([A-Z])", lambda m: "_" + m.group(1).lower(), name)


def turns(name):
    return name[0].islower() and name not in LIBRARY and ("-" in name or re.search(r"[a-z0-9][A-Z]", name) is not None)


def table(found):
    together = collections.defaultdict(set)
    for name in found:
        together[snake(name) if turns(name) else name].add(name)
    to = {}
    for plain, names in together.items():
        first = sorted(names, key=lambda n: (not any("/specs/" in p for p in found[n]), "-" in n, "_" in n, n))[0]
        for name in names:
            new = OWN.get(name, plain if name == first else plain + "_lem")
            if new != name:
                if new in found and new not in names:
                    sys.exit(f"{name}: {new} is taken")
                to[name] = new
    return to


def turn(text, to):
    return WORD.sub(lambda m: to.get(m.group(0), m.group(0)), text)


def turn_antt(text, to, camel):
    """A comment's words stay, but for definitions and what stands in backticks."""
    out = []
    for line in text.split("\n"):
        if line.lstrip().startswith("--"):
            line = re.sub(r"`[^`]*`", lambda m: turn(m.group(0), to), turn(line, camel))
        else:
            line = turn(line, to)
        out.append(line)
    return "\n".join(out)


def turn_edit(text, to, camel):
    out, names = [], to
    for line in text.split("\n"):
        if line.startswith("file:"):
            names = camel if line.rstrip().endswith(".rt") else to
        out.append(line if line.startswith("file:") else turn(line, names))
    return "\n".join(out)


def main():
    found = declared()
    to = table(found)
    camel = {a: b for a, b in to.items() if re.search(r"[a-z0-9][A-Z]", a)}
    news = set(to.values())
    for path in files(".antt", ".rt", ".edit"):
        before = read(path)
        if path.endswith(".antt"):
            olds = set(WORD.findall(before))
            for new in sorted(news & olds):
                if any(a in olds for a, b in to.items() if b == new) and new not in found:
                    print(f"look: {path}: {new} stands beside the name that becomes it")
            after = turn_antt(before, to, camel)
        elif path.endswith(".rt"):
            after = turn(before, camel)
        else:
            after = turn_edit(before, to, camel)
        if after != before:
            with open(path, "w", encoding="utf-8") as f:
                f.write(after)
    print(f"{len(to)} names turned")


if __name__ == "__main__":
    main()
