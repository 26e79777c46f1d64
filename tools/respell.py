#!/usr/bin/env python3
"""Brings the names of this repository's own definitions and lemmas to today's spelling.

usage: python3 tools/respell.py          at the top, once, after the kit's port.py
       python3 tools/respell.py --look   writes nothing, and prints each name with what it would become

Words are joined by an underscore (`first-result` becomes `first_result`), facts and types are in camel case
(`Fits-body` becomes `FitsBody`). Names that the library or Rattle itself made stay: only names that a file below
specs/ or proofs/ declares, or an import gives, are turned. It stops, and writes nothing, where two names would fall together.
"""
import collections
import os
import re
import sys

TOKEN = re.compile(r"(?<![\w'′·◌-])[A-Za-z][\w'′]*(?:-[\w'′]+)+(?![\w'′·◌-])")
WORD = re.compile(r"(?<![\w'′·◌-])[A-Za-z][\w'′]*(?:-[\w'′]+)*(?![\w'′·◌-])")
TOP = re.compile(r"^(?:(?:abbrev|unfoldable|record|data|pub) +)*(?!use |mod |pub |where|unfolding)([^\s:({]+)")
FIELD = re.compile(r"^ +(?:pub )?([^\s:({]+)(?: [^:]*)? : ")
GENERATED = re.compile(r"^(?:(?:abbrev|pub) +)*([^\s:({]+) : goal\.")


def files():
    for folder, dirs, names in os.walk("crates"):
        dirs[:] = sorted(d for d in dirs if d != "out")
        for name in sorted(names):
            if name.endswith((".antt", ".rt", ".edit")):
                yield os.path.join(folder, name)


def declared(path, lines):
    """The names that a file declares: of the top, and the indented ones of records, data and local definitions."""
    made = {m.group(1) for line in lines if (m := GENERATED.match(line))}
    for line in lines:
        if line.startswith("--"):
            continue
        if line.startswith(("use ", "ghost use ")):
            yield from (w for w in re.findall(r" as ([\w'-]+)", line) if TOKEN.fullmatch(w))
        m = (TOP.match(line) or FIELD.match(line)) if path.endswith(".antt") else None
        if m and m.group(1) not in made and TOKEN.fullmatch(m.group(1)):
            yield m.group(1)


# Where the plain turn would give a name that a field or a type of the sources has.
OTHERWISE = {
    "first-result": "first_result_of",
    "Use-states": "UseStatesFound",
    "block-entries": "block_entries_of",
    "edge-entries": "edge_entries_of",
}


def turned(name):
    if name in OTHERWISE:
        return OTHERWISE[name]
    if name[0].isupper():
        return "".join(part[:1].upper() + part[1:] for part in name.split("-"))
    return name.replace("-", "_")


def main():
    texts = {p: open(p, encoding="utf-8").read() for p in files()}
    own = set()
    for path, text in texts.items():
        if not path.endswith(".edit"):
            own.update(declared(path, text.splitlines()))
    library = set()
    for text in texts.values():
        for m in re.finditer(r"use (?:Rattle\.std|borrow|Prim|mathlib|antt|sem)[\w.+'-]*\.\{([^}]*)\}", text):
            library.update(w.strip().split(" as ")[-1] for w in m.group(1).split(","))
    own -= library
    new = {n: turned(n) for n in own}
    clashes = []
    for name, count in collections.Counter(new.values()).items():
        if count > 1:
            clashes.append(f"{name}: from {sorted(n for n in new if new[n] == name)}")
    for path, text in texts.items():
        if not path.endswith(".antt"):
            continue
        words = set(WORD.findall("\n".join(l for l in text.splitlines() if not l.startswith("--"))))
        for name in words & own:
            if new[name] in words and not re.search(r"proofs\.(?:\w+\.)*" + new[name] + r"\.(?:Given|Goals)", text):
                clashes.append(f"{path}: {name} and {new[name]}")
    if clashes and "--look" not in sys.argv:
        print("\n".join(sorted(clashes)))
        raise SystemExit(1)
    count = 0
    for path, text in texts.items():
        def swap(m):
            before = text[max(0, m.start() - 2) : m.start()]
            if m.group(0) not in new or (before == "c." and "/proofs/" in path):
                return m.group(0)
            return new[m.group(0)]
        out = TOKEN.sub(swap, text)
        if out != text:
            count += 1
            if "--look" not in sys.argv:
                open(path, "w", encoding="utf-8").write(out)
    print(f"{len(new)} names turned in {count} files")
    if "--look" in sys.argv:
        print("\n".join(sorted(clashes)))
        print("\n".join(f"  {n} -> {new[n]}" for n in sorted(new)))


main()
