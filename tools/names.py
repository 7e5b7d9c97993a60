#!/usr/bin/env python3
"""Checks that each definition which docs/ names exists.

A name is written `crate Module.name`, or `Module.name` where the crate is `definition`, one that
promises (assurance, cache_graph, laws), or the one that the row of a table begins with. Prints a
line for each name that does not exist, and ends with 1 if there is one.
"""
import pathlib
import re
import sys

ROOT = pathlib.Path(__file__).resolve().parent.parent
NAMED = re.compile(r"`(?:([a-z_]+) )?([A-Z]\w*)\.([\w'+-]+)`")
PAGES = ("FORMAT.md", "DIFFERENCES.md", "GUARANTEES.md", "ARCHITECTURE.md")


def definitions(crate, module):
    """The text of a module of specs/ or proofs/, or None."""
    for part in ("specs", "proofs"):
        file = ROOT / "crates" / crate / part / (module + ".antt")
        if file.is_file():
            return file.read_text()
    return None


def is_defined(name, text):
    name = re.escape(name)
    return re.search(rf"pub (?:record |data )?{name}(?= |$)|^  {name} :", text, re.M)


def main():
    wrong = 0
    for page in PAGES:
        row = "definition"
        for number, line in enumerate((ROOT / "docs" / page).read_text().splitlines(), 1):
            first = re.match(r"\| `([a-z_]+)` \|", line)
            row = first[1] if first else row if line.startswith("| |") else "definition"
            for crate, module, name in NAMED.findall(line):
                crates = [crate] if crate else [row, "definition", "assurance", "cache_graph", "laws"]
                texts = [t for t in (definitions(c, module) for c in crates) if t is not None]
                if not texts and not crate:
                    continue
                if not any(is_defined(name, t) for t in texts):
                    print(f"docs/{page}:{number}: no {crate + ' ' if crate else ''}{module}.{name}")
                    wrong += 1
    sys.exit(1 if wrong else 0)


main()
