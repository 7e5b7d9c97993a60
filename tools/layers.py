#!/usr/bin/env python3
"""Holds docs/ARCHITECTURE.md to crates.txt: each crate stands once in the picture and once in the
table of crates, and what a crate depends on stands in a lower row of the picture.

    python3 tools/layers.py
"""

import os
import re
import sys

ROOT = os.path.join(os.path.dirname(os.path.abspath(__file__)), '..')
# the picture's rows begin with a label of so many columns
LABEL = 15


def read(*parts):
    with open(os.path.join(ROOT, *parts), encoding='utf-8') as file:
        return file.read()


def crates():
    """Each crate of crates.txt, and what it depends on."""
    found = {}
    for line in read('crates.txt').splitlines():
        name, colon, below = line.split('#')[0].partition(':')
        if colon:
            found[name.split()[0]] = below.split()
    return found


def faults(known, page):
    picture = re.search(r'```layers\n(.*?)```', page, re.DOTALL).group(1).splitlines()
    table = re.findall(r'^\| `([a-z_]+)` \|', page, re.MULTILINE)
    row_of, placed = {}, []
    for row, line in enumerate(picture):
        for name in line[LABEL:].split():
            placed.append(name)
            row_of[name] = row
    for what, names in (('picture', placed), ('table', table)):
        yield from (f'{name} is not once in the {what}' for name in known if names.count(name) != 1)
        yield from (f'{name} of the {what} is no crate' for name in names if name not in known)
    for name, below in known.items():
        for other in below:
            if other in known and not row_of.get(name, 0) < row_of.get(other, 0):
                yield f'{name} depends on {other}, which does not stand below it'


if __name__ == '__main__':
    said = list(faults(crates(), read('docs', 'ARCHITECTURE.md')))
    print('\n'.join(said) if said else 'docs/ARCHITECTURE.md has the crates of crates.txt')
    sys.exit(bool(said))
