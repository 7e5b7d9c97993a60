#!/usr/bin/env python3
"""Makes the frozen vectors of crates/vectors from the Rust's answers. See docs/VECTORS.md.

    export JSCD_SRC=FOLDER
    cargo build --release --offline --locked --manifest-path tools/oracle/Cargo.toml
    python3 tools/vectors/make.py crates/vectors/data
    python3 tools/vectors/make.py --list
"""

import argparse
import collections
import os
import random
import struct
import sys

# the repository keeps no compiled Python
sys.dont_write_bytecode = True
sys.path.insert(0, os.path.join(os.path.dirname(os.path.abspath(__file__)), '..', 'refl'))

import make as refl
from payloads import Payload
from sheets import A, SHEETS, numbers, root_array_inside

SEED = 1
FAMILIES = ['examples', 'modern', 'legacy', 'map-first', '6.x', 'shared bytes', 'unusable', 'rooms']
FAMILY_OF = {'a': 'modern', 'modern': 'modern', 'rootOnly': 'modern', 'legacy': 'legacy', 'mapFirst': 'map-first', 'six': '6.x',
             'coinciding': 'shared bytes', 'order': 'shared bytes', 'unusable': 'unusable', 'rooms': 'rooms'}
# how many of the accepted cases of a family are kept, and of those refused with the same number
ACCEPTED, REFUSED = 24, 4
# the program's arrays
MOST_BYTES, MOST_RESERVATIONS, MOST_TRUSTED, MOST_NUMBERS = 512, 16, 64, 2048

# examples a to l, and two like a: the payload, and the refusal's number and place as docs/FORMAT.md
# says them ("Examples"; None: accepted)
EXAMPLES = [
    ('a', '00 08 45 46 0D', None), ('b', '', (4, 0)), ('c', '00 04 45 0D', None), ('d', '00 00 45 0D', (12, 0)),
    ('e', '00 10 45 81 46 0D', None), ('f', '00 0C 45 81 46 0D', (12, 0)), ('g', '00 0C 45 08 00 90 0D', None),
    ('h', '00 08 45 90 0D', (9, 4)), ('i', '00 08 45 08 04 0D', (8, 5)), ('j', '00 0C 45 0E 00 04 46 0F 00 0D', None),
    ('k', '00 08 45 46 0D 0D', (14, 5)), ('l', '00 08 45 12 00 AA 46 0D', (12, 0)), ('a cut', '00 08 45 46', (13, 4)),
    ('a, longer size', '00 09 00 45 46 0D', None),
]
# lines that docs/FORMAT.md says of the accepted ones, in the form of graphlist
SAID = {
    'a': ['graph 1 2 0 0 5 0', 'o 16 0 0 2', 's 0 0 2 5 0 0', 's 0 1 2 6 0 0'],
    'e': ['s 0 1 7 3 0 0'],
    'j': ['s 0 1 1 1 0 0'],
    'a, longer size': ['graph 1 2 0 0 6 1', 'o 16 0 0 2', 's 0 0 2 5 0 0', 's 0 1 2 6 0 0'],
}


def examples(oracle):
    for name, text, refusal in EXAMPLES:
        payload = list(bytes.fromhex(text))
        lines = refl.ask(oracle, numbers(A), payload, [], [])
        shown = [' '.join(line) for line in lines]
        wanted = [f'refused {refusal[0]} {refusal[1]}'] if refusal else SAID.get(name, [])
        if not set(wanted) <= set(shown) or (lines[0][0] == 'graph') != (refusal is None):
            sys.exit(f'example {name}: the Rust gives {shown}, and not {wanted}')
        answer = refl.answered(random.Random(SEED), lines)
        yield refl.Case('examples', f'example {name}', numbers(A), payload, [], [], *answer)


def compared(oracle):
    """Of the cases that tools/refl makes with this seed, without those of which the oracle can't
    tell all: the fixed ones, and some of the others. Of these none with kRootArray inside the span
    of kNewObject, which the Rust reads otherwise."""
    maker = refl.Maker(SEED, oracle)
    maker.fixed()
    fixed = [case for case in maker.cases if case.family != 'order']
    maker.cases = [case for case in maker.cases if case.family == 'order']
    for _ in range(6):
        maker.unusable()
    while len(maker.cases) < 1300:
        maker.drawn()
    for _ in range(20):
        maker.unusable()
    yield from (case for case in fixed if case.whole)
    found = collections.defaultdict(list)
    for case in maker.cases:
        if case.whole:
            found[case.family, case.answer[0][0]].append(case)
    for (_, outcome), cases in sorted(found.items()):
        most = min(len(cases), {0: ACCEPTED, 1: len(cases)}.get(outcome, REFUSED))
        chosen = (cases[k * len(cases) // most] for k in range(most))
        yield from (case for case in chosen if not root_array_inside(case.sheet))


def long_integers(oracle):
    """Integers longer than their values need."""
    maker = refl.Maker(SEED, oracle)
    maker.long_integers()
    yield from (case for case in maker.cases if case.whole)


def rooms(oracle):
    """Payloads with rooms that are just enough, and with one number less in each table that is
    used: 3 where its last record is missing."""
    rnd = random.Random(SEED)
    for name in ('a', 'modern4', 'legacy8', 'legacy4', 'mapFirst8', 'mapFirst4', 'six8', 'six4'):
        sheet = SHEETS[name]
        reservations = [refl.TOP] * 6 if 'kSpaceMask' in sheet else []
        letters = 'osvd' if reservations else 'osv'
        while True:
            payload, marks = Payload(rnd, sheet, 7 if reservations else 1, 24).write()
            lines = refl.ask(oracle, numbers(sheet), payload, reservations, [])
            agrees = marks and lines[0][0] == 'graph' and lines[0][1:5] == [str(len(marks[letter])) for letter in 'osvd']
            if agrees and all(marks[letter] for letter in letters) and not any('?' in line for line in lines) and len(payload) < 60:
                break
        _, answer = refl.accepted(rnd, lines)
        exact = {letter: len(marks[letter]) * refl.FIELDS[letter] for letter in 'osvd'}
        tables = [table[:exact[letter]] for table, letter in zip(answer[1:], 'osvd')]
        yield refl.Case('rooms', name, numbers(sheet), payload, reservations, [], exact, answer[:1] + tables)
        for letter in letters:
            short = dict(exact)
            short[letter] -= 1
            yield refl.Case('rooms', name, numbers(sheet), payload, reservations, [], short, refl.refusal(3, marks[letter][-1], short))


# ---- the files

def number(n):
    """One byte below 248; else 247 and the number of bytes, which follow, the lowest first."""
    if n < 248:
        return bytes([n])
    count = (n.bit_length() + 7) // 8
    return bytes([247 + count]) + n.to_bytes(count, 'little')


def listed(items):
    return number(len(items)) + b''.join(number(item) for item in items)


def encoded(case, sheet):
    """Family, sheet and its length, payload, reservations, trusted list, rooms; then the answer
    and, of each table, the numbers up to the last record."""
    parts = [number(FAMILIES.index(FAMILY_OF.get(case.family, case.family))), number(sheet), number(len(case.sheet)),
             listed(case.payload), listed(case.reservations), listed(case.trusted)]
    parts += [number(case.rooms[letter]) for letter in 'osvd']
    parts += [number(n) for n in case.answer[0]]
    for letter, count, table in zip('osvd', case.answer[0][1:5], case.answer[1:]):
        parts += [number(n) for n in table[:count * refl.FIELDS[letter]]]
    return b''.join(parts)


def fits(case):
    return len(case.payload) <= MOST_BYTES and len(case.reservations) <= MOST_RESERVATIONS and \
        len(case.trusted) <= MOST_TRUSTED and max(case.rooms.values()) <= MOST_NUMBERS


def files(cases):
    """sheets.bin: 59 numbers of two bytes for each sheet, absent ones where it is shorter.
    cases.bin: how many cases there are, then they."""
    sheets, out = {}, [number(len(cases))]
    for case in cases:
        key = tuple(case.sheet)
        sheets.setdefault(key, len(sheets))
        out.append(encoded(case, sheets[key]))
    rows = [struct.pack('<59H', *(sheet + (65535,) * (59 - len(sheet)))) for sheet in sheets]
    return b''.join(rows), b''.join(out)


def main():
    options = argparse.ArgumentParser(description=__doc__, formatter_class=argparse.RawDescriptionHelpFormatter)
    options.add_argument('--list', action='store_true', help='print the cases in words instead')
    options.add_argument('--oracle', default='tools/oracle/target/release/oracle')
    options.add_argument('folder', nargs='?')
    given = options.parse_args()
    cases = [*examples(given.oracle), *compared(given.oracle), *rooms(given.oracle), *long_integers(given.oracle)]
    if not all(fits(case) for case in cases):
        sys.exit('a case is larger than the arrays of the program')
    if given.list:
        for k, case in enumerate(cases):
            answer = case.answer[0]
            outcome = f'refused {answer[0]} {answer[6]}' if answer[0] else 'graph ' + ' '.join(str(n) for n in answer[1:6] + answer[7:])
            print(f'{k}: {FAMILY_OF.get(case.family, case.family)}, {case.name}: {bytes(case.payload).hex(" ")}: {outcome}')
        return
    if not given.folder:
        options.error('no folder given')
    for name, data in zip(('sheets.bin', 'cases.bin'), files(cases)):
        with open(os.path.join(given.folder, name), 'wb') as file:
            file.write(data)
    families = collections.Counter(FAMILY_OF.get(case.family, case.family) for case in cases)
    outcomes = collections.Counter(case.answer[0][0] for case in cases)
    for name in FAMILIES:
        print(f'{name}: {families[name]}')
    for outcome in sorted(outcomes):
        print(f'refused with {outcome}: {outcomes[outcome]}' if outcome else f'accepted: {outcomes[outcome]}')


if __name__ == '__main__':
    main()
