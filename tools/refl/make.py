#!/usr/bin/env python3
"""Makes an antt module that compares the definition of the walk with the Rust on short payloads.
See README.md.

    python3 tools/refl/make.py --seed 1 --count 700 --oracle ORACLE Generated.antt
"""

import argparse
import collections
import os
import random
import re
import struct
import subprocess
import sys
import tempfile

# the crates' repository keeps no compiled Python
sys.dont_write_bytecode = True

from noted import long_integers, payloads as noted
from payloads import Payload, damaged, drawn
from sheets import SHEETS, coinciding, numbers, on_one_byte, root_array_inside, unusable

FIELDS = {'o': 4, 's': 6, 'v': 3, 'd': 5}
TOP = 1 << 31
RESERVATIONS = [[], [TOP] * 3, [TOP] * 6, [TOP] * 6, [64, TOP | 128, TOP, 32, 32, TOP | 8, TOP | 16], [TOP] * 7 + [5, 6]]
LARGE = {'o': 70 * 4, 's': 140 * 6, 'v': 70 * 3, 'd': 70 * 5}
GROUP = 25

# `whole`: values and slots are compared too
Case = collections.namedtuple('Case', 'family name sheet payload reservations trusted rooms answer whole', defaults=[True])


def ask(oracle, sheet, payload, reservations, trusted):
    """The Rust's answer: lines of words."""
    with tempfile.TemporaryDirectory() as folder:
        for name, data in (('sheet', struct.pack(f'<{len(sheet)}H', *sheet)), ('payload', bytes(payload)),
                           ('reserve', struct.pack(f'<{len(reservations)}I', *reservations)), ('trusted', bytes(trusted))):
            with open(os.path.join(folder, name + '.bin'), 'wb') as file:
                file.write(data)
        run = subprocess.run([oracle, folder], capture_output=True, text=True)
    if run.returncode:
        sys.exit(f'oracle: {run.stderr}')
    return [line.split() for line in run.stdout.splitlines()]


# ---- cases

def numbers_of(line):
    """Counts, `end` and the number of long integers of an accepted payload, which is None where
    docs/FORMAT.md and the Rust read it otherwise: such cases are left out."""
    *counts, end, long = line[1:]
    return [int(count) for count in counts], int(end), None if long == '?' else int(long)


def refusal(number, place, rooms):
    return [[number, 0, 0, 0, 0, 0, place, 0]] + [[0] * rooms[letter] for letter in 'osvd']


def accepted(rnd, lines):
    """Rooms that are just large enough, and the tables that the Rust's answer stands for in
    them."""
    counts, end, long = numbers_of(lines[0])
    rooms, tables = {}, []
    for letter, count in zip('osvd', counts):
        rows = [int(word) for line in lines[1:] if line[0] == letter for word in line[1:]]
        rooms[letter] = (count + rnd.randrange(2)) * FIELDS[letter] + rnd.randrange(FIELDS[letter])
        tables.append(rows + [0] * (rooms[letter] - len(rows)))
    return rooms, [[0] + counts + [end, 0, long]] + tables


def part(lines):
    """Where the oracle does not know a value that the closing section drops: the numbers without
    the values, objects, addresses."""
    counts, end, long = numbers_of(lines[0])
    rows = {letter: [int(word) for line in lines[1:] if line[0] == letter for word in line[1:]] for letter in 'od'}
    tables = [rows[letter] + [0] * (LARGE[letter] - len(rows[letter])) for letter in 'od']
    return LARGE, [[0, counts[0], counts[1], counts[3], end, 0, long]] + tables, False


def answered(rnd, lines):
    """Rooms and answer; None where the oracle cannot tell."""
    if lines[0][0] == 'graph':
        return part(lines) if any('?' in line for line in lines[1:]) else accepted(rnd, lines)
    return None if '?' in lines[0] else (LARGE, refusal(int(lines[0][1]), int(lines[0][2]), LARGE))


def short_room(rnd, lines, marks):
    """One table with room for fewer records than the payload has: 3 at the cursor where the first
    is missing."""
    counts = [str(len(marks[letter])) for letter in 'osvd']
    if lines[0][0] != 'graph' or any('?' in line for line in lines) or lines[0][1:5] != counts:
        return None
    letter = rnd.choice([letter for letter in 'osvd' if marks[letter]])
    k = rnd.choice([0, len(marks[letter]) - 1, rnd.randrange(len(marks[letter]))])
    rooms = dict(LARGE)
    rooms[letter] = k * FIELDS[letter] + rnd.randrange(FIELDS[letter])
    return rooms, refusal(3, marks[letter][k], rooms)


class Maker:
    def __init__(self, seed, oracle):
        self.rnd, self.oracle = random.Random(seed), oracle
        self.cases, self.untold, self.seen = [], 0, set()

    def add(self, family, name, sheet, payload, reservations=(), trusted=(), marks=None, place=None):
        """Asks the Rust and keeps the case. `place` stands where the oracle knows a refusal's number
        alone."""
        key = (tuple(sheet), bytes(payload), tuple(reservations), bytes(trusted))
        if key in self.seen:
            return
        self.seen.add(key)
        lines = ask(self.oracle, sheet, payload, reservations, trusted)
        if place is not None and lines[0][2] == '?':
            lines[0][2] = str(place)
        outcomes = [(family, answered(self.rnd, lines))]
        if marks and self.rnd.random() < .15:
            outcomes.append(('rooms', short_room(self.rnd, lines, marks)))
        for kind, outcome in outcomes:
            if outcome:
                self.cases.append(Case(kind, name, sheet, payload, reservations, trusted, *outcome))
            elif kind == family:
                self.untold += 1

    def drawn(self):
        rnd = self.rnd
        name = rnd.choice(sorted(SHEETS) + ['legacy4', 'mapFirst4'] + ['coinciding'] * 4)
        sheet = SHEETS[name] if name in SHEETS else coinciding(rnd)
        legacy = 'kSpaceMask' in sheet
        reservations = rnd.choice(RESERVATIONS) if legacy else []
        trusted = rnd.choice([[], [], [rnd.choice([0, 0, 1, 7]) for _ in range(rnd.randrange(9))]])
        spaces = sum(r >= TOP for r in reservations) + 1
        payload, marks = Payload(rnd, sheet, spaces, rnd.choice([10, 18, 26, 40])).write()
        way = rnd.random()
        if way < .24:
            payload, marks = damaged(rnd, payload), None
        elif way < .29:
            payload, marks = drawn(rnd, sheet), None
        if len(payload) <= 90:
            self.add(family_of(name), name, numbers(sheet), payload, reservations, trusted, marks)

    def unusable(self):
        sheet, length = unusable(self.rnd)
        self.add('unusable', 'unusable', (numbers(sheet) + [1])[:length], [0, 4, 0x45, 0x0D])

    def fixed(self):
        """Inputs that chance does not give: those noted, the payload's ends, depth (6) and 32 bits
        (16)."""
        for name, count, payload in noted():
            self.plainly(name, payload, [0] * 5 + [1], count=count)
        for name in sorted(SHEETS):
            for payload in ends_and_depths(SHEETS[name]):
                self.plainly(name, payload)
            for payload, place in thirty_two_bits(SHEETS[name]):
                self.plainly(name, payload, place=place)
        for family, sheet, payload in on_one_byte():
            self.add('order', 'order, ' + family, numbers(sheet), payload, [TOP] * 6 if 'kSpaceMask' in sheet else [])
        self.add('legacy', 'legacy8', numbers(SHEETS['legacy8']), [7, 255, 255, 255, 255, 0x45, 0x14], [TOP] * 3, place=6)

    def long_integers(self):
        """Integers longer than their values need, in every place where one stands."""
        for name, payload in long_integers():
            self.plainly(name, payload)

    def plainly(self, name, payload, trusted=(), place=None, count=6):
        """A case under one of the sheets, in legacy with so many reservations that each end a
        space."""
        reservations = [TOP] * count if 'kSpaceMask' in SHEETS[name] else []
        self.add(family_of(name), name, numbers(SHEETS[name]), payload, reservations, trusted, place=place)


def ends_and_depths(sheet):
    root, new, last, weak = (sheet[name] for name in ('kRootArrayConstants', 'kNewObject', 'kSynchronize', 'kWeakPrefix'))
    yield []
    yield [root, last]
    yield [new, 4, root]
    for head, most in (([new, 8, root], 63), ([new, 4, root], 64)):
        yield head + [weak] * most + [root, last]
        yield head + [weak] * (most + 1) + [root, last]
    if not sheet.get('kNumberOfSpaces', 6):
        return
    if 'kSpaceMask' in sheet and 'kNewMetaMap' not in sheet:
        address = [0] if 'kBackrefWithSkip' in sheet or sheet.get('kMapSpace', 4) == 0 else [0, 0]
        yield [new, 4, root, new] + address + [12] + [weak] * 63 + [root, last]
        yield [new, 4, root, new] + address + [12] + [weak] * 64 + [root, last]
    yield [new, 4] * 64 + [root, last]
    yield [new, 4] * 65


def thirty_two_bits(sheet):
    """Sizes and offsets about 2^32, each with the place of 16 if it is refused so: the oracle knows
    the number alone."""
    if 'kSpaceMask' not in sheet:
        return
    root, new, last, deferred = (sheet.get(name) for name in ('kRootArrayConstants', 'kNewObject', 'kSynchronize', 'kDeferred'))
    half = list((((1 << 31) // sheet['tagged_size']) << 2 | 3).to_bytes(4, 'little'))
    part = [new] + half + [root, deferred]
    yield [new, 255, 255, 255, 255, root, last], 6
    if sheet.get('kNumberOfSpaces', 6) and deferred is not None:
        yield part + [last], None
        yield [new, 8, root] + part + [last], None
        yield [new, 12, root] + part + part + [last], 16
        if 'kNewMetaMap' in sheet:
            yield part + part + [last], 13


def family_of(name):
    for start in ('modern', 'rootOnly', 'legacy', 'mapFirst', 'six'):
        if name.startswith(start):
            return start
    return name


# ---- the module

HEADER = """-- Made by tools/refl/make.py with seed {seed}: calls, and what the Rust gives for them (number,
-- counts, `end`, place, the number of long integers, the four tables).
-- Assumes nothing.
use Rattle.std.specs.Prelude.{{◌≡◌, refl, List, [], ◌∷◌, map, ℕ, replicate}}
{uses}
use Rattle.definition.specs.Memory.{{Out}}
use Rattle.definition.specs.Call.{{Rooms, Call, table_of, Answer, answer_of}}

abbrev pub numbers_of : Answer → List ℕ
numbers_of a = a.number ∷ a.objects ∷ a.slots ∷ a.values ∷ a.addresses ∷ a.end ∷ a.place ∷ a.long_integers ∷ []

abbrev pub shown : Rooms → Out (Unit {{0}}) → List (List ℕ)
shown rooms out =
    numbers_of (answer_of out) ∷
    table_of (λ m. m.objects) rooms.objects out ∷
    table_of (λ m. m.slots) rooms.slots out ∷
    table_of (λ m. m.values) rooms.values out ∷
    table_of (λ m. m.addresses) rooms.addresses out ∷
    []

pub record Case : Type 0 where
  pub call : Call
  pub rooms : Rooms
  pub answer : List (List ℕ)

abbrev pub case : List ℕ → List ℕ → List ℕ → List ℕ → ℕ → ℕ → ℕ → ℕ → List (List ℕ) → Case
case v p r t o s n d answer =
    record
    {{ call = record {{ sheet = v; payload = p; reservations = r; trusted = t }}; rooms = record {{ objects = o; slots = s; values = n; addresses = d }}; answer = answer }}

abbrev pub given : Case → List (List ℕ)
given c = shown c.rooms (graph c.call c.rooms)

-- without values and slots, where the Rust does not give a value that the closing section drops
abbrev pub numbers_of_part : Answer → List ℕ
numbers_of_part a = a.number ∷ a.objects ∷ a.slots ∷ a.addresses ∷ a.end ∷ a.place ∷ a.long_integers ∷ []

abbrev pub shown_part : Rooms → Out (Unit {{0}}) → List (List ℕ)
shown_part rooms out =
    numbers_of_part (answer_of out) ∷
    table_of (λ m. m.objects) rooms.objects out ∷
    table_of (λ m. m.addresses) rooms.addresses out ∷
    []

abbrev pub given_part : Case → List (List ℕ)
given_part c = shown_part c.rooms (graph c.call c.rooms)
"""

# of the crates below `definition` those whose definitions the walk uses, and itself
CRATES = ['stream', 'sheet', 'heads', 'tables', 'alloc', 'backref', 'definition']
# what the walk does not use
UNUSED = ['Smi', 'Usable', 'Assigning', 'Cases', 'Generated']


def unfolded(crates):
    """The definitions that are unfolded only where it is asked for: the lines that take them in,
    and their names."""
    uses, names = [], []
    for crate in CRATES:
        folder = os.path.join(crates, crate, 'specs')
        for file in sorted(os.listdir(folder)):
            part = file.removesuffix('.antt')
            if part in UNUSED or not file.endswith('.antt'):
                continue
            with open(os.path.join(folder, file), encoding='utf-8') as text:
                found = re.findall(r'^unfoldable pub (\S+) :', text.read(), re.M)
            if found:
                uses.append(f'use Rattle.{crate}.specs.{part}.{{{", ".join(found)}}}')
                names += found
    return '\n'.join(uses), ' '.join(names)


def listed(items):
    return '(' + ' ∷ '.join([str(item) for item in items] + ['[]']) + ')' if items else '[]'


def table(numbers_):
    return f'(replicate {len(numbers_)} 0)' if len(numbers_) > 12 and not any(numbers_) else listed(numbers_)


def shown(case, sheets):
    rooms = ' '.join(str(case.rooms[letter]) for letter in 'osvd')
    answer = listed([table(part) for part in case.answer])
    return f'    case {sheets[tuple(case.sheet)]} {listed(case.payload)} {listed(case.reservations)} {listed(case.trusted)} {rooms}\n    {answer}'


def module(cases, seed, group, crates):
    uses, names = unfolded(crates)
    sheets, text = {}, [HEADER.format(seed=seed, uses=uses)]
    for case in cases:
        if tuple(case.sheet) not in sheets:
            sheets[tuple(case.sheet)] = f'sheet{len(sheets)}'
            name = sheets[tuple(case.sheet)]
            text.append(f'-- {case.name}\nabbrev pub {name} : List ℕ\n{name} = {listed(case.sheet)}\n')
    for whole, kind, given in ((True, 'cases', 'given'), (False, 'parts', 'given_part')):
        chosen = [(number, case) for number, case in enumerate(cases) if case.whole == whole]
        for start in range(0, len(chosen), group):
            some = chosen[start:start + group]
            name = f'{kind}{some[0][0]}'
            rows = [f'    -- {number}: {case.family}, {case.name}\n{shown(case, sheets)} ∷' for number, case in some]
            text.append(f'abbrev pub {name} : List Case\n{name} =\n' + '\n'.join(rows) + '\n    []\n')
            text.append(f'pub {name}_hold : map {given} {name} ≡ map (λ (c : Case). c.answer) {name}\n'
                        f'unfolding {names}\n{name}_hold = refl\n')
    return '\n'.join(text)


def summary(cases, untold):
    families = collections.Counter(case.family for case in cases)
    outcomes = collections.Counter(case.answer[0][0] for case in cases)
    partly = sum(not case.whole for case in cases)
    print(f'{len(cases)} cases, {partly} of them without values and slots; {untold} left out because the oracle cannot tell', file=sys.stderr)
    print('families:', ', '.join(f'{name} {n}' for name, n in sorted(families.items())), file=sys.stderr)
    print('accepted:', outcomes.pop(0, 0), 'refused:', ', '.join(f'{k} by {n}' for n, k in sorted(outcomes.items())), file=sys.stderr)


def main():
    options = argparse.ArgumentParser(description=__doc__)
    options.add_argument('--seed', type=int, default=1)
    options.add_argument('--count', type=int, default=700)
    options.add_argument('--group', type=int, default=GROUP, help='cases in one declaration')
    options.add_argument('--only', type=int, nargs='*', help='numbers of the cases to write')
    options.add_argument('--oracle', default='tools/oracle/target/release/oracle')
    options.add_argument('--crates', default='crates', help='the folder of the crates, for the names of their definitions')
    options.add_argument('file')
    given = options.parse_args()
    maker = Maker(given.seed, given.oracle)
    maker.fixed()
    for _ in range(6):
        maker.unusable()
    while len(maker.cases) < given.count:
        maker.drawn()
    maker.long_integers()
    # The definition and the Rust differ there (docs/DIFFERENCES.md, D45).
    maker.cases = [case for case in maker.cases if not root_array_inside(case.sheet)]
    summary(maker.cases, maker.untold)
    cases = [maker.cases[k] for k in given.only] if given.only else maker.cases
    with open(given.file, 'w', encoding='utf-8') as file:
        file.write(module(cases, given.seed, given.group, given.crates))


if __name__ == '__main__':
    main()
