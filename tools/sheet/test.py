#!/usr/bin/env python3
"""Tests of sheet.py, over the files of sheets/ and over texts that must be refused.

    python3 tools/sheet/test.py
"""

import os
import re
import struct
import subprocess
import sys
import tempfile
import unittest

# the repository keeps no compiled Python
sys.dont_write_bytecode = True
HERE = os.path.dirname(os.path.abspath(__file__))
ROOT = os.path.join(HERE, '..', '..')
sys.path.insert(0, HERE)

import sheet

SHEETS = sorted(name for name in os.listdir(os.path.join(ROOT, 'sheets')) if name.endswith('.txt'))


def run(folder, *words):
    done = subprocess.run([sys.executable, os.path.join(HERE, 'sheet.py'), *words], cwd=folder, capture_output=True, text=True)
    return done.returncode, done.stdout, done.stderr


def contents(*parts):
    with open(os.path.join(*parts), 'rb') as opened:
        return opened.read()


class Folder(unittest.TestCase):
    def setUp(self):
        made = tempfile.TemporaryDirectory()
        self.addCleanup(made.cleanup)
        self.folder = made.name

    def put(self, name, data):
        with open(os.path.join(self.folder, name), 'wb') as opened:
            opened.write(data)


class Order(unittest.TestCase):
    def test_names_are_those_of_the_page(self):
        page = contents(ROOT, 'docs', 'SHEET.md').decode()
        rows = re.findall(r'^\| (\d+) \| (\w+) \|', page, re.MULTILINE)
        self.assertEqual(rows, [(str(place), name) for place, name in enumerate(sheet.NAMES)])
        self.assertEqual(len(rows), 58)


class RoundTrip(Folder):
    def test_every_sheet(self):
        self.assertGreaterEqual(len(SHEETS), 18)
        for name in SHEETS:
            with self.subTest(name):
                given = os.path.join(ROOT, 'sheets', name)
                self.assertEqual(run(self.folder, 'pack', given, 'a.bin'), (0, '', ''))
                self.assertEqual(run(self.folder, 'unpack', 'a.bin', 'b.txt'), (0, '', ''))
                self.assertEqual(run(self.folder, 'pack', 'b.txt', 'b.bin'), (0, '', ''))
                self.assertEqual(contents(self.folder, 'a.bin'), contents(self.folder, 'b.bin'))
                # read here without sheet.py: a line is a name and a number, or begins with #
                lines = [line.split() for line in contents(given).decode().splitlines() if not line.startswith('#')]
                numbers = struct.unpack('<58H', contents(self.folder, 'a.bin'))
                present = {name: number for name, number in zip(sheet.NAMES, numbers) if number != 65535}
                self.assertEqual({name: int(number) for name, number in lines}, present)
                self.assertEqual(len(lines), len(present))

    def test_the_example_has_the_sheet_of_its_version(self):
        given = os.path.join(ROOT, 'sheets', 'v11.3-ts8.txt')
        self.assertEqual(run(self.folder, 'pack', given, 'a.bin'), (0, '', ''))
        self.assertEqual(contents(self.folder, 'a.bin'), contents(ROOT, 'examples', 'v11.3-features', 'sheet.bin'))

    def test_any_numbers(self):
        for numbers in [range(58), [65534] * 58, [65535] * 58, [0] * 58, range(65535, 65535 - 58, -1)]:
            data = struct.pack('<58H', *numbers)
            self.put('a.bin', data)
            code, shown, said = run(self.folder, 'unpack', 'a.bin')
            self.assertEqual((code, said), (0, ''))
            self.put('a.txt', shown.encode())
            self.assertEqual(run(self.folder, 'pack', 'a.txt', 'b.bin'), (0, '', ''))
            self.assertEqual(contents(self.folder, 'b.bin'), data)

    def test_places_and_absent_names(self):
        self.put('a.txt', b'# a comment\r\n\nkBackref 8 # eight\r\n  kBackrefWithSkip\t007\nvar_raw_advances 65535')
        self.assertEqual(run(self.folder, 'pack', 'a.txt', 'a.bin'), (0, '', ''))
        wanted = [65535] * 58
        wanted[1], wanted[55] = 8, 7
        self.assertEqual(contents(self.folder, 'a.bin'), b''.join(n.to_bytes(2, 'little') for n in wanted))
        shown = 'kBackref 8\nkBackrefWithSkip 7\nvar_raw_advances 65535\n'
        self.assertEqual(run(self.folder, 'unpack', 'a.bin'), (0, shown, ''))


class Refused(Folder):
    def refused(self, data, said):
        self.put('a.txt', data)
        self.assertEqual(run(self.folder, 'pack', 'a.txt', 'a.bin'), (1, '', f'sheet: a.txt, {said}\n'))
        self.assertFalse(os.path.exists(os.path.join(self.folder, 'a.bin')))

    def test_unknown_name(self):
        self.refused(b'kNop 1\n\n# kNope\nkNope 2\n', "line 4: unknown name 'kNope'")
        self.refused('kNöp 1'.encode(), "line 1: unknown name 'kN\\xf6p'")
        self.refused(b'knop 1', "line 1: unknown name 'knop'")

    def test_name_given_twice(self):
        self.refused(b'#\nkNop 1\nkSkip 2\nkNop 1\n', 'line 4: kNop is given a second time, the first is in line 2')

    def test_bad_numbers(self):
        for value in ['x', '-1', '+1', '1.0', '0x10', '1_0', '1e2', '\u0663', '65535', '65536', '9' * 5000]:
            said = f'line 2: kNop is {ascii(value)}, not a decimal number from 0 to 65534'
            self.refused(f'kSkip 0\nkNop {value}'.encode(), said)
        self.refused(b'tagged_size 65535', "line 1: tagged_size is '65535', not a decimal number from 0 to 65534")
        self.refused(b'var_raw_advances 65536', "line 1: var_raw_advances is '65536', not a decimal number from 0 to 65535")

    def test_other_lines(self):
        for line in ['kNop', 'kNop 1 2', 'kNop # 1', 'kNop=1']:
            self.refused(f'\n{line}'.encode(), 'line 2: not a name and a number')
        self.refused(b'kNop 1\nkSkip \xff', 'line 2: not text in UTF-8')
        # only newlines end a line
        self.refused(b'kNop 1 \r \x0c\nkNope 2', "line 2: unknown name 'kNope'")

    def test_files(self):
        missing = 'sheet: none.txt: cannot be read: No such file or directory\n'
        self.assertEqual(run(self.folder, 'pack', 'none.txt', 'a.bin'), (1, '', missing))
        self.assertEqual(run(self.folder, 'unpack', 'none.txt'), (1, '', missing))
        self.assertEqual(run(self.folder, 'pack', '.', 'a.bin'), (1, '', 'sheet: .: cannot be read: Is a directory\n'))
        self.put('a.txt', b'kNop 1')
        said = 'sheet: none/a.bin: cannot be written: No such file or directory\n'
        self.assertEqual(run(self.folder, 'pack', 'a.txt', 'none/a.bin'), (1, '', said))
        for length in [0, 115, 117, 118]:
            self.put('a.bin', bytes(length))
            said = f'sheet: a.bin: {length} bytes, but a sheet has 116\n'
            self.assertEqual(run(self.folder, 'unpack', 'a.bin', 'b.txt'), (1, '', said))
        self.assertFalse(os.path.exists(os.path.join(self.folder, 'b.txt')))

    def test_usage(self):
        for words in [[], ['pack'], ['pack', 'a.txt'], ['list', 'a.txt', 'b'], ['unpack', 'a', 'b', 'c']]:
            code, shown, said = run(self.folder, *words)
            self.assertEqual((code, shown, said.split(':')[0]), (2, '', 'usage'))


if __name__ == '__main__':
    unittest.main()
