#!/usr/bin/env python3
"""Makes sheet.bin from a text of `name value` lines, and a text from sheet.bin. See README.md.

    python3 tools/sheet/sheet.py pack TEXT SHEET.BIN
    python3 tools/sheet/sheet.py unpack SHEET.BIN [TEXT]
"""

import re
import struct
import sys

# the order of docs/SHEET.md; test.py holds it to that page
NAMES = """kNewObject kBackref kRootArray kAttachedReference kSynchronize kNop kHotObject kRootArrayConstants kFixedRawData
kNextChunk kAlignmentPrefix kHotObjectWithSkip kRootArrayConstantsWithSkip kReadOnlyHeapRef kBuiltin kExternalReference
kApiReference kInternalReference kInternalReferenceEncoded kDeoptimizerEntryPlain kDeoptimizerEntryFromCode
kOffHeapBackingStore kVariableRawCode kEmbedderFieldsData kOffHeapTarget kPartialSnapshotCache kStartupObjectCache
kReadOnlyObjectCache kSharedHeapObjectCache kRegisterPendingForwardRef kClearedWeakReference kWeakPrefix
kIndirectPointerPrefix kProtectedPointerPrefix kInitializeSelfIndirectPointer kAllocateJSDispatchEntry kJSDispatchEntry
kVariableRawData kSkip kFixedRepeat kFixedRepeatRoot kVariableRepeat kVariableRepeatRoot kNewMetaMap
kNewContextlessMetaMap kNewContextfulMetaMap kResolvePendingForwardRef kDeferred kNumberOfSpaces kMapSpace kLoSpace
kRootArrayConstantsMask kSpaceTagSize kPageSizeBits kSpaceMask kBackrefWithSkip tagged_size var_raw_advances""".split()

ABSENT = 65535
LAYOUT = f'<{len(NAMES)}H'
LENGTH = struct.calcsize(LAYOUT)


class Fault(Exception):
    """What is wrong with a file, in one line."""


def most(name):
    """The largest number a name may have. 65535 marks absent names, but is a true var_raw_advances
    like any other number than 0."""
    return 65535 if name == 'var_raw_advances' else 65534


def parse(data, file):
    """The numbers by name that a text gives."""
    found, places = {}, {}
    # bytes are split at newlines alone, so that the lines are those an editor counts
    for number, line in enumerate(data.split(b'\n'), 1):
        where = f'{file}, line {number}'
        try:
            words = line.decode('utf-8').split('#')[0].split()
        except UnicodeDecodeError:
            raise Fault(f'{where}: not text in UTF-8') from None
        if not words:
            continue
        if len(words) != 2:
            raise Fault(f'{where}: not a name and a number')
        name, value = words
        if name not in NAMES:
            raise Fault(f'{where}: unknown name {ascii(name)}')
        if name in found:
            raise Fault(f'{where}: {name} is given a second time, the first is in line {places[name]}')
        # the length is tested before the number is made, so that any number of digits gets this
        # answer
        digits = value.lstrip('0') or '0'
        if not re.fullmatch('[0-9]+', value) or len(digits) > 5 or int(digits) > most(name):
            raise Fault(f'{where}: {name} is {ascii(value)}, not a decimal number from 0 to {most(name)}')
        found[name], places[name] = int(digits), number
    return found


def pack(found):
    return struct.pack(LAYOUT, *(found.get(name, ABSENT) for name in NAMES))


def unpack(data, file):
    if len(data) != LENGTH:
        raise Fault(f'{file}: {len(data)} bytes, but a sheet has {LENGTH}')
    numbers = zip(NAMES, struct.unpack(LAYOUT, data))
    return {name: number for name, number in numbers if number <= most(name)}


def text(found):
    return ''.join(f'{name} {found[name]}\n' for name in NAMES if name in found)


def read(file):
    try:
        with open(file, 'rb') as opened:
            return opened.read()
    except OSError as fault:
        raise Fault(f'{file}: cannot be read: {fault.strerror}') from None


def write(file, data):
    try:
        with open(file, 'wb') as opened:
            opened.write(data)
    except OSError as fault:
        raise Fault(f'{file}: cannot be written: {fault.strerror}') from None


def main(words):
    # the output is opened only when all of the input is right
    command, files = words[:1], words[1:]
    if command == ['pack'] and len(files) == 2:
        write(files[1], pack(parse(read(files[0]), files[0])))
    elif command == ['unpack'] and len(files) in (1, 2):
        made = text(unpack(read(files[0]), files[0]))
        if len(files) == 2:
            write(files[1], made.encode())
        else:
            print(made, end='')
    else:
        print('usage: sheet.py pack TEXT SHEET.BIN, or sheet.py unpack SHEET.BIN [TEXT]', file=sys.stderr)
        return 2
    return 0


if __name__ == '__main__':
    try:
        sys.exit(main(sys.argv[1:]))
    except Fault as fault:
        print(f'sheet: {fault}', file=sys.stderr)
        sys.exit(1)
