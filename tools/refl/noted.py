"""Inputs named in docs/DIFFERENCES.md, others at the corners of the format, and inputs for
with-skip amounts, the hot ring and long integers, by sheet."""

from sheets import SHEETS

NOTED = {
    'a': """
        00 08 45 46 0D; 00 04 45 0D; 00 00 45 0D; 00 10 45 81 46 0D; 00 0C 45 81 46 0D; 00 0C 45 08 00 90 0D; 00 08 45 90 0D;
        00 08 45 08 04 0D; 00 0C 45 0E 00 04 46 0F 00 0D; 00 08 45 46 0D 0D; 00 08 45 12 00 AA 46 0D; 00 08 45 46;
        00 09 00 45 46 0D;
        00 14 45 0A 04 0A 08 90 92 0D; 00 10 45 0A 04 00 04 46 91 0D; 00 10 45 0A 04 08 00 90 91 0D;
        00 2C 45 0A 00 0A 04 0A 08 0A 0C 0A 10 0A 14 0A 18 0A 1C 0A 20 90 0D; 00 0C 45 46 46 47 90 0D; 00 14 45 10 0E 00 04 46 0F 24 0E 41 0D;
        00 08 00 04 45 08 00 0D; 00 04 08 00 0D; 00 04 61 01 01 01 01 01 01 01 01 01 01 01 01 01 01 01 01 0D; 00 04 80 45 0D;
        00 04 10 45 0D; 00 04 0E 0D; 00 10 45 0E 00 04 46 0F 00 47 0D; 00 08 45 0C 46 0D; 00 0C 45 0E 00 0C 46 11 0F 00 47 0D;
        00 0C 45 10 0E 00 08 46 0F 00 47 0D; 00 1C 45 10 0E 0E 00 08 46 0F 04 46 0E 00 08 46 0F 00 46 00 08 46 0F 08 46 0D;
        00 08 45 0F 14 46 0D; 00 08 0E 0E 0D; 00 0C 45 80 0E 0D; 00 04 45 0E 00 08 46 0E 0D; 00 08 45 10 46 0D;
        00 0C 45 10 61 01 01 01 01 01 01 01 01 01 01 01 01 01 01 01 01 0D; 00 08 45 10 10 08 00 0D; 00 0C 45 80 80 46 0D;
        00 0C 45 80 10 46 0D; 00 08 45 12 00 46 0D; 00 08 45; 00 08 45 60; 00 04 45; 00 04 45 0D EE; 00 04 45 46 0D""",
    'modern8': """
        00 08 45 18 0C; 00 08 45 19 0C; 00 08 45 1A 0C; 00 08 45 1D 46 0C; 00 04 45 1D 1E 46 0C; 00 10 45 80 0F 12 0F 0C;
        00 14 45 13 01 04 46 14 02 04 46 15 16 04 0C; 00 4C 45 0D 00 46 0C; 00 4C 45 1B 00 46 0C; 00 08 45 0C 0C""",
    'legacy8': """
        00 08 45 0C 00 14; 00 08 45 0D 00 14; 00 0C 45 04 04 46 0C 00 14; 00 04 08 00 00 14; 00 04 45; 00 04 45 14 EE; 00 04 45 15 00 00 08 46 47 14; 00 04 45 1D 00 08 46 47 14; 00 0C 45 46 16 14;
        07 08 45 46 14; 00 04 45 FF 13 13 14 13; 00 04 45 1D 00 08 FF 14; 00 04 45 1D 00; 00 04 45 1D 00 00 45 13; 00 04 45 00 04;
        02 0C 45 16 02 00 00 0C 41 42 14; 02 08 45 02 28 46 16 02 00 40 28 41 42 43 44 45 46 47 48 49 14;
        02 0C 45 16 02 00 00 0C 61 01 01 01 01 01 01 01 01 01 01 01 01 01 01 01 01 14; 02 0C 45 16 02 00 00 0C 80 46 14;
        02 0C 45 16 02 00 00 0C 41 02 04 45 14; 02 0C 45 16 02 00 20 0C 41 14""",
    'legacy4': """
        02 18 45 18 02 0C 46 47 48 18 0A 00 60 02 08 46 47 0A 00 A0 45 14; 02 0C 45 17 05 04 46 02 04 47 14;
        02 14 45 17 02 04 46 02 04 47 0A 00 08 0A 00 20 14; 02 10 45 18 02 04 46 19 02 04 46 0A 00 20 14;
        02 0C 45 17 15 02 17 02 04 46 02 04 47 14; 00 04 45 17 18 1D 02 04 46 19 1D 02 04 46 14""",
    'mapFirst4': """
        01 08 45 15 01 15 01 46 14; 01 08 45 15 02 46 14; 01 08 45 18 15 01 46 14; 01 08 45 18 18 46 14; 01 04 45 01 08 46;
        01 10 45 1E 18 01 08 18 02 04 46 1F 00 46 47 14; 01 0C 45 1E 15 02 01 04 46 1F 00 14; 01 04 45 17 01 04 46 01 04 46 14""",
    'six8': """
        00 0C A1 20 46 14; 00 10 A1 20 00 08 45 46 46 14; 00 10 A1 20 20 20 46 14; 00 10 A1 20 28 0C 46 46 46 14;
        00 04 A1 20 1D 00 0C 45 46 14; 00 04 A1 20 00 00 0C 46 1D 00 0C 45 46 14; 00 0C A1 20 16 1D 00 0C 45 46 14;
        00 0C 45 23 20 04 14; 00 0C 45 2B 20 04 14; 00 0C 45 A1 10 46 14; 00 10 45 24 04 04 46 26 04 46 27 04 A2 00 14;
        00 10 45 46 80 81 14; 00 14 45 81 1A 08 14; 00 04 45 00 00 28 46 81 1A 00 14; 00 04 80 14; 00 08 20 04 46 14;
        00 08 28 04 46 14; 00 08 45 1D 81 14; 05 08 00 45 46 14; 00 0C 45 05 04 00 46 0D 00 14; 00 08 45 35 00 00 14;
        00 04 45 00 00 28 28 04 20 20 46 14; 00 0C 45 38 20 14; 00 10 45 30 20 00 38 00 14""",
    'six8Small': """
        02 08 45 0A 02 00 04 14; 02 0C 45 04 04 46 08 02 00 04 14; 02 0C 45 0A 06 00 04 90 14; 02 08 45 0A FF FF FF FF 14""",
    'six8Stays': """
        00 10 45 1B 0C 01 02 03 46 20 10 20 30 14; 00 0C 45 1E 80 14; 00 10 45 1E 80 00 04 46 1F 00 14;
        00 04 45 00 00 14 1E 1B 08 01 02 1D 00 04 45 1F 00 14""",
}

# with three reservations: spaces 4 and above have no counters
FEW_SPACES = {
    'legacy4': """
        02 0C 45 17 05 04 46 02 04 47 14; 02 10 45 18 04 04 46 02 04 47 02 04 47 14; 02 0C 45 05 04 46 0D 00 14;
        02 0C 45 15 05 05 04 46 0D 00 14; 04 0C 45 17 0C 00 02 04 46 14""",
    'mapFirst4': "02 0C 45 17 05 04 46 02 04 47 14; 05 0C 45 17 15 05 02 04 45 46 14",
}


def payloads():
    """Sheets, how many reservations there are in legacy, and payloads."""
    for count, inputs in ((6, NOTED), (3, FEW_SPACES)):
        for sheet, text in inputs.items():
            for payload in text.split(';'):
                yield sheet, count, list(bytes.fromhex(payload))


# ---- integers that are longer than their values need

# where an integer is cut, where a fault follows, in deferred entries, and bytes that are none
LONG = {
    'a': """
        00 09 00 45 46 0D; 00 0A 00 00 45 46 0D; 00 0B 00 00 00 45 46 0D; 00 0D 00 45 0E 00 05 00 46 0F 01 00 09 01 00 05 00 0B 01 00 0D;
        00 4D 00 45 13 01 00 46 0D; 00 0D 00 45 08 02 00 00 0A 03 00 00 01 0D; 00 09 00 45 46; 00 09 00 45 08 05 00 0D""",
    'rootOnly8': "00 0C 45 A0 01 0C; 00 4D 00 45 1B 01 00 01 0C",
    'legacy8': """
        00 04 45 1D 08 01 00; 00 04 45 1D 08 01 00 01; 00 04 45 1D 08 01; 00 04 45 1D 08 00 01; 00 04 45 00 05 00 09 00 14;
        00 04 45 1D 0C 05 00 14; 04 08 45 0C 01 00 14; 02 0C 45 16 02 01 00 02 00 00 0D 00 41 42 14; 00 08 45 15 01 46 14;
        02 08 45 02 01 00 01 00 09 00 46 47 14; 02 08 45 46 02 01 00 01 00 09 00 12 05 00 02 00 00""",
    'six8': "05 09 00 01 45 46 14; 00 08 45 12 01; 00 04 45 1D 30 01 00 01; 00 04 45 1D 31 01 00 01 00 14",
    'six8Small': "04 08 45 08 03 00 40 00 14; 04 08 45 08 03 00 00 04 14; 02 08 45 0A 02 00 04 14; 02 08 45 0A 03 00 04 00 14",
}

# names and how many integers follow them
INTEGERS = {
    'kRootArray': 1, 'kReadOnlyHeapRef': 2, 'kAttachedReference': 1, 'kRootArrayConstantsWithSkip': 1, 'kPartialSnapshotCache': 1,
    'kStartupObjectCache': 1, 'kReadOnlyObjectCache': 1, 'kSharedHeapObjectCache': 1, 'kAllocateJSDispatchEntry': 1,
    'kJSDispatchEntry': 1, 'kSkip': 1, 'kVariableRawData': 1, 'kVariableRepeat': 1, 'kVariableRepeatRoot': 1,
}
SIX_INTEGERS = {
    'kBuiltin': 1, 'kExternalReference': 1, 'kApiReference': 2, 'kInternalReference': 2, 'kInternalReferenceEncoded': 2,
    'kDeoptimizerEntryPlain': 1, 'kDeoptimizerEntryFromCode': 1, 'kOffHeapBackingStore': 1, 'kVariableRawCode': 1,
    'kEmbedderFieldsData': 2, 'kOffHeapTarget': 2,
}


def integer(value, count):
    return list((value << 2 | count - 1).to_bytes(count, 'little'))


def everywhere(sheet):
    """Payloads whose closing section has a head three times, with its integers in two, three and
    four bytes where one would do; and the other places where an integer stands."""
    root, new, last, back = (sheet[name] for name in ('kRootArrayConstants', 'kNewObject', 'kSynchronize', 'kBackref'))
    legacy, six = 'kSpaceMask' in sheet, 'kBackrefWithSkip' in sheet
    top = [new, 4, root]
    yield [new] + integer(1, 2) + [root, last]
    if 'kResolvePendingForwardRef' in sheet:
        yield top + [sheet['kResolvePendingForwardRef']] + integer(0, 3) + [last]
    if 'kHotObjectWithSkip' in sheet:
        yield top + [sheet['kRootArray'], 4, sheet['kHotObjectWithSkip']] + integer(0, 2) + [last]
    if not legacy or sheet.get('kNumberOfSpaces', 6) == 0:
        heads = {back: 1}
    elif six:
        heads = {back + 2: 1, sheet['kBackrefWithSkip'] + 2: 2}
    else:
        heads = {back + 2: 2}
    heads.update({sheet[name]: count for name, count in INTEGERS.items() if name in sheet})
    if six:
        heads.update({sheet[name]: count for name, count in SIX_INTEGERS.items() if name in sheet})
    # a byte of raw data, what is repeated, or a root's index
    after = {sheet.get('kVariableRawData'): [root], sheet.get('kVariableRepeat'): [] if six else [root],
             sheet.get('kVariableRepeatRoot'): [root]}
    for head, count in heads.items():
        yield top + sum(([head] + integer(0, n) * count + after.get(head, []) for n in (2, 3, 4)), []) + [last]


def at_the_limits():
    """Values that need all the bytes they have, and values that just don't."""
    for bits in (6, 14, 22, 30):
        for value, count in ((1 << bits) - 1, (bits + 2) // 8), ((1 << bits) - 1, (bits + 10) // 8), (1 << bits, (bits + 10) // 8):
            if value < 1 << 30 and count <= 4:
                yield [0, 8, 0x45, 0x0B] + integer(value, count) + [0x0D]


def long_integers():
    """Sheets and payloads."""
    for sheet, text in LONG.items():
        for payload in text.split(';'):
            yield sheet, list(bytes.fromhex(payload))
    for payload in at_the_limits():
        yield 'a', payload
    for sheet in ('a', 'modern8', 'modernSkips8', 'legacy8More', 'legacyNoSpaces8', 'mapFirst8', 'six8'):
        for payload in everywhere(SHEETS[sheet]):
            yield sheet, payload
