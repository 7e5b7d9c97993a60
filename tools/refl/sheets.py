"""Version sheets to try, in the order of docs/SHEET.md."""

NAMES = """kNewObject kBackref kRootArray kAttachedReference kSynchronize kNop kHotObject kRootArrayConstants kFixedRawData
kNextChunk kAlignmentPrefix kHotObjectWithSkip kRootArrayConstantsWithSkip kReadOnlyHeapRef kBuiltin kExternalReference
kApiReference kInternalReference kInternalReferenceEncoded kDeoptimizerEntryPlain kDeoptimizerEntryFromCode
kOffHeapBackingStore kVariableRawCode kEmbedderFieldsData kOffHeapTarget kPartialSnapshotCache kStartupObjectCache
kReadOnlyObjectCache kSharedHeapObjectCache kRegisterPendingForwardRef kClearedWeakReference kWeakPrefix
kIndirectPointerPrefix kProtectedPointerPrefix kInitializeSelfIndirectPointer kAllocateJSDispatchEntry kJSDispatchEntry
kVariableRawData kSkip kFixedRepeat kFixedRepeatRoot kVariableRepeat kVariableRepeatRoot kNewMetaMap
kNewContextlessMetaMap kNewContextfulMetaMap kResolvePendingForwardRef kDeferred kNumberOfSpaces kMapSpace kLoSpace
kRootArrayConstantsMask kSpaceTagSize kPageSizeBits kSpaceMask kBackrefWithSkip tagged_size var_raw_advances""".split()

ABSENT = 65535
TAGS = NAMES[:48]
CONSTANTS = NAMES[48:55]


def sheet(text, base=None, without=(), size=8, advances=1):
    """A sheet from `name value` pairs with hexadecimal values, over another one."""
    words = text.replace(',', ' ').split()
    made = {name: value for name, value in (base or {}).items() if name not in without}
    made.update({name: int(value, 16) for name, value in zip(words[::2], words[1::2])})
    made.update(tagged_size=size, var_raw_advances=advances)
    return made


def numbers(made):
    return [made.get(name, ABSENT) for name in NAMES]


# sheet A (docs/FORMAT.md, "Examples")
A = sheet("""kNewObject 00, kBackref 08, kReadOnlyHeapRef 09, kRootArray 0A, kAttachedReference 0B, kNop 0C, kSynchronize 0D,
kRegisterPendingForwardRef 0E, kResolvePendingForwardRef 0F, kWeakPrefix 10, kClearedWeakReference 11, kVariableRawData 12,
kVariableRepeat 13, kRootArrayConstants 40, kFixedRawData 60, kFixedRepeat 80, kHotObject 90""")

# every name of modern sheets, alignment included, which only the closing section looks at there
MODERN = """kNewObject 00, kBackref 04, kReadOnlyHeapRef 05, kStartupObjectCache 06, kRootArray 07, kAttachedReference 08,
kReadOnlyObjectCache 09, kSharedHeapObjectCache 0A, kNop 0B, kSynchronize 0C, kVariableRepeat 0D, kVariableRawData 0E,
kRegisterPendingForwardRef 0F, kResolvePendingForwardRef 10, kClearedWeakReference 11, kWeakPrefix 12,
kIndirectPointerPrefix 13, kProtectedPointerPrefix 14, kInitializeSelfIndirectPointer 15, kAllocateJSDispatchEntry 16,
kJSDispatchEntry 17, kNewMetaMap 18, kNewContextlessMetaMap 19, kNewContextfulMetaMap 1A, kVariableRepeatRoot 1B,
kPartialSnapshotCache 1C, kAlignmentPrefix 1D, kRootArrayConstants 40, kFixedRawData 60, kFixedRepeat 80, kHotObject 90,
kFixedRepeatRoot A0"""

# L8, in the manner of V8 7.8, and the names that may come with it
L8 = sheet("""kNewObject 00, kBackref 08, kRootArray 11, kAttachedReference 12, kNop 13, kSynchronize 14, kNextChunk 15,
kDeferred 16, kAlignmentPrefix 17, kVariableRepeat 1A, kVariableRawData 1B, kClearedWeakReference 1C, kWeakPrefix 1D,
kRootArrayConstants 40, kFixedRawData 60, kFixedRepeat 80, kHotObject 90, kSpaceMask 7""")
PENDING = "kRegisterPendingForwardRef 1E, kResolvePendingForwardRef 1F,"
CACHES = "kPartialSnapshotCache 20, kReadOnlyObjectCache 21, kReadOnlyHeapRef 22, kIndirectPointerPrefix 23,"
META = "kNewMetaMap 24, kStartupObjectCache 25,"

# every 6.x name
SIX = """kBackrefWithSkip 30, kHotObjectWithSkip 38, kRootArrayConstantsWithSkip A0, kSkip 20, kBuiltin 21,
kExternalReference 22, kApiReference 23, kInternalReference 24, kInternalReferenceEncoded 25, kDeoptimizerEntryPlain 26,
kDeoptimizerEntryFromCode 27, kOffHeapBackingStore 28, kVariableRawCode 29, kEmbedderFieldsData 2A, kOffHeapTarget 2B,
kPartialSnapshotCache 2C, kVariableRepeatRoot 2D,"""

SHEETS = {
    'a': A,
    'modern8': sheet(MODERN),
    'modern4': sheet(MODERN, size=4),
    'modern8Stays': sheet(MODERN, advances=0),
    'modern4Stays': sheet(MODERN, size=4, advances=0),
    'rootOnly8': sheet("", sheet(MODERN), ('kFixedRepeat', 'kVariableRepeat')),
    'rootOnly4': sheet("kFixedRepeatRoot 80", sheet(MODERN), ('kFixedRepeat',), size=4),
    # the with-skip names, kSkip and kDeferred are obeyed in every family; kNextChunk and 6.x names
    # are not
    'modernSkips8': sheet("""kSkip 20, kDeferred 21, kNextChunk 22, kHotObjectWithSkip A8, kRootArrayConstantsWithSkip B0,
        kRootArrayConstantsMask 0F, kBuiltin 23, kApiReference 24, kOffHeapTarget 25""", sheet(MODERN), ('kFixedRepeatRoot',)),
    'legacy8': L8,
    'legacy8More': sheet(PENDING + CACHES + "kVariableRepeatRoot 26, kMapSpace 3, kLoSpace 2", L8, advances=0),
    'legacy4': sheet(PENDING + CACHES, L8, size=4),
    'legacyNoSpaces8': sheet("kNumberOfSpaces 0", L8),
    'legacyRootOnly4': sheet("kFixedRepeatRoot A0, kNumberOfSpaces 8", L8, ('kFixedRepeat',), size=4),
    'mapFirst8': sheet(PENDING + CACHES + META, L8),
    'mapFirst4': sheet(PENDING + CACHES + META, L8, ('kDeferred',), size=4),
    'six8': sheet(SIX, L8),
    'six8Stays': sheet(SIX + PENDING, L8, advances=0),
    'six4': sheet(SIX + PENDING + "kSpaceTagSize 4, kPageSizeBits 12", L8, size=4),
    'six8Small': sheet(SIX + "kSpaceTagSize 10, kPageSizeBits 05, kLoSpace 1, kMapSpace 0", L8),
    'sixRootOnly4': sheet(SIX + "kFixedRepeatRoot C0, kPageSizeBits 03", L8, ('kFixedRepeat',), size=4),
    # in the manner of 6.2: five spaces, and kRootArray is the byte after the last
    'sixFive8': sheet(SIX + "kNumberOfSpaces 5, kRootArray 05, kLoSpace 4, kMapSpace 3", L8, advances=0),
    'sixMapFirst4': sheet(SIX + PENDING + "kNewMetaMap 2E", L8, size=4),
}

SPANS = {'kHotObject': 8, 'kHotObjectWithSkip': 8, 'kRootArrayConstants': 32, 'kRootArrayConstantsWithSkip': 32,
         'kFixedRawData': 32, 'kFixedRepeat': 16, 'kFixedRepeatRoot': 16, 'kAlignmentPrefix': 3}


def coinciding(rnd):
    """One of the sheets, with names drawn at random and some of them on bytes of others."""
    base = SHEETS[rnd.choice(sorted(SHEETS))]
    made = {name: value for name, value in base.items() if name not in TAGS and name != 'kBackrefWithSkip'}
    spaces = made.get('kNumberOfSpaces', 6)
    made['kNewObject'] = rnd.choice([0, 0, 3, 100])
    made['kBackref'] = made['kNewObject'] + rnd.choice([1, 3, 8])
    names = [name for name in base if name not in made]
    rnd.shuffle(names)
    taken = set(range(made['kNewObject'], made['kBackref'] + spaces))
    for name in names:
        span = SPANS.get(name, spaces if name == 'kBackrefWithSkip' else 1)
        every = list(range(256 - span))
        free = [first for first in every if not taken & set(range(first, first + span))]
        first = rnd.choice(free if free and rnd.random() < .8 else every)
        made[name] = first
        taken |= set(range(first, first + span))
    return made


def root_array_inside(sheet_numbers):
    """kRootArray is among the bytes of kNewObject in a legacy sheet without kNumberOfSpaces: the Rust
    takes it for a new object there, and Dawichko does not (docs/DIFFERENCES.md, D45)."""
    got = dict(zip(NAMES, sheet_numbers))
    first = got.get('kNewObject', ABSENT)
    return got.get('kSpaceMask', ABSENT) != ABSENT and got.get('kNumberOfSpaces', ABSENT) == ABSENT and \
        first <= got.get('kRootArray', ABSENT) < first + 6


# the names that `parse_ref_inner` tests at a reference's head, in its order, without kNewObject
TESTED = """kBackrefWithSkip kBackref kNextChunk kAlignmentPrefix kHotObject kHotObjectWithSkip kRootArray kRootArrayConstants
kRootArrayConstantsWithSkip kReadOnlyHeapRef kAttachedReference kBuiltin kExternalReference kApiReference kInternalReference
kInternalReferenceEncoded kDeoptimizerEntryPlain kDeoptimizerEntryFromCode kOffHeapBackingStore kVariableRawCode
kEmbedderFieldsData kOffHeapTarget kPartialSnapshotCache kStartupObjectCache kReadOnlyObjectCache kSharedHeapObjectCache
kRegisterPendingForwardRef kWeakPrefix kIndirectPointerPrefix kProtectedPointerPrefix kInitializeSelfIndirectPointer
kAllocateJSDispatchEntry kJSDispatchEntry kFixedRawData kVariableRawData kSkip kFixedRepeat kFixedRepeatRoot kVariableRepeat
kVariableRepeatRoot kNewMetaMap kNewContextlessMetaMap kNewContextfulMetaMap""".split()


def on_one_byte():
    """For each family and each name: a sheet that has this name and all later ones on byte 80, so
    that the first one tested is obeyed. A name taken off that byte is absent, or elsewhere if the family
    needs it. The payload has byte 80 as its second item; the byte 40 after it is a cleared weak
    reference as a head, and 16 as an integer."""
    needed = sheet("""kNewObject 00, kBackref 08, kSynchronize 16, kNop 17, kRootArray 20, kAttachedReference 21, kHotObject C0,
        kRootArrayConstants D0, kRootArrayConstantsMask 0F, kFixedRawData 48, kClearedWeakReference 40""")
    families = {'modern': ("", ('kBackref', 'kBackrefWithSkip')), 'legacy': ("kSpaceMask 7", ('kBackrefWithSkip', 'kNewMetaMap')),
                'mapFirst': ("kSpaceMask 7, kNewMetaMap 18", ('kBackrefWithSkip',)), 'six': ("kSpaceMask 7, kBackrefWithSkip 10", ('kNewMetaMap',))}
    for family, (more, without) in families.items():
        names = [name for name in TESTED if name not in without]
        for k in range(len(names)):
            made = sheet(more, needed)
            made.update(dict.fromkeys(names[k:], 0x80))
            yield family, made, [0, 8, 0x40, 0x80] + [0x40] * 24 + [0x16, 0x17]


def unusable(rnd):
    """One of the sheets with one number that makes it unusable, or its length."""
    made = dict(SHEETS[rnd.choice(sorted(SHEETS))])
    if rnd.random() < .2:
        return made, rnd.choice([0, 57, 59])
    name, value = rnd.choice([
        ('tagged_size', 0), ('tagged_size', 5), ('kNop', ABSENT), ('kFixedRawData', ABSENT), ('kSkip', 256),
        ('kHotObject', 248), ('kRootArrayConstants', 224), ('kFixedRawData', 224), ('kFixedRepeatRoot', 240),
        ('kAlignmentPrefix', 253), ('kHotObjectWithSkip', 250), ('kRootArrayConstantsMask', 255), ('kSpaceTagSize', 0),
        ('kSpaceTagSize', 17), ('kPageSizeBits', 2), ('kPageSizeBits', 29), ('kSynchronize', 300)])
    made[name] = value
    return made, 58
