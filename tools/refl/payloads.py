"""Short payloads under a sheet, written item by item after docs/FORMAT.md, most of them such that
they are accepted."""

ONE_INTEGER = 'kAttachedReference kBuiltin kExternalReference kPartialSnapshotCache kStartupObjectCache kReadOnlyObjectCache ' \
    'kSharedHeapObjectCache kAllocateJSDispatchEntry kJSDispatchEntry'.split()


class Payload:
    """Writes a payload. `out` holds its bytes and, between them, marks: 'o', 's', 'v', 'd' where a
    record is appended."""

    def __init__(self, rnd, sheet, spaces, budget):
        self.rnd, self.sheet, self.spaces, self.budget = rnd, sheet, spaces, budget
        self.word = sheet['tagged_size']
        self.legacy, self.six = 'kSpaceMask' in sheet, 'kBackrefWithSkip' in sheet
        self.map_first = self.legacy and 'kNewMetaMap' in sheet
        self.heads = [name for name in sheet if name.startswith('k') and name in self.WRITERS]
        self.out, self.objects, self.hot, self.skip, self.pending, self.align = [], 0, 0, 0, 0, 0
        self.used, self.chunk, self.addresses, self.numbered = {}, {}, [], {4: 0, 5: 0}
        self.deferred = []

    # ---- bytes

    def chance(self, p):
        return self.rnd.random() < p

    def length(self):
        return sum(isinstance(token, int) for token in self.out)

    def spent(self):
        return self.length() >= self.budget

    def head(self, name, offset=0):
        self.out.append((self.sheet[name] + offset) & 255)

    def integer(self, value):
        least = next(n for n in (1, 2, 3, 4) if value < 1 << (8 * n - 2))
        count = self.rnd.randint(least, 4) if self.chance(.05) else least
        self.out += list((value << 2 | count - 1).to_bytes(count, 'little'))

    def raw(self, count):
        self.out += [self.rnd.randrange(256) for _ in range(count)]

    # ---- references. Each writer gives the item's width in bytes and what it makes: 'slot', 'copy'
    # (6.x repeat) or None

    def reference(self, depth, room=None):
        """A reference whose width is at most `room` bytes, where that is given."""
        if self.spent() or self.chance(.1):
            return self.root_constant('kRootArrayConstants', depth, room)
        name = self.rnd.choice(['kNewObject'] * 5 + ['kHotObject', 'kRootArray', 'kBackref'] + self.rnd.choices(self.heads, k=12))
        return self.WRITERS[name](self, name, depth, room)

    def root_constant(self, name, depth, room):
        self.head(name, self.rnd.randrange(min(8, self.sheet.get('kRootArrayConstantsMask', 31) + 1)))
        if 'WithSkip' in name:
            self.amount(room)
        return self.word, 'slot'

    def amount(self, room):
        fits = [0, 0, 4, 8, 12] if room is None else [n for n in (0, 0, 4, 8, 3) if n + self.word <= room]
        n = self.rnd.choice(fits or [0])
        self.integer(n)
        self.skip += n

    def object(self, name, depth, room):
        if depth > 4:
            return self.root_constant('kRootArrayConstants', depth, room)
        if self.legacy and 'kAlignmentPrefix' in self.sheet and self.chance(.15):
            return self.alignment('kAlignmentPrefix', depth, room)
        if self.legacy:
            space = self.rnd.choice([0, 0, 1, 2, 4, 5, 3]) % max(1, self.sheet.get('kNumberOfSpaces', 6))
        else:
            space = self.rnd.randrange(max(1, self.sheet['kBackref'] - self.sheet['kNewObject']))
        self.new_object(depth, space)
        return self.word, 'slot'

    def backref(self, name, depth, room):
        count = self.sheet.get('kNumberOfSpaces', 6)
        if not self.legacy or count == 0:
            self.head(name)
            self.integer(self.rnd.randrange(max(1, self.objects)) if self.chance(.97) else self.objects)
        else:
            space, chunk, offset = self.address(count)
            self.head(name, space)
            if 'WithSkip' in name:
                self.amount(room)
            self.legacy_address(space, chunk, offset)
        self.hot += 1
        return self.word, 'slot'

    def address(self, count):
        known = [address for address in self.addresses if address[0] < count]
        if known and self.chance(.8):
            return self.rnd.choice(known)
        space = self.rnd.randrange(count)
        numbers = self.numbered.get(self.canonical(space), 1)
        if not numbers and self.chance(.95):
            space = next((s for s in range(count) if self.canonical(s) is None), space)
        return space, self.rnd.choice([0, 0, 1]), self.word * self.rnd.randrange(6)

    def canonical(self, space):
        """The space by whose objects references to a space count, if they count."""
        return 4 if space == self.sheet.get('kMapSpace', 4) else 5 if space == self.sheet.get('kLoSpace', 5) else None

    def legacy_address(self, space, chunk, offset):
        numbered = self.canonical(space)
        # in 6.x the bits of the space above the index are not looked at
        above = 1 << 32 - self.sheet.get('kSpaceTagSize', 3) if self.six and self.chance(.1) else 0
        if numbered:
            count = self.numbered[numbered]
            self.integer((self.rnd.randrange(count) if count and self.chance(.97) else count) + above)
        elif self.six:
            bits = max(0, self.sheet.get('kPageSizeBits', 19) - (2 if self.word == 4 else 3))
            self.integer((chunk << bits | offset // self.word) & (1 << 29) - 1 | above)
        else:
            self.integer(chunk)
            self.integer(offset)

    def hot_place(self, name, depth, room):
        first = self.sheet[name]
        full = [b for b in range(first, first + 8) if b & 7 < self.hot]
        if not full and self.chance(.9):
            return self.root_constant('kRootArrayConstants', depth, room)
        self.out.append(self.rnd.choice(full or [first]) if self.chance(.98) else first + self.rnd.randrange(8))
        if 'WithSkip' in name:
            self.amount(room)
        return self.word, 'slot'

    def root_array(self, name, depth, room):
        self.head(name)
        self.integer(self.rnd.choice([0, 1, 5, 63, 64, 300, 20000]))
        self.hot += 1
        return self.word, 'slot'

    def with_integer(self, name, depth, room):
        self.head(name)
        self.integer(self.rnd.choice([0, 1, 2, 70, 17000]))
        return self.word, 'slot'

    def two_integers(self, name, depth, room):
        self.head(name)
        if name in ('kApiReference', 'kOffHeapTarget'):
            self.amount(room)
        else:
            self.integer(self.rnd.randrange(4))
        self.integer(self.rnd.randrange(4))
        if name in ('kInternalReference', 'kInternalReferenceEncoded', 'kEmbedderFieldsData'):
            return 0, None
        return self.word, 'slot'

    def nothing_kept(self, name, depth, room):
        self.head(name)
        self.integer(self.rnd.randrange(4))
        return 0, None

    def single(self, name, depth, room):
        self.head(name)
        return self.word, 'slot'

    def register(self, name, depth, room):
        self.pending += 1
        return self.single(name, depth, room)

    def prefix(self, name, depth, room):
        self.head(name)
        width, makes = self.reference(depth + 1, room)
        if name == 'kWeakPrefix':
            self.out.append('v')
            return self.word, 'slot'
        return width, makes

    def next_chunk(self, name, depth, room):
        if not self.legacy:
            return self.root_constant('kRootArrayConstants', depth, room)
        space = self.rnd.choice([0, 0, 1, 2, 4, 200])
        self.head(name)
        self.out.append(space)
        self.change_chunk(space)
        return self.reference(depth + 1, room)

    def alignment(self, name, depth, room):
        if not self.legacy and self.chance(.95):
            return self.root_constant('kRootArrayConstants', depth, room)
        self.align = self.rnd.choice([1, 2, 3])
        self.head(name, self.align - 1)
        return self.reference(depth + 1, room)

    def fixed_raw(self, name, depth, room):
        most = 3 if room is None else min(3, room // self.word)
        words = self.rnd.randint(1, max(1, most))
        self.head(name, words - 1)
        self.raw(words * self.word)
        return words * self.word, 'slot'

    def variable_raw(self, name, depth, room):
        most = 12 if room is None else min(12, room)
        if self.legacy:
            odd = self.chance(.3) and ('kSkip' in self.sheet or self.sheet['var_raw_advances'])
            length = self.rnd.randint(1, max(1, most)) if odd else max(1, most // self.word) * self.word
            written = 0 if length == 1 and self.chance(.5) else length
        else:
            written = self.rnd.randint(1, max(1, most // self.word)) if self.chance(.97) else 0
            length = max(1, written * self.word)
        self.head(name)
        self.integer(written)
        self.raw(length)
        return (length if self.sheet['var_raw_advances'] else 0), 'slot'

    def skip_bytes(self, name, depth, room):
        self.head(name)
        n = self.rnd.choice([k for k in (0, self.word, 2 * self.word, 3) if room is None or k <= room])
        self.integer(n)
        return n, None

    def repeat(self, name, depth, room):
        root = name in ('kFixedRepeatRoot', 'kVariableRepeatRoot')
        if name == 'kFixedRepeatRoot' and 'kFixedRepeat' in self.sheet:
            return self.root_constant('kRootArrayConstants', depth, room)
        fixed = name in ('kFixedRepeat', 'kFixedRepeatRoot')
        previous = self.six and name != 'kVariableRepeatRoot'
        least = (1 if fixed else 0) if previous else (2 if fixed else 18)
        most = least + 3 if room is None else min(least + 3, room // self.word)
        if most < least:
            return self.root_constant('kRootArrayConstants', depth, room)
        count = self.rnd.randint(least, most)
        self.head(name, count - least if fixed else 0)
        if not fixed:
            self.integer(count if previous else count - 18)
        if previous:
            return count * self.word, 'copy'
        if root:
            self.out.append(self.rnd.randrange(12))
        else:
            self.reference(depth + 1)
        self.out.append('v')
        return count * self.word, 'slot'

    WRITERS = {
        'kNewObject': object, 'kBackref': backref, 'kBackrefWithSkip': backref, 'kHotObject': hot_place,
        'kHotObjectWithSkip': hot_place, 'kRootArray': root_array, 'kRootArrayConstants': root_constant,
        'kRootArrayConstantsWithSkip': root_constant, 'kFixedRawData': fixed_raw, 'kVariableRawData': variable_raw,
        'kSkip': skip_bytes, 'kFixedRepeat': repeat, 'kFixedRepeatRoot': repeat, 'kVariableRepeat': repeat,
        'kVariableRepeatRoot': repeat, 'kNextChunk': next_chunk, 'kAlignmentPrefix': alignment, 'kWeakPrefix': prefix,
        'kIndirectPointerPrefix': prefix, 'kProtectedPointerPrefix': prefix, 'kRegisterPendingForwardRef': register,
        'kClearedWeakReference': single, 'kInitializeSelfIndirectPointer': single, 'kReadOnlyHeapRef': two_integers,
        'kApiReference': two_integers, 'kOffHeapTarget': two_integers, 'kInternalReference': two_integers,
        'kInternalReferenceEncoded': two_integers, 'kEmbedderFieldsData': two_integers,
        'kDeoptimizerEntryPlain': nothing_kept, 'kDeoptimizerEntryFromCode': nothing_kept,
        'kOffHeapBackingStore': nothing_kept, 'kVariableRawCode': nothing_kept,
        **dict.fromkeys(ONE_INTEGER, with_integer),
    }

    # ---- objects

    def change_chunk(self, space):
        if space < self.spaces:
            self.chunk[space], self.used[space] = self.chunk.get(space, 0) + 1, 0

    def filler(self, address):
        if self.align == 1 and address % 8:
            return self.word
        return 8 - self.word if self.align == 2 and address % 8 == 0 else 0

    def allocate(self, space, size):
        """Where the object comes to lie, so that later back-references find something."""
        if space in self.numbered:
            self.numbered[space] += 1
        if space >= self.spaces:
            return
        used = self.used.get(space, 0)
        self.addresses.append((space, self.chunk.get(space, 0), used + self.filler(used)))
        self.used[space] = used + size + (8 - self.word if self.align else 0)
        self.align = 0

    def new_object(self, depth, space, top=False):
        words = self.rnd.choice([1, 2, 2, 3, 3, 4, 5, 6]) if self.chance(.96) else self.rnd.randint(18, 24)
        self.head('kNewObject', space)
        self.integer(words if self.chance(.985) else words + 1)
        if self.six and space == self.sheet.get('kLoSpace', 5):
            self.raw(1)
        self.out.append('o')
        self.objects += 1
        before = self.align
        if self.chance(.7):
            self.root_constant('kRootArrayConstants', depth, None)
        else:
            self.reference(depth + 1)
        if self.map_first:
            self.align = before
            self.after_map(space)
        if self.legacy:
            self.out.append('d')
            self.allocate(space, words * self.word)
        self.out.append('s')
        while 'kResolvePendingForwardRef' in self.sheet and self.chance(.4 if self.pending else .05):
            self.head('kResolvePendingForwardRef')
            self.integer(self.rnd.randrange(self.pending + 1))
        self.items(depth, words * self.word, space)

    def after_map(self, space):
        if 'kAlignmentPrefix' in self.sheet and self.chance(.2):
            self.align = self.rnd.choice([1, 2, 3])
            self.head('kAlignmentPrefix', self.align - 1)
        while 'kNextChunk' in self.sheet and self.chance(.25):
            self.head('kNextChunk')
            self.out.append(space)
            self.change_chunk(space)

    def items(self, depth, size, space):
        done = self.word
        while done < size:
            if 'kDeferred' in self.sheet and self.chance(.06):
                self.head('kDeferred')
                self.deferred.append(space)
                return
            width, makes = self.item(depth, size - done - self.skip)
            if makes == 'copy':
                self.out.append('v')
            if makes:
                self.out.append('s')
                done += self.skip
            self.skip = 0
            done += width

    def item(self, depth, room):
        """An item that fits into what is left; a part of a word is filled by raw bytes or
        skipped."""
        if room % self.word == 0 or room < 0 or not self.legacy:
            return self.reference(depth + 1, room)
        if 'kSkip' in self.sheet and (self.chance(.5) or not self.sheet['var_raw_advances']):
            self.head('kSkip')
            self.integer(room + self.skip)
            return room + self.skip, None
        self.head('kVariableRawData')
        self.integer(room)
        self.raw(room)
        return (room if self.sheet['var_raw_advances'] else 0), 'slot'

    # ---- the closing section

    def entry(self):
        """A legacy deferred entry."""
        count = self.sheet.get('kNumberOfSpaces', 6)
        space, chunk, offset = self.address(count)
        self.head('kNewObject', space)
        self.legacy_address(space, chunk, offset)
        self.hot += 1
        at, done, size = len(self.out), 1, 1
        for _ in range(self.rnd.randrange(4)):
            before = done
            width, makes = self.reference(1, 6 * self.word)
            if makes:
                self.out += ['s'] * max(1, width // self.word)
            done += max(width, self.word) if makes else width
            if done > before:
                size = self.rnd.randint(before + 1, done)
        rest, self.out = self.out[at:], self.out[:at]
        self.integer(size)
        self.out += rest

    def closing(self):
        for _ in range(self.rnd.choice([0, 1, 1, 2, 3, 4])):
            if 'kAlignmentPrefix' in self.sheet and self.chance(.15):
                self.align = self.rnd.choice([1, 2, 3])
                self.head('kAlignmentPrefix', self.align - 1)
            elif self.legacy and not self.map_first and self.chance(.6) and self.sheet.get('kNumberOfSpaces', 6):
                self.entry()
            else:
                self.reference(0)
        if self.chance(.97):
            self.head('kSynchronize')
        for _ in range(self.rnd.choice([0, 0, 0, 1, 3])):
            self.head('kNop')
        if self.legacy and self.chance(.1):
            self.raw(1)

    def write(self):
        """The payload, and where records are appended; None where the writer cannot be sure of
        that."""
        span = self.sheet['kBackref'] - self.sheet['kNewObject']
        self.new_object(0, self.rnd.randrange(max(1, span)) if self.chance(.3) else 0)
        self.closing()
        marks, payload = {'o': [], 's': [], 'v': [], 'd': []}, []
        for token in self.out:
            if isinstance(token, int):
                payload.append(token)
            else:
                marks[token].append(len(payload))
        return payload, None if self.map_first and any(self.joins_map(payload[at:at + 1]) for at in marks['d']) else marks

    def joins_map(self, after):
        """An alignment or chunk change that an item begins with, directly after a map that comes
        first, is read as the object's own."""
        first = self.sheet.get('kAlignmentPrefix', 256)
        return bool(after) and (first <= after[0] < first + 3 or after[0] == self.sheet.get('kNextChunk'))


def damaged(rnd, payload):
    """A payload with one byte changed, put in, taken out or cut off."""
    payload = list(payload)
    at = rnd.randrange(len(payload))
    way = rnd.choice(['change', 'change', 'insert', 'delete', 'cut', 'cut', 'add'])
    if way == 'change':
        payload[at] = rnd.choice([rnd.randrange(256), rnd.randrange(48), payload[at] ^ 4])
    elif way == 'insert':
        payload.insert(at, rnd.randrange(256))
    elif way == 'delete':
        del payload[at]
    elif way == 'cut':
        del payload[at:]
    else:
        payload.append(rnd.randrange(256))
    return payload


def drawn(rnd, sheet):
    """An object of some words, then bytes drawn from the sheet's heads and at random."""
    heads = [value for name, value in sheet.items() if name.startswith('k') and value < 256]
    draw = lambda: rnd.choice([rnd.choice(heads), rnd.choice(heads), 4 * rnd.randrange(8), rnd.randrange(256)])
    return [sheet['kNewObject'], 4 * rnd.randrange(1, 6)] + [draw() for _ in range(rnd.randrange(20))]
