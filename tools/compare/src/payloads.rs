//! Payloads under a sheet, written item by item after docs/FORMAT.md, most of them such that they
//! are accepted; and damaged and random ones.

use crate::random::Random;
use crate::sheets::Sheet;

pub struct Writer<'a> {
    random: &'a mut Random,
    sheet: &'a Sheet,
    /// Spaces with counters.
    spaces: usize,
    /// From this length on only short items are written.
    budget: usize,
    deepest: usize,
    word: usize,
    heads: Vec<&'static str>,
    out: Vec<u8>,
    objects: usize,
    hot: usize,
    skip: usize,
    pending: usize,
    align: usize,
    /// Chunk and next free offset of each space.
    counters: [(usize, usize); 256],
    addresses: Vec<(usize, usize, usize)>,
    numbered: [usize; 2],
    /// 6.x repeats copy the slot before: the Rust's time grows with the square of a chain.
    copies: usize,
    /// In so many of 1000 cases an integer may be written longer than its value needs.
    long: usize,
    /// Those written, in the order of their places.
    integers: Vec<Integer>,
}

/// An integer as it was written.
#[derive(Clone, Copy)]
pub struct Integer {
    pub place: usize,
    pub bytes: usize,
    /// Whether its value needs fewer bytes.
    pub long: bool,
}

/// A payload, and its integers where they are known.
pub struct Written {
    pub payload: Vec<u8>,
    pub integers: Option<Vec<Integer>>,
}

#[rustfmt::skip]
const HEADS: [&str; 42] = [
    "kNewObject", "kBackref", "kBackrefWithSkip", "kHotObject", "kHotObjectWithSkip", "kRootArray",
    "kRootArrayConstants", "kRootArrayConstantsWithSkip", "kFixedRawData", "kVariableRawData", "kSkip",
    "kFixedRepeat", "kFixedRepeatRoot", "kVariableRepeat", "kVariableRepeatRoot", "kNextChunk",
    "kAlignmentPrefix", "kWeakPrefix", "kIndirectPointerPrefix", "kProtectedPointerPrefix",
    "kRegisterPendingForwardRef", "kClearedWeakReference", "kInitializeSelfIndirectPointer",
    "kReadOnlyHeapRef", "kApiReference", "kOffHeapTarget", "kInternalReference", "kEmbedderFieldsData",
    "kDeoptimizerEntryPlain", "kOffHeapBackingStore", "kVariableRawCode", "kAttachedReference", "kBuiltin",
    "kExternalReference", "kStartupObjectCache", "kPartialSnapshotCache", "kReadOnlyObjectCache",
    "kSharedHeapObjectCache", "kAllocateJSDispatchEntry", "kJSDispatchEntry", "kInternalReferenceEncoded",
    "kDeoptimizerEntryFromCode",
];

/// Numbers of references, those among them at which an integer takes a byte more.
const NUMBERS: [usize; 14] =
    [0, 1, 2, 5, 63, 64, 70, 300, 16383, 16384, 17000, (1 << 22) - 1, 1 << 22, (1 << 30) - 1];

/// An item's width in bytes, and whether it makes a slot.
type Item = (usize, bool);

impl<'a> Writer<'a> {
    pub fn new(
        random: &'a mut Random,
        sheet: &'a Sheet,
        spaces: usize,
        budget: usize,
        deepest: usize,
    ) -> Writer<'a> {
        let six_only = [
            "kApiReference",
            "kOffHeapTarget",
            "kInternalReference",
            "kInternalReferenceEncoded",
            "kEmbedderFieldsData",
            "kDeoptimizerEntryPlain",
            "kDeoptimizerEntryFromCode",
            "kOffHeapBackingStore",
            "kVariableRawCode",
            "kBuiltin",
            "kExternalReference",
        ];
        let read = |name: &&str| sheet.has(name) && (sheet.six_x() || !six_only.contains(name));
        let heads = HEADS.into_iter().filter(read).collect();
        let word = sheet.or("tagged_size", 8);
        let long = random.one_of(&[0, 50, 50, 400, 1000]);
        Writer {
            random,
            sheet,
            spaces,
            budget,
            deepest,
            word,
            heads,
            out: Vec::new(),
            objects: 0,
            hot: 0,
            skip: 0,
            pending: 0,
            align: 0,
            counters: [(0, 0); 256],
            addresses: Vec::new(),
            numbered: [0; 2],
            copies: 0,
            long,
            integers: Vec::new(),
        }
    }

    // ---- bytes

    fn head(&mut self, name: &str, offset: usize) {
        self.out.push((self.sheet.or(name, 0) + offset) as u8);
    }

    fn integer(&mut self, value: usize) {
        let least = (1..4).find(|n| value < 1 << (8 * n - 2)).unwrap_or(4);
        let count = if self.random.chance(self.long) { self.random.from_to(least, 4) } else { least };
        let bytes = (((value as u64) << 2) | (count as u64 - 1)).to_le_bytes();
        self.integers.push(Integer { place: self.out.len(), bytes: count, long: count > least });
        self.out.extend(&bytes[..count]);
    }

    fn raw(&mut self, count: usize) {
        for _ in 0..count {
            let byte = self.random.byte();
            self.out.push(byte);
        }
    }

    // ---- references

    /// A reference whose width is at most `room` bytes, where that is given.
    fn reference(&mut self, depth: usize, room: Option<usize>) -> Item {
        if self.out.len() >= self.budget || self.random.chance(100) {
            return self.root_constant("kRootArrayConstants", room);
        }
        let name = match self.random.below(20) {
            0..=4 => "kNewObject",
            5 => "kHotObject",
            6 => "kRootArray",
            7 => "kBackref",
            _ => self.heads[self.random.below(self.heads.len())],
        };
        match name {
            "kNewObject" => self.object(depth, room),
            "kBackref" | "kBackrefWithSkip" => self.backref(name, room),
            "kHotObject" | "kHotObjectWithSkip" => self.hot_place(name, room),
            "kRootArrayConstants" | "kRootArrayConstantsWithSkip" => self.root_constant(name, room),
            "kRootArray" => {
                self.hot += 1;
                self.with_integers(name, 1, room)
            }
            "kFixedRawData" => self.fixed_raw(room),
            "kVariableRawData" => self.variable_raw(room),
            "kSkip" => self.skip_bytes(room),
            "kFixedRepeat" | "kFixedRepeatRoot" | "kVariableRepeat" | "kVariableRepeatRoot" => {
                self.repeat(name, depth, room)
            }
            "kNextChunk" | "kAlignmentPrefix" if !self.sheet.legacy() && self.random.chance(950) => {
                self.root_constant("kRootArrayConstants", room)
            }
            "kNextChunk" => self.next_chunk(depth, room),
            "kAlignmentPrefix" => self.alignment(depth, room),
            "kWeakPrefix" => {
                self.head(name, 0);
                self.reference(depth + 1, room);
                (self.word, true)
            }
            "kIndirectPointerPrefix" | "kProtectedPointerPrefix" => {
                self.head(name, 0);
                self.reference(depth + 1, room)
            }
            "kRegisterPendingForwardRef" => {
                self.pending += 1;
                self.with_integers(name, 0, room)
            }
            "kClearedWeakReference" | "kInitializeSelfIndirectPointer" => self.with_integers(name, 0, room),
            "kReadOnlyHeapRef" | "kApiReference" | "kOffHeapTarget" => self.with_integers(name, 2, room),
            "kInternalReference" | "kInternalReferenceEncoded" | "kEmbedderFieldsData" => {
                self.with_integers(name, 2, room);
                (0, false)
            }
            "kDeoptimizerEntryPlain"
            | "kDeoptimizerEntryFromCode"
            | "kOffHeapBackingStore"
            | "kVariableRawCode" => {
                self.with_integers(name, 1, room);
                (0, false)
            }
            _ => self.with_integers(name, 1, room),
        }
    }

    fn root_constant(&mut self, name: &str, room: Option<usize>) -> Item {
        let offset = self.random.below(self.sheet.span(name).min(8));
        self.head(name, offset);
        if name.ends_with("WithSkip") {
            self.amount(room);
        }
        (self.word, true)
    }

    /// A with-skip amount.
    fn amount(&mut self, room: Option<usize>) {
        let n = self.random.one_of(&[0, 0, 4, 8, 3, 12]);
        let n = if room.is_some_and(|room| n + self.word > room) { 0 } else { n };
        self.integer(n);
        self.skip += n;
    }

    fn with_integers(&mut self, name: &str, count: usize, room: Option<usize>) -> Item {
        self.head(name, 0);
        let skips = ["kApiReference", "kOffHeapTarget"].contains(&name);
        for k in 0..count {
            if skips && k == 0 {
                self.amount(room);
            } else {
                let n = self.random.one_of(&NUMBERS);
                self.integer(n);
            }
        }
        (self.word, true)
    }

    fn object(&mut self, depth: usize, room: Option<usize>) -> Item {
        if depth > self.deepest {
            return self.root_constant("kRootArrayConstants", room);
        }
        if self.sheet.legacy() && self.sheet.has("kAlignmentPrefix") && self.random.chance(150) {
            return self.alignment(depth, room);
        }
        let space = match self.sheet.legacy() {
            true => self.random.one_of(&[0, 0, 1, 2, 3, 4, 5]) % self.sheet.new_objects().max(1),
            false => self.random.below(self.opening()),
        };
        self.new_object(depth, space);
        (self.word, true)
    }

    /// How many bytes may begin a payload.
    fn opening(&self) -> usize {
        self.sheet.or("kBackref", 0).saturating_sub(self.sheet.or("kNewObject", 0)).max(1)
    }

    fn backref(&mut self, name: &str, room: Option<usize>) -> Item {
        let count = self.sheet.or("kNumberOfSpaces", 6);
        self.hot += 1;
        if !self.sheet.legacy() || count == 0 {
            self.head(name, 0);
            let over = self.random.chance(20);
            let number = if over { self.objects } else { self.random.below(self.objects.max(1)) };
            self.integer(number);
            return (self.word, true);
        }
        let address = self.address(count);
        self.head(name, address.0);
        if name.ends_with("WithSkip") {
            self.amount(room);
        }
        self.legacy_address(address);
        (self.word, true)
    }

    fn address(&mut self, count: usize) -> (usize, usize, usize) {
        // Mostly one of the newest, but also old ones.
        let newest = if self.random.chance(300) { self.addresses.len() } else { 40 };
        let known: Vec<_> =
            self.addresses.iter().rev().take(newest).filter(|a| a.0 < count).copied().collect();
        if !known.is_empty() && self.random.chance(850) {
            return self.random.one_of(&known);
        }
        let space = self.random.below(count);
        let counted = self.canonical(space);
        let space = match counted.is_some_and(|k| self.numbered[k] == 0) && self.random.chance(950) {
            true => (0..count).find(|s| self.canonical(*s).is_none()).unwrap_or(space),
            false => space,
        };
        (space, self.random.one_of(&[0, 0, 1]), self.word * self.random.below(6))
    }

    /// For a space whose objects are referred to by number: maps 0, large objects 1.
    fn canonical(&self, space: usize) -> Option<usize> {
        if space == self.sheet.or("kMapSpace", 4) {
            Some(0)
        } else {
            (space == self.sheet.or("kLoSpace", 5)).then_some(1)
        }
    }

    fn legacy_address(&mut self, (space, chunk, offset): (usize, usize, usize)) {
        // In 6.x the bits above the number or address don't count.
        let above = self.sheet.six_x() && self.random.chance(100);
        let above = if above { 1 << (32 - self.sheet.or("kSpaceTagSize", 3)) } else { 0 };
        if let Some(kind) = self.canonical(space) {
            let count = self.numbered[kind];
            let over = count == 0 || self.random.chance(20);
            let number = if over { count } else { self.random.below(count) };
            self.integer(number | above);
        } else if self.sheet.six_x() {
            let word_bits = if self.word == 4 { 2 } else { 3 };
            let bits = self.sheet.or("kPageSizeBits", 19).saturating_sub(word_bits);
            self.integer((chunk << bits | offset / self.word) & ((1 << 29) - 1) | above);
        } else {
            self.integer(chunk);
            self.integer(offset);
        }
    }

    fn hot_place(&mut self, name: &str, room: Option<usize>) -> Item {
        let first = self.sheet.or(name, 0);
        let full: Vec<usize> = (first..first + 8).filter(|b| b & 7 < self.hot).collect();
        if full.is_empty() && self.random.chance(900) {
            return self.root_constant("kRootArrayConstants", room);
        }
        let any = full.is_empty() || self.random.chance(20);
        let byte = if any { first + self.random.below(8) } else { self.random.one_of(&full) };
        self.out.push(byte as u8);
        if name.ends_with("WithSkip") {
            self.amount(room);
        }
        (self.word, true)
    }

    fn next_chunk(&mut self, depth: usize, room: Option<usize>) -> Item {
        let space = self.random.one_of(&[0, 0, 1, 2, 4, 200]);
        self.head("kNextChunk", 0);
        self.out.push(space as u8);
        self.change_chunk(space);
        self.reference(depth + 1, room)
    }

    fn change_chunk(&mut self, space: usize) {
        if space < self.spaces {
            self.counters[space] = (self.counters[space].0 + 1, 0);
        }
    }

    fn alignment(&mut self, depth: usize, room: Option<usize>) -> Item {
        self.alignment_byte();
        self.reference(depth + 1, room)
    }

    fn alignment_byte(&mut self) {
        self.align = self.random.from_to(1, 3);
        self.head("kAlignmentPrefix", self.align - 1);
    }

    fn fixed_raw(&mut self, room: Option<usize>) -> Item {
        let most = room.map_or(3, |room| (room / self.word).min(5)).max(1);
        let words = self.random.from_to(1, most);
        self.head("kFixedRawData", words - 1);
        self.raw(words * self.word);
        (words * self.word, true)
    }

    fn variable_raw(&mut self, room: Option<usize>) -> Item {
        let most = room.unwrap_or(12).min(40);
        let advances = self.sheet.or("var_raw_advances", 1) != 0;
        let (written, length) = if self.sheet.legacy() {
            let odd = self.random.chance(300) && (self.sheet.has("kSkip") || advances);
            let whole = (most / self.word).max(1) * self.word;
            let length = if odd { self.random.from_to(1, most.max(1)) } else { whole };
            (if length == 1 && self.random.chance(500) { 0 } else { length }, length)
        } else {
            let words = self.random.from_to(1, (most / self.word).max(1));
            let written = if self.random.chance(30) { 0 } else { words };
            (written, (written * self.word).max(1))
        };
        self.head("kVariableRawData", 0);
        self.integer(written);
        self.raw(length);
        (if advances { length } else { 0 }, true)
    }

    fn skip_bytes(&mut self, room: Option<usize>) -> Item {
        let n = self.random.one_of(&[0, self.word, 2 * self.word, 3]);
        let n = if room.is_some_and(|room| n > room) { 0 } else { n };
        self.head("kSkip", 0);
        self.integer(n);
        (n, false)
    }

    fn repeat(&mut self, name: &str, depth: usize, room: Option<usize>) -> Item {
        let fixed = name.starts_with("kFixed");
        let copies = self.sheet.six_x() && name != "kVariableRepeatRoot";
        let least = match (copies, fixed) {
            (true, true) => 1,
            (true, false) => 0,
            (false, true) => 2,
            (false, false) => 18,
        };
        let most = room.map_or(least + 3, |room| (least + 3).min(room / self.word));
        let hidden = name == "kFixedRepeatRoot" && self.sheet.has("kFixedRepeat");
        if most < least || hidden || (copies && self.copies > 300) {
            return self.root_constant("kRootArrayConstants", room);
        }
        let count = self.random.from_to(least, most);
        self.head(name, if fixed { count - least } else { 0 });
        if !fixed {
            self.integer(if copies { count } else { count - 18 });
        }
        if copies {
            self.copies += 1;
        } else if name.ends_with("Root") {
            let root = self.random.below(12) as u8;
            self.out.push(root);
        } else {
            self.reference(depth + 1, None);
        }
        (count * self.word, true)
    }

    // ---- objects

    /// Where the object comes to lie, so that later back-references find something.
    fn allocate(&mut self, space: usize, size: usize) {
        match space {
            4 => self.numbered[0] += 1,
            5 => self.numbered[1] += 1,
            _ => {}
        }
        if space >= self.spaces {
            return;
        }
        let (chunk, used) = self.counters[space];
        let filler = match self.align {
            1 if used % 8 != 0 => self.word,
            2 if used % 8 == 0 => 8 - self.word,
            _ => 0,
        };
        self.addresses.push((space, chunk, used + filler));
        let most = if self.align == 0 { 0 } else { 8 - self.word };
        self.counters[space] = (chunk, used + size + most);
        self.align = 0;
    }

    fn new_object(&mut self, depth: usize, space: usize) {
        let large = self.random.chance(40);
        let words =
            if large { self.random.from_to(18, 40) } else { self.random.one_of(&[1, 2, 2, 3, 3, 4, 5, 6]) };
        self.object_of(depth, space, words);
    }

    fn object_of(&mut self, depth: usize, space: usize, words: usize) {
        self.head("kNewObject", space);
        let declared = if self.random.chance(8) { words + 1 } else { words };
        self.integer(declared);
        if self.sheet.six_x() && space == self.sheet.or("kLoSpace", 5) {
            self.raw(1);
        }
        self.objects += 1;
        let before = self.align;
        if self.random.chance(700) {
            self.root_constant("kRootArrayConstants", None);
        } else {
            self.reference(depth + 1, None);
        }
        if self.sheet.map_first() {
            self.align = before;
            self.after_map(space);
        }
        if self.sheet.legacy() {
            self.allocate(space, words * self.word);
        }
        let often = if self.pending > 0 { 400 } else { 50 };
        while self.sheet.has("kResolvePendingForwardRef") && self.random.chance(often) {
            self.head("kResolvePendingForwardRef", 0);
            let number = self.random.below(self.pending + 1);
            self.integer(number);
        }
        self.items(depth, words * self.word);
    }

    fn after_map(&mut self, space: usize) {
        if self.sheet.has("kAlignmentPrefix") && self.random.chance(200) {
            self.alignment_byte();
        }
        while self.sheet.has("kNextChunk") && self.random.chance(250) {
            self.head("kNextChunk", 0);
            self.out.push(space as u8);
            self.change_chunk(space);
        }
    }

    fn items(&mut self, depth: usize, size: usize) {
        let mut done = self.word;
        while done < size {
            if self.sheet.has("kDeferred") && self.random.chance(40) {
                self.head("kDeferred", 0);
                return;
            }
            let (width, slot) = self.item(depth, size.saturating_sub(done + self.skip));
            if slot {
                done += self.skip;
            }
            self.skip = 0;
            done += width;
        }
    }

    /// An item that fits into what is left; a part of a word is filled by raw bytes or skipped.
    fn item(&mut self, depth: usize, room: usize) -> Item {
        if room % self.word == 0 || !self.sheet.legacy() {
            return self.reference(depth + 1, Some(room));
        }
        let advances = self.sheet.or("var_raw_advances", 1) != 0;
        if self.sheet.has("kSkip") && (self.random.chance(500) || !advances) {
            self.head("kSkip", 0);
            self.integer(room + self.skip);
            return (room + self.skip, false);
        }
        self.head("kVariableRawData", 0);
        self.integer(room);
        self.raw(room);
        (if advances { room } else { 0 }, true)
    }

    // ---- the closing section

    /// A legacy deferred entry.
    fn entry(&mut self) {
        let address = self.address(self.sheet.or("kNumberOfSpaces", 6));
        self.head("kNewObject", address.0);
        self.legacy_address(address);
        self.hot += 1;
        let (at, written, mut done, mut size) = (self.out.len(), self.integers.len(), 1, 1);
        for _ in 0..self.random.below(4) {
            let before = done;
            let (width, slot) = self.reference(1, Some(6 * self.word));
            done += if slot { width.max(self.word) } else { width };
            if done > before {
                size = self.random.from_to(before + 1, done);
            }
        }
        let (rest, integers) = (self.out.split_off(at), self.integers.split_off(written));
        self.integer(size);
        let by = self.out.len() - at;
        self.integers.extend(integers.iter().map(|i| Integer { place: i.place + by, ..*i }));
        self.out.extend(rest);
    }

    /// As many weak prefixes as are read, or a few more or fewer.
    fn weak_chain(&mut self) {
        for _ in 0..self.random.from_to(61, 66) {
            self.head("kWeakPrefix", 0);
        }
        self.root_constant("kRootArrayConstants", None);
    }

    /// A legacy deferred entry of the first object with one slot, which lies deep.
    fn deep_entry(&mut self) {
        if let Some(address) = self.addresses.first().copied().filter(|a| a.0 < self.sheet.span("kNewObject"))
        {
            self.head("kNewObject", address.0);
            self.legacy_address(address);
            self.hot += 1;
            self.integer(2);
            self.weak_chain();
        }
    }

    fn closing(&mut self) {
        let entries =
            self.sheet.legacy() && !self.sheet.map_first() && self.sheet.or("kNumberOfSpaces", 6) > 0;
        for _ in 0..self.random.one_of(&[0, 1, 1, 2, 3, 4]) {
            if self.sheet.has("kAlignmentPrefix") && self.random.chance(150) {
                self.alignment_byte();
            } else if self.sheet.has("kWeakPrefix") && self.random.chance(20) {
                match entries && self.random.chance(700) {
                    true => self.deep_entry(),
                    false => self.weak_chain(),
                }
            } else if entries && self.random.chance(600) {
                self.entry();
            } else {
                self.reference(0, None);
            }
        }
        if self.sheet.legacy() && self.random.chance(60) {
            return self.cut();
        }
        if self.sheet.legacy() && self.random.chance(100) {
            self.faulty();
        }
        if self.random.chance(970) {
            self.head("kSynchronize", 0);
        }
        for _ in 0..self.random.one_of(&[0, 0, 0, 1, 3]) {
            self.head("kNop", 0);
        }
        if self.sheet.legacy() && self.random.chance(100) {
            self.raw(1);
        }
    }

    /// A closing item of a legacy sheet that is a fault after an integer was read: 7, 8, 9 or 15.
    fn faulty(&mut self) {
        let map_space = self.sheet.or("kMapSpace", 4);
        let spaces = self.sheet.or("kNumberOfSpaces", 6);
        match self.random.below(3) {
            0 if spaces == 0 => {
                self.head("kBackref", 0);
                self.integer(self.objects);
            }
            0 if map_space < spaces => {
                self.head("kBackref", map_space);
                self.integer(self.numbered[0]);
            }
            1 if self.sheet.has("kHotObjectWithSkip") && self.hot < 8 => {
                let first = self.sheet.or("kHotObjectWithSkip", 0);
                let empty: Vec<usize> = (first..first + 8).filter(|byte| byte & 7 >= self.hot).collect();
                let byte = self.random.one_of(&empty);
                self.out.push(byte as u8);
                self.integer(0);
            }
            _ => {
                self.head("kVariableRawData", 0);
                self.integer(60);
            }
        }
    }

    /// The last bytes are missing, so that some item of a legacy closing section is cut, often a
    /// back-reference.
    fn cut(&mut self) {
        if self.random.chance(600) {
            let skips = self.sheet.six_x() && self.random.chance(500);
            self.backref(if skips { "kBackrefWithSkip" } else { "kBackref" }, None);
        }
        let left = self.out.len().saturating_sub(self.random.from_to(1, 6));
        self.out.truncate(left);
        self.integers.retain(|integer| integer.place + integer.bytes <= left);
    }

    fn written(self) -> Written {
        Written { payload: self.out, integers: Some(self.integers) }
    }

    fn first_space(&mut self) -> usize {
        let opening = self.opening();
        if self.random.chance(300) {
            self.random.below(opening)
        } else {
            0
        }
    }

    pub fn write(mut self) -> Written {
        let space = self.first_space();
        self.new_object(0, space);
        self.closing();
        self.written()
    }

    /// One object of very many words.
    pub fn write_wide(mut self, words: usize) -> Written {
        let space = self.first_space();
        self.object_of(0, space, words);
        self.closing();
        self.written()
    }

    /// Legacy objects of very many words, most of them left by kDeferred, so that addresses come
    /// near 2^32.
    pub fn write_large(mut self) -> Written {
        let most = (1 << 30) - 1;
        let part = (1 << 32) / self.word;
        let top = self.first_space();
        self.head("kNewObject", top);
        self.integer(1);
        self.root_constant("kRootArrayConstants", None);
        for _ in 0..self.random.from_to(1, 4) {
            let words = self.random.one_of(&[1, 2, part / 2, part / 2 - 1, part - 1, part, part - 2, most]);
            let space = self.random.one_of(&[0, 0, 0, 1, 5]) % self.sheet.span("kNewObject").max(1);
            // Behind a weak prefix, because a new object that begins an entry means another thing
            // in legacy.
            self.head("kWeakPrefix", 0);
            if self.sheet.legacy() && self.random.chance(300) {
                self.alignment_byte();
            }
            self.head("kNewObject", space);
            self.integer(words.min(most));
            if self.sheet.six_x() && space == self.sheet.or("kLoSpace", 5) {
                self.raw(1);
            }
            self.root_constant("kRootArrayConstants", None);
            self.head("kDeferred", 0);
        }
        self.closing();
        self.written()
    }

    /// Objects, weak references and repeats inside each other, to about the deepest that is read.
    pub fn write_deep(mut self) -> Written {
        let levels = self.random.from_to(61, 66);
        let mut after = 0;
        self.head("kNewObject", 0);
        self.integer(1);
        for _ in 1..levels {
            match self.random.below(4) {
                0 if self.sheet.has("kWeakPrefix") => self.head("kWeakPrefix", 0),
                1 if self.sheet.has("kIndirectPointerPrefix") => self.head("kIndirectPointerPrefix", 0),
                _ => {
                    let words = self.random.from_to(1, 2);
                    self.head("kNewObject", 0);
                    self.integer(words);
                    if words == 2 && self.random.chance(500) {
                        self.root_constant("kRootArrayConstants", None);
                    } else {
                        after += words - 1;
                    }
                }
            }
        }
        for _ in 0..=after {
            self.root_constant("kRootArrayConstants", None);
        }
        self.closing();
        self.written()
    }
}

/// Some bytes changed, put in, taken out or cut off.
pub fn damage(random: &mut Random, sheet: &Sheet, written: &mut Written) {
    written.integers = None;
    let payload = &mut written.payload;
    for _ in 0..random.one_of(&[1, 1, 1, 2, 5]) {
        if payload.is_empty() {
            return;
        }
        let at = random.below(payload.len());
        let head = sheet.numbers[random.below(48)] as u8;
        let drawn = random.byte();
        let byte = random.one_of(&[drawn, drawn % 48, payload[at] ^ 4, head]);
        match random.below(7) {
            0 | 1 => payload[at] = byte,
            2 => payload.insert(at, byte),
            3 => drop(payload.remove(at)),
            4 => payload.truncate(at),
            5 => payload.push(byte),
            _ => {
                let from = random.below(payload.len());
                let part: Vec<u8> = payload[from..].iter().take(6).copied().collect();
                payload.splice(at..at, part);
            }
        }
    }
}

/// An object of some words, then bytes drawn from the sheet's heads and at random.
pub fn drawn(random: &mut Random, sheet: &Sheet) -> Written {
    let heads: Vec<u8> = sheet.numbers[..48].iter().filter(|n| **n < 256).map(|n| *n as u8).collect();
    let words = random.from_to(1, 9);
    let mut payload = vec![sheet.or("kNewObject", 0) as u8, 4 * words as u8];
    for _ in 0..random.below(60) {
        let (head, small, any) = (random.one_of(&heads), 4 * random.below(8), random.byte());
        let byte = random.one_of(&[head, head, small as u8, any]);
        payload.push(byte);
    }
    Written { payload, integers: None }
}

/// Bytes at random.
pub fn noise(random: &mut Random) -> Written {
    let payload = (0..random.below(40)).map(|_| random.byte()).collect();
    Written { payload, integers: None }
}
