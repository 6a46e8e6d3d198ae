//! Made-up encodings for the tests, the test vectors and the benchmark. Everything follows from
//! the seed, so that a failure can be repeated.

use crate::limits::FIXED_NAMES;
use crate::reference::{is_sound_name, is_sound_size};
use crate::words::{flag, head, kind, root, FIRST_PAIR, NO_SIZE};
use crate::EncodingBuf;

pub use declaration::{random_declaration, random_doc};
pub use rules::{damage_rules, random_rules, respelled};
pub use shapes::random_shaped_type;

mod declaration;
mod rules;
mod shapes;

/// A xorshift generator: small, and good enough to choose test data with.
pub struct Random(u64);

impl Random {
    pub fn new(seed: u64) -> Random {
        // Zero would stay zero for ever, and close seeds should part at once.
        let mut random = Random(seed.wrapping_mul(0x9E37_79B9_7F4A_7C15) | 1);
        for _ in 0..8 {
            random.next();
        }
        random
    }

    fn next(&mut self) -> u64 {
        self.0 ^= self.0 << 13;
        self.0 ^= self.0 >> 7;
        self.0 ^= self.0 << 17;
        self.0.wrapping_mul(0x2545_F491_4F6C_DD1D)
    }

    /// A number below `bound`, which is not 0.
    pub fn below(&mut self, bound: usize) -> usize {
        ((self.next() >> 32) as usize) % bound
    }

    pub fn word(&mut self) -> u32 {
        (self.next() >> 32) as u32
    }

    /// Yes in so many of a hundred cases.
    pub fn percent(&mut self, share: usize) -> bool {
        self.below(100) < share
    }

    pub fn pick<T: Copy>(&mut self, choices: &[T]) -> T {
        choices[self.below(choices.len())]
    }

    /// A kind, a head of a declaration, or the number after these. Most names and counts are as
    /// small.
    pub fn small_word(&mut self) -> u32 {
        let heads = head::END + 1 - head::STRUCT;
        match self.below((kind::END + heads) as usize) as u32 {
            kind @ ..kind::END => kind,
            other => head::STRUCT + (other - kind::END),
        }
    }

    /// A kind that is a type by itself.
    pub fn plain_kind(&mut self) -> u32 {
        kind::U8 + self.below((kind::BOOL + 1 - kind::U8) as usize) as u32
    }

    /// A kind of types that have others inside.
    fn outer_kind(&mut self) -> u32 {
        kind::APP + self.below((kind::END - kind::APP) as usize) as u32
    }

    fn flags(&mut self) -> u32 {
        self.below(flag::END as usize) as u32
    }
}

/// A table of names, and which of the name numbers are of use where soundness matters.
#[derive(Clone, Debug)]
pub struct Names {
    pub pairs: Vec<u32>,
    pub text: Vec<u8>,
    sound: Vec<u32>,
    sound_sizes: Vec<u32>,
    docs: Vec<u32>,
}

/// Names of all sorts: sound ones, reserved words, near misses, empty, not even UTF-8.
const STOCK: [&[u8]; 40] = [
    b"Gauge",
    b"Depth",
    b"mm",
    b"id",
    b"N",
    b"T",
    b"_x",
    b"x9",
    b"std",
    b"Rc",
    b"_",
    b"self",
    b"Option",
    b"Self_",
    b"u8_",
    b"U8",
    b"muta",
    b"imp",
    b"cr",
    b"usiz",
    b"boolean",
    b"",
    b"u8",
    b"u128",
    b"usize",
    b"bool",
    b"mut",
    b"impl",
    b"dyn",
    b"crate",
    b"Self",
    b"9lives",
    b"0",
    b"16",
    b"a-b",
    b"a b",
    b"\xC3\xA9",
    b"x\xFF",
    b"\0",
    b"a::b",
];

impl Names {
    /// The table of these names, one right after the other.
    pub fn of(names: &[&[u8]]) -> Names {
        let mut table = Names::empty();
        for name in names {
            table.push(name);
        }
        table
    }

    /// A table of at most `most` names, with unused bytes between some of them.
    pub fn random(random: &mut Random, most: usize) -> Names {
        let mut table = Names::empty();
        for _ in 0..random.below(most + 1) {
            if random.percent(20) {
                table.text.extend_from_slice(b"unused-");
            }
            if random.percent(85) {
                table.push(random.pick(&STOCK));
            } else {
                let name: Vec<u8> = (0..random.below(40))
                    .map(|_| random.pick(b"abcXYZ_0189"))
                    .collect();
                table.push(&name);
            }
        }
        if random.percent(20) {
            table.text.extend_from_slice(b" and more");
        }
        table
    }

    fn empty() -> Names {
        let mut table = Names {
            pairs: Vec::new(),
            text: Vec::new(),
            sound: Vec::new(),
            sound_sizes: Vec::new(),
            docs: Vec::new(),
        };
        for (number, name) in (0..).zip(FIXED_NAMES) {
            table.classify(number, name.as_bytes());
        }
        table
    }

    fn push(&mut self, name: &[u8]) {
        let number = self.count();
        self.classify(number, name);
        self.pairs.push(self.text.len() as u32);
        self.pairs.push(name.len() as u32);
        self.text.extend_from_slice(name);
    }

    fn classify(&mut self, number: u32, name: &[u8]) {
        if is_sound_name(name) {
            self.sound.push(number);
        }
        if is_sound_size(name) {
            self.sound_sizes.push(number);
        }
    }

    /// An encoding of these words with this table.
    pub fn with_words(&self, words: &[u32]) -> EncodingBuf {
        EncodingBuf {
            words: words.to_vec(),
            pairs: self.pairs.clone(),
            text: self.text.clone(),
        }
    }

    /// How many name numbers there are, the fixed ones included.
    pub fn count(&self) -> u32 {
        FIRST_PAIR + (self.pairs.len() / 2) as u32
    }
}

/// What kind of tree to make.
#[derive(Clone, Copy, Debug)]
pub struct Shape {
    /// No type begins deeper than this.
    pub depth: usize,
    /// One child of each node reaches down to the full depth, the others are leaves.
    pub chain: bool,
    /// Lists have at most this many children.
    pub children: usize,
    /// From so many words on only leaves are added.
    pub words: usize,
    /// In so many of a hundred places does the tree not care for soundness: 0 gives sound types.
    pub careless: usize,
}

/// What soundness asks of the type at a place, wrappers seen through.
#[derive(Clone, Copy, PartialEq, Eq)]
enum Place {
    Free,
    NoIntersection,
    Named,
}

/// The kinds that are of use where a name is wanted.
const NAMED_KINDS: [u32; 4] = [
    kind::IDENTIFIER,
    kind::FROM_PATH,
    kind::SYNONYM,
    kind::META_DATA,
];

/// Writes a random type.
pub fn random_type(random: &mut Random, names: &Names, shape: Shape) -> EncodingBuf {
    let mut writer = Writer {
        random,
        names,
        shape,
        words: Vec::new(),
    };
    writer.put_type(shape.depth, Place::Free);
    names.with_words(&writer.words)
}

/// Writes a random path of at most `most` names.
pub fn random_path(random: &mut Random, names: &Names, most: usize) -> EncodingBuf {
    let mut writer = Writer {
        random,
        names,
        shape: Shape {
            depth: 1,
            chain: false,
            children: most,
            words: usize::MAX,
            careless: 100,
        },
        words: Vec::new(),
    };
    writer.put_path();
    names.with_words(&writer.words)
}

struct Writer<'a> {
    random: &'a mut Random,
    names: &'a Names,
    shape: Shape,
    words: Vec<u32>,
}

impl Writer<'_> {
    fn careless(&mut self) -> bool {
        self.random.percent(self.shape.careless)
    }

    fn put_name(&mut self) {
        let name = if self.careless() {
            self.random.below(self.names.count() as usize) as u32
        } else {
            self.random.pick(&self.names.sound)
        };
        self.words.push(name);
    }

    fn put_size(&mut self) {
        let size = if self.random.percent(40) {
            NO_SIZE
        } else if self.careless() {
            1 + self.random.below(self.names.count() as usize) as u32
        } else {
            1 + self.random.pick(&self.names.sound_sizes)
        };
        self.words.push(size);
    }

    fn put_path(&mut self) {
        let root = self.random.below(root::END as usize) as u32;
        let mut count = self.random.below(self.shape.children + 1);
        if root == root::GLOBAL && count == 0 && !self.careless() {
            count = 1;
        }
        self.words.extend([root, count as u32]);
        for _ in 0..count {
            self.put_name();
        }
    }

    fn put_leaf(&mut self, place: Place) {
        let head = match place {
            Place::Named => self.random.pick(&[kind::IDENTIFIER, kind::FROM_PATH]),
            _ => match self.random.below(4) {
                0..=1 => self.random.plain_kind(),
                2 => kind::IDENTIFIER,
                _ => kind::FROM_PATH,
            },
        };
        self.words.push(head);
        match head {
            kind::IDENTIFIER => self.put_name(),
            kind::FROM_PATH => self.put_path(),
            _ => {}
        }
    }

    fn put_type(&mut self, depth: usize, place: Place) {
        let place_minded = place == Place::Free || !self.careless();
        let full = depth <= 1 || self.words.len() >= self.shape.words;
        let at_root = self.words.is_empty();
        if full || (!self.shape.chain && !at_root && self.random.percent(12)) {
            return self.put_leaf(if place_minded { place } else { Place::Free });
        }
        let head = match place {
            Place::Named if place_minded => self.random.pick(&NAMED_KINDS),
            Place::NoIntersection if place_minded => match self.random.outer_kind() {
                kind::INTERSECTION => kind::ARRAY,
                head => head,
            },
            // What is forbidden here is what to try if nobody minds.
            Place::NoIntersection if self.random.percent(50) => kind::INTERSECTION,
            _ => self.random.outer_kind(),
        };
        // A chain goes on downwards, if need be by wrappers.
        let head = match head {
            kind::IDENTIFIER | kind::FROM_PATH if self.shape.chain => {
                self.random.pick(&[kind::SYNONYM, kind::META_DATA])
            }
            head => head,
        };
        self.words.push(head);
        match head {
            kind::IDENTIFIER => self.put_name(),
            kind::FROM_PATH => self.put_path(),
            kind::APP => {
                let least = if self.careless() { 0 } else { 1 };
                let count = self.count(least);
                let mut depths = self.depths(depth, count + 1);
                self.put_child(&mut depths, Place::Named);
                for _ in 0..count {
                    self.put_child(&mut depths, Place::Free);
                }
            }
            kind::BORROWED..=kind::DYN => self.put_type(depth - 1, Place::NoIntersection),
            kind::TUPLE => {
                let count = self.count(if self.shape.chain { 1 } else { 0 });
                let mut depths = self.depths(depth, count);
                for _ in 0..count {
                    self.put_child(&mut depths, Place::Free);
                }
            }
            kind::FN => {
                let count = self.count(0);
                let mut depths = self.depths(depth, count + 1);
                for _ in 0..count {
                    self.put_child(&mut depths, Place::Free);
                }
                self.put_child(&mut depths, Place::NoIntersection);
            }
            kind::INTERSECTION => {
                let mut depths = self.depths(depth, 2);
                self.put_child(&mut depths, Place::NoIntersection);
                self.put_child(&mut depths, Place::Free);
            }
            kind::ARRAY => {
                self.put_size();
                self.put_type(depth - 1, Place::Free);
            }
            kind::SYNONYM => {
                let mut depths = self.depths(depth, 2);
                self.put_child(&mut depths, place);
                // Soundness does not look at bases, so they are made without care.
                let care = std::mem::replace(&mut self.shape.careless, 100);
                self.put_child(&mut depths, Place::Free);
                self.shape.careless = care;
            }
            _ => {
                let flags = self.random.flags();
                self.words.push(flags);
                self.put_type(depth - 1, place);
            }
        }
    }

    fn count(&mut self, least: usize) -> usize {
        let room = self.shape.children.max(least) - least;
        let count = least + self.random.below(room + 1);
        self.words.push(count as u32);
        count
    }

    /// The depths left for so many children.
    fn depths(&mut self, depth: usize, children: usize) -> std::vec::IntoIter<usize> {
        let mut depths = vec![if self.shape.chain { 1 } else { depth - 1 }; children];
        if self.shape.chain {
            let long = self.random.below(children);
            depths[long] = depth - 1;
        }
        depths.into_iter()
    }

    fn put_child(&mut self, depths: &mut std::vec::IntoIter<usize>, place: Place) {
        let depth = depths.next().expect("one depth for each child");
        self.put_type(depth, place);
    }
}

/// Does one kind of harm to an encoding. It may happen to stay acceptable.
pub fn damage(random: &mut Random, sample: &mut EncodingBuf) {
    match random.below(10) {
        // a word of the size of heads, names and counts
        0..=3 => {
            if !sample.words.is_empty() {
                let at = random.below(sample.words.len());
                sample.words[at] = random.small_word();
            }
        }
        4 => {
            if !sample.words.is_empty() {
                let at = random.below(sample.words.len());
                sample.words[at] = huge(random);
            }
        }
        5 => {
            let length = random.below(sample.words.len() + 1);
            sample.words.truncate(length);
        }
        6 => {
            for _ in 0..1 + random.below(3) {
                let word = random.small_word();
                sample.words.push(word);
            }
        }
        7 => {
            if !sample.words.is_empty() {
                let at = random.below(sample.words.len());
                sample.words.remove(at);
            }
        }
        8 => {
            let at = random.below(sample.words.len() + 1);
            let word = random.below(kind::END as usize) as u32;
            sample.words.insert(at, word);
        }
        _ => damage_names(random, sample),
    }
}

/// Does one kind of harm to the pairs or to the text they point into.
pub fn damage_names(random: &mut Random, sample: &mut EncodingBuf) {
    if sample.pairs.is_empty() {
        sample.pairs.push(random.below(3) as u32);
        return;
    }
    let at = random.below(sample.pairs.len());
    match random.below(8) {
        0 => sample.pairs[at] = sample.pairs[at].wrapping_add(1),
        1 => sample.pairs[at] = sample.pairs[at].wrapping_sub(1),
        2 => sample.pairs[at] = huge(random),
        // a sum of offset and length that wraps to just where it was
        3 => {
            let pair = at / 2 * 2;
            if pair + 1 < sample.pairs.len() {
                let shift = 1 + random.below(1 << 30) as u32;
                sample.pairs[pair] = sample.pairs[pair].wrapping_add(shift);
                sample.pairs[pair + 1] = sample.pairs[pair + 1].wrapping_sub(shift);
            }
        }
        4 => {
            let length = sample.pairs.len() - 1 - random.below(2).min(sample.pairs.len() - 1);
            sample.pairs.truncate(length);
        }
        5 => sample.pairs.push(sample.text.len() as u32),
        6 => {
            let other = random.below(sample.pairs.len());
            sample.pairs.swap(at, other);
        }
        _ => {
            let length = random.below(sample.text.len() + 1);
            sample.text.truncate(length);
        }
    }
}

fn huge(random: &mut Random) -> u32 {
    match random.below(4) {
        0 => u32::MAX,
        1 => u32::MAX - random.below(40) as u32,
        2 => 1 << (16 + random.below(16)),
        _ => random.word(),
    }
}
