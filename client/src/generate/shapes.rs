//! Made-up types of the shapes that answers and parts look for, and of shapes that just miss them.

use super::{Names, Place, Random, Shape, Writer};
use crate::words::{flag, kind, root};
use crate::EncodingBuf;

/// Names that shapes look for. The fixed ones can be had as pairs too.
const LOOKED_FOR: [&[u8]; 20] = [
    b"Array",
    b"Array2",
    b"Array16",
    b"Set",
    b"Sequence",
    b"Multiset",
    b"Map",
    b"std",
    b"rc",
    b"Rc",
    b"sync",
    b"Arc",
    b"boxed",
    b"Box",
    b"mem",
    b"MaybeUninit",
    b"dafny_runtime",
    b"Object",
    b"Ptr",
    b"MaybePlacebo",
];

/// A known path, and how many arguments it takes.
struct Known {
    names: &'static [&'static [u8]],
    arguments: usize,
    /// What the last argument is best.
    wanted: Wanted,
}

/// What a type is best, where something looks inside.
#[derive(Clone, Copy)]
enum Wanted {
    Any,
    Array,
    Uninit,
    Dyn,
}

const fn known(names: &'static [&'static [u8]], wanted: Wanted) -> Known {
    Known {
        names,
        arguments: 1,
        wanted,
    }
}

static KNOWN: [Known; 16] = [
    known(&[b"std", b"rc", b"Rc"], Wanted::Any),
    known(&[b"std", b"sync", b"Arc"], Wanted::Any),
    known(&[b"std", b"boxed", b"Box"], Wanted::Dyn),
    known(&[b"std", b"boxed", b"Box"], Wanted::Dyn),
    known(&[b"std", b"mem", b"MaybeUninit"], Wanted::Any),
    known(&[b"dafny_runtime", b"Object"], Wanted::Array),
    known(&[b"dafny_runtime", b"Object"], Wanted::Array),
    known(&[b"dafny_runtime", b"Ptr"], Wanted::Array),
    known(&[b"dafny_runtime", b"Ptr"], Wanted::Array),
    known(&[b"dafny_runtime", b"MaybePlacebo"], Wanted::Any),
    known(&[b"dafny_runtime", b"Array"], Wanted::Uninit),
    known(&[b"dafny_runtime", b"Array2"], Wanted::Uninit),
    known(&[b"dafny_runtime", b"Set"], Wanted::Any),
    known(&[b"dafny_runtime", b"Sequence"], Wanted::Any),
    known(&[b"dafny_runtime", b"Multiset"], Wanted::Any),
    Known {
        names: &[b"dafny_runtime", b"Map"],
        arguments: 2,
        wanted: Wanted::Any,
    },
];
const MAYBE_UNINIT: usize = 4;
const ARRAYS: [usize; 2] = [10, 11];

/// What stands before one type, most often a plain borrow.
const PREFIXES: [u32; 6] = [
    kind::BORROWED,
    kind::BORROWED,
    kind::BORROWED,
    kind::BORROWED_MUT,
    kind::IMPL,
    kind::DYN,
];

/// A random type, rich in shapes that are asked for.
pub fn random_shaped_type(random: &mut Random, names: &Names, depth: usize) -> EncodingBuf {
    let mut writer = Writer {
        random,
        names,
        shape: Shape {
            depth,
            chain: false,
            children: 3,
            words: 120,
            careless: 100,
        },
        words: Vec::new(),
    };
    writer.put_shaped(depth, Wanted::Any);
    names.with_words(&writer.words)
}

impl Names {
    /// A table of names that shapes look for, and of names that differ from these in one byte.
    pub fn random_for_shapes(random: &mut Random) -> Names {
        let mut table = Names::empty();
        for (index, name) in LOOKED_FOR.into_iter().enumerate() {
            // The first seven are not fixed, so they are had as pairs or not at all.
            if random.percent(if index < 7 { 85 } else { 30 }) {
                table.push(name);
            }
            if random.percent(12) {
                table.push(&near(random, name));
            }
        }
        for name in [&b""[..], b"T"] {
            if random.percent(40) {
                table.push(name);
            }
        }
        table
    }

    /// One of the numbers of the name with these bytes; any, if there is none.
    fn number_of(&self, random: &mut Random, bytes: &[u8]) -> u32 {
        let numbers = self.numbers_of(bytes);
        if numbers.is_empty() {
            return random.below(self.count() as usize) as u32;
        }
        random.pick(&numbers)
    }
}

/// A name with one byte changed, added or taken.
fn near(random: &mut Random, name: &[u8]) -> Vec<u8> {
    let mut near = name.to_vec();
    let at = random.below(name.len());
    match random.below(4) {
        0 => near[at] ^= 32,
        1 => near[at] = near[at].wrapping_add(1),
        2 => near.insert(at, b'_'),
        _ => {
            near.remove(at);
        }
    }
    near
}

impl Writer<'_> {
    fn put_shaped(&mut self, depth: usize, wanted: Wanted) {
        if depth <= 1 || self.words.len() >= self.shape.words {
            return self.put_leaf(Place::Free);
        }
        match self.random.below(100) {
            0..=9 => self.put_metadata(depth, wanted),
            10..=19 => self.put_synonym(depth, wanted),
            20..=29 => {
                let head = self.random.pick(&PREFIXES);
                self.words.push(head);
                self.put_shaped(depth - 1, Wanted::Any);
            }
            30..=37 => self.put_type(depth.min(2), Place::Free),
            38..=44 => self.put_leaf(Place::Free),
            _ => self.put_wanted(depth, wanted),
        }
    }

    fn put_metadata(&mut self, depth: usize, wanted: Wanted) {
        let flags = self.random.flags();
        self.words.extend([kind::META_DATA, flags]);
        self.put_shaped(depth - 1, wanted);
    }

    /// Display or base is what is wanted, or both are.
    fn put_synonym(&mut self, depth: usize, wanted: Wanted) {
        self.words.push(kind::SYNONYM);
        let both = match self.random.below(3) {
            0 => [wanted, Wanted::Any],
            1 => [Wanted::Any, wanted],
            _ => [wanted, wanted],
        };
        for wanted in both {
            self.put_shaped(depth - 1, wanted);
        }
    }

    fn put_wanted(&mut self, depth: usize, wanted: Wanted) {
        match wanted {
            Wanted::Any => {
                let which = self.random.below(KNOWN.len());
                self.put_known(depth, &KNOWN[which]);
            }
            Wanted::Uninit => self.put_known(depth, &KNOWN[MAYBE_UNINIT]),
            Wanted::Dyn => {
                self.words.push(kind::DYN);
                self.put_shaped(depth - 1, Wanted::Any);
            }
            Wanted::Array if self.random.percent(40) => {
                let which = self.random.pick(&ARRAYS);
                self.put_known(depth, &KNOWN[which]);
            }
            Wanted::Array => {
                self.words.push(kind::ARRAY);
                self.put_size();
                self.put_shaped(depth - 1, Wanted::Uninit);
            }
        }
    }

    /// A known path applied, sometimes to a wrong number of arguments.
    fn put_known(&mut self, depth: usize, known: &Known) {
        let count = if self.random.percent(8) {
            self.random.below(4)
        } else {
            known.arguments
        };
        self.words.extend([kind::APP, count as u32]);
        match self.random.below(25) {
            0 => self.words.extend([kind::META_DATA, flag::COPY_SEMANTICS]),
            1 => self.words.extend([kind::SYNONYM, kind::U8]),
            _ => {}
        }
        self.put_known_path(known.names);
        for index in 1..=count {
            let last = index == count;
            let wanted = if last { known.wanted } else { Wanted::Any };
            self.put_shaped(depth - 1, wanted);
        }
    }

    /// The path, sometimes with another root, a name too many or too few, or a wrong name.
    fn put_known_path(&mut self, names: &[&[u8]]) {
        let mut numbers: Vec<u32> = names
            .iter()
            .map(|name| self.names.number_of(self.random, name))
            .collect();
        let mut root = root::GLOBAL;
        let any = self.random.below(self.names.count() as usize) as u32;
        match self.random.below(40) {
            0 => root = self.random.pick(&[root::CRATE, root::SELF_TYPE]),
            1 => numbers.push(any),
            2 => numbers.insert(0, any),
            3 => {
                numbers.pop();
            }
            4..=5 => {
                let at = self.random.below(numbers.len());
                numbers[at] = any;
            }
            _ => {}
        }
        self.words
            .extend([kind::FROM_PATH, root, numbers.len() as u32]);
        self.words.extend(numbers);
    }
}
