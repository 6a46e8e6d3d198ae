//! Made-up declarations.

use super::{Names, Place, Random, Shape, Writer};
use crate::words::{fields, head::*, kind::*, name, root::*, visibility};
use crate::EncodingBuf;

/// A random declaration. Its docs are best chosen from a table of [`Names::random_with_docs`].
pub fn random_declaration(random: &mut Random, names: &Names, shape: Shape) -> EncodingBuf {
    let mut writer = Writer {
        random,
        names,
        shape,
        words: Vec::new(),
    };
    writer.put_declaration();
    names.with_words(&writer.words)
}

/// A doc of at most so many pieces, out of what the conversion of docs looks at.
pub fn random_doc(random: &mut Random, most: usize) -> Vec<u8> {
    const PIECES: [&[u8]; 24] = [
        b"\n",
        b"\n",
        b"\n",
        b"\n    ",
        b"\n```",
        b"\n```\n",
        b"\n```rs\n",
        b"\n````",
        b"\n   ```",
        b" ",
        b" ",
        b"  ",
        b"    ",
        b"`",
        b"``",
        b"```",
        b"```rs",
        b"```rs ",
        b"rs",
        b"x",
        b"Offset in mm.",
        b"\t",
        b"\r\n",
        b"\xC3\xA9\xFF",
    ];
    let count = random.below(most + 1);
    (0..count)
        .flat_map(|_| random.pick(&PIECES).iter().copied())
        .collect()
}

/// The types that a field named self is looked at for, and their near relations.
const SELF_TYPES: [&[u32]; 22] = [
    &[FROM_PATH, SELF_TYPE, 0],
    &[FROM_PATH, SELF_TYPE, 0],
    &[SYNONYM, U8, FROM_PATH, SELF_TYPE, 0],
    &[SYNONYM, FROM_PATH, SELF_TYPE, 0, U8],
    &[SYNONYM, FROM_PATH, SELF_TYPE, 0, FROM_PATH, SELF_TYPE, 0],
    &[META_DATA, 3, FROM_PATH, SELF_TYPE, 0],
    &[META_DATA, 0, META_DATA, 1, FROM_PATH, SELF_TYPE, 0],
    &[
        SYNONYM, TUPLE, 2, U8, U16, META_DATA, 2, SYNONYM, BOOL, FROM_PATH, SELF_TYPE, 0,
    ],
    &[META_DATA, 0, SYNONYM, FROM_PATH, SELF_TYPE, 0, BOOL],
    &[BORROWED, FROM_PATH, SELF_TYPE, 0],
    &[BORROWED, FROM_PATH, SELF_TYPE, 0],
    &[BORROWED_MUT, FROM_PATH, SELF_TYPE, 0],
    &[BORROWED_MUT, FROM_PATH, SELF_TYPE, 0],
    &[BORROWED, META_DATA, 0, FROM_PATH, SELF_TYPE, 0],
    &[META_DATA, 0, BORROWED, FROM_PATH, SELF_TYPE, 0],
    &[BORROWED_MUT, SYNONYM, U8, FROM_PATH, SELF_TYPE, 0],
    &[SYNONYM, U8, BORROWED_MUT, FROM_PATH, SELF_TYPE, 0],
    &[BORROWED, BORROWED, FROM_PATH, SELF_TYPE, 0],
    &[BORROWED, BORROWED_MUT, FROM_PATH, SELF_TYPE, 0],
    &[APP, 0, FROM_PATH, SELF_TYPE, 0],
    &[FROM_PATH, SELF_TYPE, 1, name::SELF],
    &[FROM_PATH, CRATE, 0],
];

impl Names {
    /// A table of names as [`Names::random`] makes it, and of docs. The names that declarations look
    /// at, `self` and `_`, are often among its pairs.
    pub fn random_with_docs(random: &mut Random, most: usize) -> Names {
        let mut table = Names::random(random, most);
        for name in [&b"self"[..], b"_"] {
            if random.percent(50) {
                table.push(name);
            }
        }
        for _ in 0..random.below(5) {
            let doc = random_doc(random, 12);
            table.push_doc(&doc);
        }
        table
    }

    pub fn push_doc(&mut self, doc: &[u8]) {
        self.docs.push(self.count());
        self.push(doc);
    }

    /// The numbers of the names with these bytes, fixed or pairs.
    pub(super) fn numbers_of(&self, bytes: &[u8]) -> Vec<u32> {
        (0..self.count())
            .filter(|&number| self.bytes_of(number) == bytes)
            .collect()
    }

    pub(super) fn bytes_of(&self, number: u32) -> &[u8] {
        let number = number as usize;
        match super::FIXED_NAMES.get(number) {
            Some(fixed) => fixed.as_bytes(),
            None => {
                let pair = 2 * (number - super::FIXED_NAMES.len());
                let start = self.pairs[pair] as usize;
                &self.text[start..start + self.pairs[pair + 1] as usize]
            }
        }
    }
}

impl Writer<'_> {
    fn put_declaration(&mut self) {
        let heads = [STRUCT, STRUCT, STRUCT, STRUCT, ENUM, ENUM, ENUM, TYPE, USE];
        let head = self.random.pick(&heads);
        self.words.push(head);
        if head == USE {
            self.put_visibility();
            return self.put_path();
        }
        self.put_doc();
        self.put_attributes();
        self.put_name();
        self.put_parameters();
        match head {
            STRUCT => self.put_fields(),
            ENUM => self.put_cases(),
            _ => self.put_type(self.shape.depth, Place::Free),
        }
    }

    /// A count, none once the words are many enough.
    fn item_count(&mut self, most: usize) -> usize {
        let count = if self.words.len() >= self.shape.words {
            0
        } else {
            self.random.below(most + 1)
        };
        self.words.push(count as u32);
        count
    }

    fn put_visibility(&mut self) {
        let visibility = self.random.below(visibility::END as usize) as u32;
        self.words.push(visibility);
    }

    fn put_doc(&mut self) {
        let doc = match self.random.below(10) {
            0..=2 => name::EMPTY,
            3..=7 if !self.names.docs.is_empty() => self.random.pick(&self.names.docs),
            _ => self.random.below(self.names.count() as usize) as u32,
        };
        self.words.push(doc);
    }

    fn put_attributes(&mut self) {
        for _ in 0..self.item_count(2) {
            self.put_name();
            for _ in 0..self.item_count(3) {
                self.put_name();
            }
        }
    }

    fn put_parameters(&mut self) {
        for _ in 0..self.item_count(2) {
            self.put_name();
            for _ in 0..self.item_count(2) {
                self.put_type(self.shape.depth, Place::Free);
            }
        }
    }

    fn put_cases(&mut self) {
        for _ in 0..self.item_count(self.shape.children) {
            self.put_doc();
            self.put_name();
            self.put_fields();
        }
    }

    fn put_fields(&mut self) {
        let nameless = self.random.percent(35);
        let kind = if nameless {
            fields::NAMELESS
        } else {
            fields::NAMED
        };
        self.words.push(kind);
        for _ in 0..self.item_count(self.shape.children) {
            self.put_visibility();
            if nameless {
                self.put_field_type(30);
            } else if self.random.percent(40) {
                let numbers = self.names.numbers_of(b"self");
                let name = self.random.pick(&numbers);
                self.words.push(name);
                self.put_field_type(70);
            } else {
                self.put_name();
                self.put_field_type(20);
            }
        }
    }

    /// A type that `Formal` looks at in so many of a hundred cases, else any.
    fn put_field_type(&mut self, special: usize) {
        if !self.random.percent(special) {
            return self.put_type(self.shape.depth, Place::Free);
        }
        if self.random.percent(70) {
            let of = self.random.pick(&SELF_TYPES);
            return self.words.extend(of);
        }
        let numbers = self.names.numbers_of(b"_");
        let underscore = self.random.pick(&numbers);
        let wrapper: &[u32] = match self.random.below(5) {
            0 => &[META_DATA, 0],
            1 => &[SYNONYM, U8],
            _ => &[],
        };
        self.words.extend(wrapper);
        self.words.extend([IDENTIFIER, underscore]);
    }
}
