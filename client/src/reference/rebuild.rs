//! Rebuilt trees: `Replace`, `ReplaceMap` and `RASTBottomUpReplacer` with a list of rules, and
//! `TypeAtInitialization`.
//!
//! A rebuilt tree keeps the numbers of its names, so it is made of [`Node`]s, which hold words,
//! and not of the trees that the other calls work on. Equal are nodes whose names have equal bytes.

use std::rc::Rc;

use super::places::types_of;
use super::{read_declaration, read_type, read_whole, table_names};
use crate::limits::{FIXED_NAMES, RULE_LIMIT, WORD_LIMIT};
use crate::tree::Type;
use crate::words::{kind, name, root, NO_SIZE};
use crate::{Encoding, Refusal};

pub fn type_rebuild(
    encoding: &Encoding<'_>,
    rules: &[u32],
    out: &mut [u32],
) -> Result<usize, Refusal> {
    let rebuilt = rebuilt_type(encoding, rules)?;
    rebuilt.deliver(out, |words| read_type(&with_words(encoding, words)).err())
}

pub fn declaration_rebuild(
    encoding: &Encoding<'_>,
    rules: &[u32],
    out: &mut [u32],
) -> Result<usize, Refusal> {
    let rebuilt = rebuilt_declaration(encoding, rules)?;
    rebuilt.deliver(out, |words| {
        read_declaration(&with_words(encoding, words)).err()
    })
}

fn with_words<'a>(encoding: &Encoding<'a>, words: &'a [u32]) -> Encoding<'a> {
    Encoding { words, ..*encoding }
}

/// What becomes of a type, or the first of refusals 1 to 6 and 10 that is met.
pub fn rebuilt_type(encoding: &Encoding<'_>, rules: &[u32]) -> Result<Rebuilt, Refusal> {
    check_rule_words(rules)?;
    read_type(encoding)?;
    let rules = Rules::read(encoding, rules)?;
    let mut rebuilt = Rebuilt::default();
    rebuilt.add_type(&Node::read(encoding.words), &rules);
    Ok(rebuilt)
}

/// What becomes of a declaration: all its words but those of its types stay as they are.
pub fn rebuilt_declaration(encoding: &Encoding<'_>, rules: &[u32]) -> Result<Rebuilt, Refusal> {
    check_rule_words(rules)?;
    let declaration = read_declaration(encoding)?;
    let rules = Rules::read(encoding, rules)?;
    let mut rebuilt = Rebuilt::default();
    let mut done = 0;
    for found in types_of(&declaration) {
        let of_type = found.words();
        rebuilt.add_words(&encoding.words[done..of_type.start]);
        rebuilt.add_type(&Node::read(&encoding.words[of_type.clone()]), &rules);
        done = of_type.end;
    }
    rebuilt.add_words(&encoding.words[done..]);
    Ok(rebuilt)
}

/// The limit on the rules' words is tested together with those of the tree, before all else.
fn check_rule_words(rules: &[u32]) -> Result<(), Refusal> {
    if rules.len() > WORD_LIMIT {
        return Err(Refusal::Overlong);
    }
    Ok(())
}

/// A rebuilt type or declaration, however long it has become.
#[derive(Default)]
pub struct Rebuilt {
    pieces: Vec<Piece>,
    /// The length in words.
    pub length: usize,
    /// The most words that were laid down at one moment.
    pub peak: usize,
}

enum Piece {
    Own(Vec<u32>),
    Type(Rc<Node>),
}

impl Rebuilt {
    fn add_words(&mut self, words: &[u32]) {
        self.length += words.len();
        self.peak = self.peak.max(self.length);
        self.pieces.push(Piece::Own(words.to_vec()));
    }

    fn add_type(&mut self, node: &Rc<Node>, rules: &Rules<'_>) {
        let replaced = node.replace(rules);
        self.peak = self.peak.max(self.length + replaced.peak);
        self.length += replaced.node.length;
        self.pieces.push(Piece::Type(replaced.node));
    }

    /// The words; ask for them only where the length is known to be small.
    pub fn words(&self) -> Vec<u32> {
        let mut words = Vec::with_capacity(self.length);
        for piece in &self.pieces {
            match piece {
                Piece::Own(own) => words.extend(own),
                Piece::Type(node) => node.append_words(&mut words),
            }
        }
        words
    }

    /// Fills the front of `out`, or all of it with zeros. `refusal` says what reading the finished
    /// words would meet, which can be nothing but 5.
    fn deliver(
        &self,
        out: &mut [u32],
        refusal: impl FnOnce(&[u32]) -> Option<Refusal>,
    ) -> Result<usize, Refusal> {
        if self.peak > out.len().min(WORD_LIMIT) {
            out.fill(0);
            return Err(Refusal::BufferTooShort);
        }
        deliver_unless_too_deep(&self.words(), out, refusal)
    }
}

fn deliver_unless_too_deep(
    words: &[u32],
    out: &mut [u32],
    refusal: impl FnOnce(&[u32]) -> Option<Refusal>,
) -> Result<usize, Refusal> {
    match refusal(words) {
        None => {
            out[..words.len()].copy_from_slice(words);
            Ok(words.len())
        }
        Some(Refusal::TooDeep) => {
            out.fill(0);
            Err(Refusal::TooDeep)
        }
        Some(other) => unreachable!("a rebuilt tree meets nothing but 5, not {other}"),
    }
}

/// The words of a type and of each type inside it.
pub fn types_of_type(encoding: &Encoding<'_>) -> Result<Vec<Vec<u32>>, Refusal> {
    read_type(encoding)?;
    let mut all = Vec::new();
    Node::read(encoding.words).append_all(&mut all);
    Ok(all)
}

/// The words of each type inside a declaration.
pub fn types_of_declaration(encoding: &Encoding<'_>) -> Result<Vec<Vec<u32>>, Refusal> {
    let mut all = Vec::new();
    for found in types_of(&read_declaration(encoding)?) {
        Node::read(&encoding.words[found.words()]).append_all(&mut all);
    }
    Ok(all)
}

/// A type as it stands in words.
struct Node {
    /// The words before those of the first child.
    own: Vec<u32>,
    children: Vec<Rc<Node>>,
    /// How many words it takes, children included.
    length: usize,
}

/// A type with its children and itself replaced, and the most words that were laid down on the
/// way, counted from its own first word.
struct Replaced {
    node: Rc<Node>,
    peak: usize,
}

impl Node {
    fn new(own: Vec<u32>, children: Vec<Rc<Node>>) -> Rc<Node> {
        let length = own.len() + children.iter().map(|child| child.length).sum::<usize>();
        Rc::new(Node {
            own,
            children,
            length,
        })
    }

    /// The type that these words, accepted before, begin with.
    fn read(words: &[u32]) -> Rc<Node> {
        let count_at = |at: usize| words[at] as usize;
        let (own, children) = match words[0] {
            kind::U8..=kind::BOOL => (1, 0),
            kind::IDENTIFIER => (2, 0),
            kind::FROM_PATH => (3 + count_at(2), 0),
            kind::APP | kind::FN => (2, count_at(1) + 1),
            kind::BORROWED..=kind::DYN => (1, 1),
            kind::TUPLE => (2, count_at(1)),
            kind::INTERSECTION | kind::SYNONYM => (1, 2),
            kind::ARRAY | kind::META_DATA => (2, 1),
            other => unreachable!("{other} is no head of a type"),
        };
        let mut at = own;
        let children = (0..children)
            .map(|_| {
                let child = Node::read(&words[at..]);
                at += child.length;
                child
            })
            .collect();
        Node::new(words[..own].to_vec(), children)
    }

    /// The words of this type and of all types inside it, in order.
    fn append_all(&self, all: &mut Vec<Vec<u32>>) {
        let mut words = Vec::with_capacity(self.length);
        self.append_words(&mut words);
        all.push(words);
        for child in &self.children {
            child.append_all(all);
        }
    }

    fn append_words(&self, words: &mut Vec<u32>) {
        words.extend(&self.own);
        for child in &self.children {
            child.append_words(words);
        }
    }

    /// `Replace`: first the children, then, if the type so finished is the from of a rule, itself.
    fn replace(&self, rules: &Rules<'_>) -> Replaced {
        let mut laid = self.own.len();
        let mut peak = laid;
        let mut children = Vec::new();
        for child in &self.children {
            let replaced = child.replace(rules);
            peak = peak.max(laid + replaced.peak);
            laid += replaced.node.length;
            children.push(replaced.node);
        }
        let finished = Node::new(self.own.clone(), children);
        match rules.replacement(&finished) {
            // The finished words go, then those of the replacement come.
            Some(to) => Replaced {
                peak: peak.max(to.length),
                node: to.clone(),
            },
            None => Replaced {
                node: finished,
                peak,
            },
        }
    }

    fn is_same(&self, other: &Node, names: &NameTable<'_>) -> bool {
        self.has_same_own_words(other, names)
            && self.children.len() == other.children.len()
            && self
                .children
                .iter()
                .zip(&other.children)
                .all(|(a, b)| a.is_same(b, names))
    }

    fn has_same_own_words(&self, other: &Node, names: &NameTable<'_>) -> bool {
        match (&self.own[..], &other.own[..]) {
            (&[kind::IDENTIFIER, a], &[kind::IDENTIFIER, b]) => names.are_same(a, b),
            (
                [kind::FROM_PATH, root_a, _, names_a @ ..],
                [kind::FROM_PATH, root_b, _, names_b @ ..],
            ) => {
                root_a == root_b
                    && names_a.len() == names_b.len()
                    && names_a
                        .iter()
                        .zip(names_b)
                        .all(|(&a, &b)| names.are_same(a, b))
            }
            // No size is the same only as no size.
            (&[kind::ARRAY, a], &[kind::ARRAY, b]) if a != NO_SIZE && b != NO_SIZE => {
                names.are_same(a - 1, b - 1)
            }
            // Heads, counts and flags.
            (a, b) => a == b,
        }
    }
}

/// The bytes of the names 16 and up.
struct NameTable<'a>(Vec<&'a [u8]>);

impl NameTable<'_> {
    fn bytes(&self, number: u32) -> &[u8] {
        let number = number as usize;
        match FIXED_NAMES.get(number) {
            Some(fixed) => fixed.as_bytes(),
            None => self.0[number - FIXED_NAMES.len()],
        }
    }

    fn are_same(&self, a: u32, b: u32) -> bool {
        self.bytes(a) == self.bytes(b)
    }
}

struct Rule {
    from: Rc<Node>,
    to: Rc<Node>,
}

struct Rules<'a> {
    rules: Vec<Rule>,
    names: NameTable<'a>,
}

impl<'a> Rules<'a> {
    /// Reads rules that share the names of an accepted tree; meets 3 to 6, then 10.
    fn read(encoding: &Encoding<'a>, words: &[u32]) -> Result<Rules<'a>, Refusal> {
        let types = read_whole(&with_words(encoding, words), |reader| {
            let count = reader.word()?;
            if count as usize > RULE_LIMIT {
                return Err(Refusal::UnknownWord);
            }
            reader.types(2 * count, 1)
        })?;
        let mut at = 1;
        let mut rules = Vec::new();
        for _ in 0..types.len() / 2 {
            let from = Node::read(&words[at..]);
            let to = Node::read(&words[at + from.length..]);
            at += from.length + to.length;
            rules.push(Rule { from, to });
        }
        let names = NameTable(table_names(encoding)?);
        let rules = Rules { rules, names };
        rules.check_no_repetition()?;
        Ok(rules)
    }

    fn check_no_repetition(&self) -> Result<(), Refusal> {
        for (index, rule) in self.rules.iter().enumerate() {
            let mut earlier = self.rules[..index].iter();
            if earlier.any(|other| other.from.is_same(&rule.from, &self.names)) {
                return Err(Refusal::RepeatedRule);
            }
        }
        Ok(())
    }

    /// The to of the rule whose from is this type.
    fn replacement(&self, finished: &Node) -> Option<&Rc<Node>> {
        let mut rules = self.rules.iter();
        let rule = rules.find(|rule| rule.from.is_same(finished, &self.names))?;
        Some(&rule.to)
    }
}

pub fn type_at_initialization(encoding: &Encoding<'_>, out: &mut [u32]) -> Result<usize, Refusal> {
    let words = initialization_words(encoding)?;
    if words.len() > out.len().min(WORD_LIMIT) {
        out.fill(0);
        return Err(Refusal::BufferTooShort);
    }
    deliver_unless_too_deep(&words, out, |words| {
        read_type(&with_words(encoding, words)).err()
    })
}

/// The words of `TypeAtInitialization`, however many; new names are fixed ones.
pub fn initialization_words(encoding: &Encoding<'_>) -> Result<Vec<u32>, Refusal> {
    use kind::{APP, FROM_PATH};
    use name::{DAFNY_RUNTIME, MAYBE_UNINIT, MEM, OBJECT, PTR, STD};
    use root::GLOBAL;
    const OBJECT_OF: &[u32] = &[APP, 1, FROM_PATH, GLOBAL, 2, DAFNY_RUNTIME, OBJECT];
    const PTR_OF: &[u32] = &[APP, 1, FROM_PATH, GLOBAL, 2, DAFNY_RUNTIME, PTR];
    const MAYBE_UNINIT_OF: &[u32] = &[APP, 1, FROM_PATH, GLOBAL, 3, STD, MEM, MAYBE_UNINIT];
    let tree = read_type(encoding)?;
    let words_of = |part: &Type| {
        let words = tree.words_of(part).expect("a type of the tree");
        &encoding.words[words]
    };
    // What is asked of the type as it stands, with no wrapper opened.
    let outside = if tree.is_object() { OBJECT_OF } else { PTR_OF };
    Ok(match tree.array_to_initialize() {
        None => encoding.words.to_vec(),
        Some(ToInitialize::Array { element }) => [
            outside,
            &[kind::ARRAY, NO_SIZE],
            MAYBE_UNINIT_OF,
            words_of(element),
        ]
        .concat(),
        Some(ToInitialize::MultiArray { base, element }) => [
            outside,
            &[APP, 1],
            words_of(base),
            MAYBE_UNINIT_OF,
            words_of(element),
        ]
        .concat(),
    })
}

/// The arrays that `TypeAtInitialization` changes.
enum ToInitialize<'a> {
    Array { element: &'a Type },
    MultiArray { base: &'a Type, element: &'a Type },
}

impl Type {
    fn array_to_initialize(&self) -> Option<ToInitialize<'_>> {
        let array = self.object_or_pointer_underlying()?; // not expanded
        if let Type::Array {
            element,
            size: None,
        } = array
        {
            return Some(ToInitialize::Array { element });
        }
        let element = array.multi_array_underlying()?;
        match array.expand() {
            Type::App { base, .. } => Some(ToInitialize::MultiArray { base, element }),
            _ => None,
        }
    }
}

#[cfg(test)]
mod tests {
    use super::*;
    use crate::cases::{self, WordCase};

    type WordCall = fn(&Encoding<'_>, &[u32], &mut [u32]) -> Result<usize, Refusal>;

    fn check(call: WordCall, cases: &[WordCase]) {
        for case in cases {
            let before: Vec<u32> = (900..).take(case.buffer).collect();
            let mut buffer = before.clone();
            let sample = cases::encoded(&case.words);
            let answer = call(&sample.as_encoding(), &case.rules, &mut buffer);
            let wanted = case.wanted.as_ref().map(Vec::len).map_err(|number| *number);
            assert_eq!(answer.map_err(Refusal::number), wanted, "{case:?}");
            assert_eq!(buffer, case.buffer_after(&before, true), "{case:?}");
        }
    }

    #[test]
    fn types_by_hand() {
        check(type_rebuild, &cases::type_rebuilds());
    }

    #[test]
    fn declarations_by_hand() {
        check(declaration_rebuild, &cases::declaration_rebuilds());
    }

    #[test]
    fn initializations_by_hand() {
        check(
            |encoding, _rules, out| type_at_initialization(encoding, out),
            &cases::initializations(),
        );
    }

    #[test]
    fn limits_come_first() {
        use Refusal::{BadPair, EndsEarly, Overlong};
        let long = vec![0; WORD_LIMIT + 1];
        let call = |words: &[u32], pairs: &[u32], rules: &[u32]| {
            let mut out = [7; 4];
            let text = &[][..];
            let answer = type_rebuild(&Encoding { words, pairs, text }, rules, &mut out);
            assert_eq!(out, [7; 4]);
            answer
        };
        assert_eq!(call(&[], &[1], &long), Err(Overlong));
        assert_eq!(call(&long, &[1], &[]), Err(Overlong));
        assert_eq!(call(&[], &[1], &[]), Err(BadPair));
        assert_eq!(call(&[], &[], &long[1..]), Err(EndsEarly));
    }

    fn bare(words: &[u32]) -> Encoding<'_> {
        Encoding {
            words,
            pairs: &[],
            text: &[],
        }
    }

    /// 8,192 is a limit whatever the buffer, and all of the buffer is cleared.
    #[test]
    fn no_more_than_8192_words() {
        let sum_of = |count: u32| {
            let mut words = vec![kind::TUPLE, count];
            words.resize(count as usize + 2, kind::U8);
            words
        };
        let limit = WORD_LIMIT as u32;
        for (count, wanted) in [
            (limit - 4, Ok(WORD_LIMIT - 1)),
            (limit - 3, Ok(WORD_LIMIT)),
            (limit - 2, Err(8)),
        ] {
            let mut words = sum_of(count);
            words[2] = kind::BOOL;
            let mut out = vec![7; 9_000];
            let rules = [1, kind::BOOL, kind::BORROWED, kind::BOOL];
            let answer = type_rebuild(&bare(&words), &rules, &mut out);
            assert_eq!(answer.map_err(Refusal::number), wanted);
            let left = if wanted.is_ok() { 7 } else { 0 };
            assert!(out[WORD_LIMIT..].iter().all(|&word| word == left));
        }
        for (count, wanted) in [(limit - 19, Ok(WORD_LIMIT)), (limit - 18, Err(8))] {
            let array = [kind::ARRAY, NO_SIZE];
            let words = cases::joined(&[&cases::OBJECT_OF, &array, &sum_of(count)]);
            let mut out = vec![7; 9_000];
            let answer = type_at_initialization(&bare(&words), &mut out);
            assert_eq!(answer.map_err(Refusal::number), wanted);
            let left = if wanted.is_ok() { 7 } else { 0 };
            assert!(out[WORD_LIMIT..].iter().all(|&word| word == left));
        }
    }

    /// A tree that would grow to millions of words is refused at once.
    #[test]
    fn growth_is_cheap() {
        let limit = WORD_LIMIT as u32;
        let mut words = vec![kind::TUPLE, limit - 2];
        words.resize(WORD_LIMIT, kind::U8);
        let mut rules = vec![1, kind::U8, kind::TUPLE, limit - 4];
        rules.resize(WORD_LIMIT, kind::U16);
        let encoding = bare(&words);
        let rebuilt = rebuilt_type(&encoding, &rules).unwrap();
        assert_eq!(rebuilt.length, 2 + (WORD_LIMIT - 2) * (WORD_LIMIT - 2));
        assert_eq!(rebuilt.peak, rebuilt.length);
        let mut out = [7; 20];
        let answer = type_rebuild(&encoding, &rules, &mut out);
        assert_eq!(answer, Err(Refusal::BufferTooShort));
        assert_eq!(out, [0; 20]);
    }
}
