//! The decoder against the library's calls, and the calls of trees against the reference.

mod common;

use std::error::Error;
use std::thread;

use common::{bare, gauge, shape, Tally};
use tillercoral::cases::borrows_then;
use tillercoral::generate::{
    damage, random_declaration, random_path, random_rules, random_shaped_type, random_type, Names,
    Random,
};
use tillercoral::tree::{
    Attribute, Declaration, Enum, EnumCase, Field, Fields, NamelessField, Path, Root, Struct, Type,
    TypeParameter, TypeSynonym, Use,
};
use tillercoral::words::{
    fields::*, head, head::*, kind, kind::*, name::*, pair, root::*, visibility::*,
};
use tillercoral::{
    declaration_text, limits, path_text, reference, type_text, DecodeError, Encoding, EncodingBuf,
    Part, Refusal, Shape, TextError,
};

type TextCall = fn(&Encoding<'_>, u32, &mut [u8]) -> Result<usize, Refusal>;

/// One kind of tree: the library's call for its text, and how it is decoded, encoded and read by the
/// reference.
struct Kind<T> {
    text: TextCall,
    decode: fn(&Encoding<'_>) -> Result<T, DecodeError>,
    encode: fn(&T) -> Result<EncodingBuf, Refusal>,
    read: fn(&Encoding<'_>) -> Result<T, Refusal>,
}

const TYPES: Kind<Type> = Kind {
    text: type_text,
    decode: Type::decode,
    encode: Type::encode,
    read: reference::read_type,
};

const PATHS: Kind<Path> = Kind {
    text: path_text,
    decode: Path::decode,
    encode: Path::encode,
    read: reference::read_path,
};

const DECLARATIONS: Kind<Declaration> = Kind {
    text: declaration_text,
    decode: Declaration::decode,
    encode: Declaration::encode,
    read: reference::read_declaration,
};

/// A buffer that no text of these tests fills, and what was met.
struct Checker {
    buffer: Vec<u8>,
    tally: Tally,
}

impl Checker {
    fn new() -> Checker {
        Checker {
            buffer: vec![0; 1 << 22],
            tally: Tally::default(),
        }
    }

    fn text(&mut self, call: TextCall, encoding: &Encoding<'_>) -> Result<Vec<u8>, Refusal> {
        let answer = call(encoding, 0, &mut self.buffer);
        assert_ne!(answer, Err(Refusal::BufferTooShort), "{encoding:?}");
        answer.map(|length| self.buffer[..length].to_vec())
    }

    /// The decoder refuses as the library does. What it accepts is the reference's tree, comes back
    /// from its own encoding, and prints the same from there.
    fn check<T: PartialEq + std::fmt::Debug>(&mut self, kind: &Kind<T>, encoding: &Encoding<'_>) {
        let text = self.text(kind.text, encoding);
        self.tally.count_text(&text);
        let decoded = (kind.decode)(encoding);
        match &decoded {
            Err(error) => assert_eq!(text, Err(error.refusal()), "{encoding:?}"),
            Ok(tree) => {
                let encoded = (kind.encode)(tree).expect("what was encoded can be again");
                let encoded = encoded.as_encoding();
                assert_eq!((kind.decode)(&encoded).as_ref(), Ok(tree));
                assert_eq!(self.text(kind.text, &encoded), text, "{encoding:?}");
            }
        }
        assert_eq!(decoded.map_err(Refusal::from), (kind.read)(encoding));
    }

    fn check_all(&mut self, encoding: &Encoding<'_>) {
        self.check(&TYPES, encoding);
        self.check(&PATHS, encoding);
        self.check(&DECLARATIONS, encoding);
    }

    /// Each of these refusals was met so often, and so many texts.
    fn assert_met(&self, refusals: &[Refusal], least: usize) {
        println!("{:?}", self.tally);
        for &refusal in refusals {
            assert!(self.tally.refused(refusal) >= least, "{refusal}");
        }
        assert!(self.tally.texts >= least, "{:?}", self.tally);
    }
}

use Refusal::{BadPair, EndsEarly, LeftOver, Overlong, TooDeep, UnknownWord};

#[test]
fn whole_and_damaged_encodings() {
    let random = &mut Random::new(91);
    let mut whole = Checker::new();
    let mut damaged = Checker::new();
    for round in 0..6_000 {
        let names = Names::random_with_docs(random, 12);
        let shape = shape(round, random);
        let mut samples = [
            random_type(random, &names, shape),
            random_path(random, &names, 6),
            random_declaration(random, &names, shape),
        ];
        whole.check(&TYPES, &samples[0].as_encoding());
        whole.check(&PATHS, &samples[1].as_encoding());
        whole.check(&DECLARATIONS, &samples[2].as_encoding());
        for sample in &mut samples {
            for _ in 0..1 + random.below(2) {
                damage(random, sample);
            }
        }
        damaged.check(&TYPES, &samples[0].as_encoding());
        damaged.check(&PATHS, &samples[1].as_encoding());
        damaged.check(&DECLARATIONS, &samples[2].as_encoding());
    }
    whole.assert_met(&[TooDeep], 200);
    assert!(whole.tally.texts > 12_000);
    damaged.assert_met(&[BadPair, EndsEarly, UnknownWord, TooDeep, LeftOver], 200);
}

/// Words without sense, and some pairs and texts.
#[test]
fn random_encodings() {
    let random = &mut Random::new(92);
    let mut checker = Checker::new();
    for _ in 0..150_000 {
        let word = |random: &mut Random| match random.percent(3) {
            true => random.word(),
            false => random.small_word(),
        };
        let words: Vec<u32> = (0..random.below(14)).map(|_| word(random)).collect();
        let numbers = if random.percent(20) {
            random.below(6)
        } else {
            0
        };
        let pairs: Vec<u32> = (0..numbers).map(|_| random.below(4) as u32).collect();
        let encoding = Encoding {
            words: &words,
            pairs: if pairs.is_empty() {
                &[0, 2, 4, 2]
            } else {
                &pairs
            },
            text: b"mm, id",
        };
        checker.check_all(&encoding);
    }
    checker.assert_met(&[BadPair, EndsEarly, UnknownWord, LeftOver], 500);
}

/// All runs of up to three words.
#[test]
fn short_encodings() {
    let small = (0..kind::END).chain(STRUCT..=head::END);
    let words: Vec<u32> = small.chain([1 << 31, u32::MAX]).collect();
    let mut checker = Checker::new();
    checker.check_all(&gauge(&[]));
    for &first in &words {
        checker.check_all(&gauge(&[first]));
        for &second in &words {
            checker.check_all(&gauge(&[first, second]));
            for &third in &words {
                checker.check_all(&gauge(&[first, second, third]));
            }
        }
    }
    checker.assert_met(&[EndsEarly, UnknownWord, LeftOver], 500);
}

#[test]
fn limits_of_tables() {
    let mut checker = Checker::new();
    let most = limits::WORD_LIMIT;
    let mut tuple = vec![U8; most + 1];
    tuple[0] = TUPLE;
    for (length, count) in [(most, most - 2), (most, most - 1), (most + 1, most - 1)] {
        tuple[1] = count as u32;
        checker.check_all(&bare(&tuple[..length]));
    }
    let (most, last) = (2 * limits::PAIR_LIMIT, pair(limits::PAIR_LIMIT as u32 - 1));
    for numbers in most..most + 4 {
        for name in [last, last + 1] {
            checker.check_all(&Encoding {
                words: &[IDENTIFIER, name],
                pairs: &vec![0; numbers],
                text: b"",
            });
        }
    }
    for length in [limits::TEXT_LIMIT, limits::TEXT_LIMIT + 1] {
        checker.check_all(&Encoding {
            words: &[IDENTIFIER, pair(0)],
            pairs: &[0, limits::TEXT_LIMIT as u32],
            text: &vec![b'm'; length],
        });
    }
    checker.assert_met(&[Overlong, BadPair, EndsEarly, UnknownWord], 1);
}

#[test]
fn limits_of_depth() {
    let mut checker = Checker::new();
    let ends: [&[u32]; 8] = [
        &[],
        &[0],
        &[14],
        &[14, 0],
        &[24, 9],
        &[24, 3],
        &[19, 0],
        &[19, 1],
    ];
    for rest in ends {
        let most = limits::DEPTH_LIMIT;
        for borrows in [most - 2, most - 1, most, 8_000] {
            checker.check_all(&bare(&borrows_then(borrows, rest)));
        }
    }
    checker.assert_met(&[EndsEarly, UnknownWord, TooDeep], 2);
}

/// Depth is bounded and counts are not believed: a small stack is enough for anything.
#[test]
fn a_small_stack_is_enough() {
    let of_pattern = |pattern: &[u32]| -> Vec<u32> {
        pattern
            .iter()
            .copied()
            .cycle()
            .take(limits::WORD_LIMIT)
            .collect()
    };
    let patterns = [
        &[BORROWED][..],
        &[TUPLE, u32::MAX],
        &[APP, u32::MAX],
        &[FN, 0],
        &[INTERSECTION],
        &[SYNONYM],
        &[META_DATA, 3],
        &[ENUM, EMPTY, 0, EMPTY, u32::MAX],
    ];
    let samples: Vec<Vec<u32>> = patterns.iter().map(|pattern| of_pattern(pattern)).collect();
    let decode_all = move || {
        for words in &samples {
            let encoding = bare(words);
            let refusal = Type::decode(&encoding).map_err(Refusal::from);
            assert_eq!(
                refusal,
                reference::read_type(&encoding),
                "{:?}",
                &words[..4]
            );
            assert!(Declaration::decode(&encoding).is_err());
        }
    };
    let thread = thread::Builder::new().stack_size(1 << 20);
    thread
        .spawn(decode_all)
        .expect("a thread")
        .join()
        .expect("no refusal but the reference's");
}

#[test]
fn errors_say_where() {
    let error = |words: &[u32]| Type::decode(&gauge(words)).unwrap_err();
    for (words, refusal, position) in [
        (&[][..], EndsEarly, 0),
        (&[15, 14], EndsEarly, 2),
        (&[14, 1, 12, 20, 0], UnknownWord, 3),
        (&[24, 4, 0], UnknownWord, 1),
        (&[22, 21, 0], UnknownWord, 1),
        (&[19, 2, 0, kind::END], UnknownWord, 3),
        (&[19, 1, 0, 0, 0], LeftOver, 3),
        (
            &borrows_then(limits::DEPTH_LIMIT, &[0]),
            TooDeep,
            limits::DEPTH_LIMIT,
        ),
    ] {
        assert_eq!(error(words).refusal(), refusal, "{words:?}");
        assert_eq!(error(words).position(), Some(position), "{words:?}");
    }
    assert_eq!(
        error(&[15]).to_string(),
        "at word 1: a word is wanted and none is left (refusal 3)"
    );
    let of_pairs = |pairs: &[u32]| {
        let encoding = Encoding {
            words: &[0],
            pairs,
            text: b"mm",
        };
        Type::decode(&encoding).unwrap_err()
    };
    assert!(of_pairs(&[0, 1, 0, 1])
        .to_string()
        .starts_with("at pair 1: a pair overlaps"));
    assert!(of_pairs(&[0; 2 * limits::PAIR_LIMIT + 2])
        .to_string()
        .starts_with("more than"));
    let with_pairs = |pairs| (of_pairs(pairs).refusal(), of_pairs(pairs).position());
    assert_eq!(with_pairs(&[0, 1, 0, 1]), (BadPair, Some(1)));
    assert_eq!(with_pairs(&[0, 3]), (BadPair, Some(0)));
    assert_eq!(with_pairs(&[0, 1, 1]), (BadPair, Some(1)));
    assert_eq!(
        with_pairs(&[0; 2 * limits::PAIR_LIMIT + 2]),
        (Overlong, None)
    );
}

#[test]
fn limits_are_those_of_the_papers() {
    assert_eq!(limits::WORD_LIMIT, 8_192);
    assert_eq!(limits::PAIR_LIMIT, 1_024);
    assert_eq!(limits::TEXT_LIMIT, 16_384);
    assert_eq!(limits::DEPTH_LIMIT, 64);
    assert_eq!(limits::LEVEL_LIMIT, 16);
    assert_eq!(limits::RULE_LIMIT, 32);
    let names = " std rc Rc sync Arc boxed Box mem MaybeUninit \
        dafny_runtime Object Ptr MaybePlacebo _ self";
    assert_eq!(limits::FIXED_NAMES.join(" "), names);
    assert_eq!(limits::PRINT_LIMIT, 65_536);
}

fn assert_type(tree: Type, words: &[u32]) {
    assert_eq!(tree.encode().unwrap().words, words, "{tree:?}");
}

/// Each function that builds a type, with its words written by hand.
#[test]
fn built_types() {
    let named = || Type::named("Gauge");
    assert_type(named(), &[12, 16]);
    assert_type(
        named().apply([Type::U16, Type::U32]),
        &[14, 2, 12, 16, 1, 2],
    );
    assert_type(Type::applied(named(), []), &[14, 0, 12, 16]);
    assert_type(Type::borrowed(Type::U64), &[15, 3]);
    assert_type(Type::borrowed_mut(Type::U128), &[16, 4]);
    assert_type(Type::impl_trait(Type::I8), &[17, 5]);
    assert_type(Type::dyn_trait(Type::I16), &[18, 6]);
    assert_type(Type::tuple([Type::I32, Type::I64]), &[19, 2, 7, 8]);
    assert_type(Type::unit(), &[19, 0]);
    assert_type(Type::function([Type::I128], Type::Usize), &[20, 1, 9, 10]);
    assert_type(Type::intersection(Type::U8, Type::Bool), &[21, 0, 11]);
    assert_type(Type::slice(Type::U8), &[22, 0, 0]);
    assert_type(Type::array(named(), "16"), &[22, 17, 12, 17]);
    assert_type(Type::array(Type::U8, ""), &[22, 1, 0]);
    assert_type(Type::synonym(Type::U8, Type::Bool), &[23, 0, 11]);
    assert_type(Type::meta_data(Type::U8, true, false), &[24, 1, 0]);
    assert_type(Type::meta_data(Type::U8, false, true), &[24, 2, 0]);
}

/// The same for types that are made of paths.
#[test]
fn built_paths() {
    let of = Type::Bool;
    assert_type(Type::self_type(), &[13, 2, 0]);
    assert_type(Path::in_self(["std"]).into_type(), &[13, 2, 1, 1]);
    assert_type(
        Path::in_crate(["std"]).select(b"rc").into(),
        &[13, 1, 2, 1, 2],
    );
    assert_type(Path::new(Root::Global, ["Gauge"]).into(), &[13, 0, 1, 16]);
    assert_type(
        Path::global(["std"]).apply([of.clone()]),
        &[14, 1, 13, 0, 1, 1, 11],
    );
    assert_type(Type::rc(of.clone()), &[14, 1, 13, 0, 3, 1, 2, 3, 11]);
    assert_type(Type::arc(of.clone()), &[14, 1, 13, 0, 3, 1, 4, 5, 11]);
    assert_type(Type::boxed(of.clone()), &[14, 1, 13, 0, 3, 1, 6, 7, 11]);
    assert_type(
        Type::maybe_uninit(of.clone()),
        &[14, 1, 13, 0, 3, 1, 8, 9, 11],
    );
    assert_type(Type::object(of.clone()), &[14, 1, 13, 0, 2, 10, 11, 11]);
    assert_type(Type::ptr(of.clone()), &[14, 1, 13, 0, 2, 10, 12, 11]);
    assert_type(
        Type::maybe_placebo(of.clone()),
        &[14, 1, 13, 0, 2, 10, 13, 11],
    );
    assert_type(
        Type::runtime("Map", [Type::U8, of]),
        &[14, 2, 13, 0, 2, 10, 16, 0, 11],
    );
}

fn assert_declaration(tree: impl Into<Declaration>, words: &[u32]) {
    let tree = tree.into();
    assert_eq!(tree.encode().unwrap().words, words, "{tree:?}");
}

/// The name that `derive` adds.
const DERIVE: u32 = pair(0);

/// Each function that builds a part of a declaration, with the words written by hand. But for
/// `derive` the names are fixed ones.
#[test]
fn built_declarations() {
    let parameter = TypeParameter::new("Arc")
        .constraint(Type::U8)
        .constraint(Type::Bool);
    let front = Struct::new("rc")
        .doc("std")
        .attribute(Attribute::new("sync"))
        .derive(["mem", "Box"])
        .parameter(parameter.clone());
    assert_declaration(
        front,
        &[
            STRUCT, STD, 2, SYNC, 0, DERIVE, 2, MEM, BOX, RC_MODULE, 1, ARC, 2, U8, BOOL, NAMED, 0,
        ],
    );
    let synonym = TypeSynonym::new("rc", Type::U8)
        .doc("std")
        .derive(["mem"])
        .parameter(parameter);
    assert_declaration(
        synonym,
        &[
            TYPE, STD, 1, DERIVE, 1, MEM, RC_MODULE, 1, ARC, 2, U8, BOOL, U8,
        ],
    );
    let choice = Enum::new("rc")
        .attribute(Attribute::new("sync"))
        .parameter(TypeParameter::new("Arc"));
    assert_declaration(choice, &[ENUM, EMPTY, 1, SYNC, 0, RC_MODULE, 1, ARC, 0, 0]);
    let path = Path::global(["std"]);
    assert_declaration(Use::public(path.clone()), &[USE, PUB, GLOBAL, 1, STD]);
    assert_declaration(Use::private(path), &[USE, PRIV, GLOBAL, 1, STD]);
}

#[test]
fn built_fields_and_cases() {
    let both = Struct::new("rc")
        .field(Field::public("Ptr", Type::U8))
        .field(Field::private("self", Type::U16));
    assert_declaration(
        both,
        &[
            STRUCT, EMPTY, 0, RC_MODULE, 0, NAMED, 2, PUB, PTR, U8, PRIV, SELF, U16,
        ],
    );
    let named = Fields::named([Field::private("Ptr", Type::U8)]);
    assert_declaration(
        Struct::new("rc").fields(named),
        &[STRUCT, EMPTY, 0, RC_MODULE, 0, NAMED, 1, PRIV, PTR, U8],
    );
    let nameless = Fields::nameless([NamelessField::private(Type::U8)]);
    assert_declaration(
        Struct::new("rc").fields(nameless),
        &[STRUCT, EMPTY, 0, RC_MODULE, 0, NAMELESS, 1, PRIV, U8],
    );
    let first = EnumCase::new("mem")
        .doc("Box")
        .field(Field::public("_", Type::U8));
    let second = Fields::nameless([NamelessField::public(Type::U8)]);
    let choice = Enum::new("rc")
        .doc("std")
        .derive(["Rc"])
        .case(first)
        .case(EnumCase::new("Ptr").fields(second));
    assert_declaration(
        choice,
        &[
            ENUM, STD, 1, DERIVE, 1, RC, RC_MODULE, 0, 2, BOX, MEM, NAMED, 1, PUB, UNDERSCORE, U8,
            EMPTY, PTR, NAMELESS, 1, PUB, U8,
        ],
    );
}

/// A doc, fields and arguments take the place of those before.
#[test]
fn built_twice() {
    let nameless = || Fields::nameless([NamelessField::public(Type::U8)]);
    let attribute = Attribute::new("sync").arguments(["mem"]).arguments(["Box"]);
    let of_struct = Struct::new("rc")
        .doc("mem")
        .doc("std")
        .attribute(attribute)
        .fields(nameless())
        .fields(Fields::nameless([]));
    assert_declaration(
        of_struct,
        &[STRUCT, STD, 1, SYNC, 1, BOX, RC_MODULE, 0, NAMELESS, 0],
    );
    let case = EnumCase::new("mem")
        .doc("std")
        .doc("Box")
        .fields(nameless())
        .fields(Fields::nameless([]));
    assert_declaration(
        Enum::new("rc").case(case),
        &[ENUM, EMPTY, 0, RC_MODULE, 0, 1, BOX, MEM, NAMELESS, 0],
    );
}

#[test]
#[should_panic(expected = "a named field cannot stand among nameless ones")]
fn named_fields_do_not_join_nameless_ones() {
    let nameless = Fields::nameless([NamelessField::public(Type::U8)]);
    let _ = Struct::new("A")
        .fields(nameless)
        .field(Field::public("mm", Type::U8));
}

/// The calls of a tree and those of the reference, which works on trees itself.
#[test]
fn calls_of_types() {
    let random = &mut Random::new(93);
    let (mut shapes_held, mut parts_given) = ([0; 15], [0; 11]);
    for round in 0..6_000 {
        let names = Names::random_for_shapes(random);
        let (shape, depth) = (shape(round, random), 2 + random.below(5));
        let sample = match round % 3 {
            0 => random_type(random, &names, shape),
            _ => random_shaped_type(random, &names, depth),
        };
        let Ok(tree) = reference::read_type(&sample.as_encoding()) else {
            continue; // too deep
        };
        assert_eq!(tree.to_text_bytes(), Ok(tree.reference_text()));
        assert_eq!(tree.is_sound(), Ok(reference::tree_is_sound(&tree)));
        for (index, (shape, wanted)) in Shape::ALL.iter().zip(&reference::SHAPES).enumerate() {
            let holds = (wanted.holds)(&tree);
            assert_eq!(tree.has_shape(*shape), Ok(holds), "{shape} of {tree:?}");
            shapes_held[index] += usize::from(holds);
        }
        for (index, (part, wanted)) in Part::ALL.iter().zip(&reference::PARTS).enumerate() {
            let given = (wanted.of)(&tree).cloned().ok_or(Refusal::NoSuchPart);
            parts_given[index] += usize::from(given.is_ok());
            assert_eq!(tree.part(*part), given, "{part} of {tree:?}");
        }
        check_initialization(&tree);
        check_visits(&tree);
    }
    println!("{shapes_held:?} {parts_given:?}");
    assert!(shapes_held
        .iter()
        .chain(&parts_given)
        .all(|&count| count > 20));
}

fn check_initialization(tree: &Type) {
    let encoding = tree.encode().unwrap();
    let mut buffer = [0; limits::WORD_LIMIT];
    let wanted = reference::type_at_initialization(&encoding.as_encoding(), &mut buffer)
        .and_then(|length| reference::read_type(&with_words(&encoding, &buffer[..length])));
    assert_eq!(tree.at_initialization(), wanted);
}

/// A run of words holds a whole type in one way only, so it is enough that each part begins where the
/// reference says.
fn check_visits(tree: &Type) {
    let encoding = tree.encode().unwrap();
    let encoding = encoding.as_encoding();
    let positions = encoding.type_visit().unwrap();
    assert_eq!(positions, tree.reference_visits());
    let visited = tree.visited().unwrap();
    let parts = encoding.types_at(&positions).unwrap();
    assert_eq!(
        (visited.len(), parts.len()),
        (positions.len(), positions.len())
    );
    for ((tree, part), position) in visited.iter().zip(parts).zip(positions) {
        let from_there = encoding.words[position as usize..].as_ptr();
        assert_eq!(part.words.as_ptr(), from_there);
        assert_eq!(reference::read_type(&part).as_ref(), Ok(tree));
    }
}

fn with_words<'a>(encoding: &'a EncodingBuf, words: &'a [u32]) -> Encoding<'a> {
    Encoding {
        words,
        ..encoding.as_encoding()
    }
}

/// The names that shapes are known by are the source's.
#[test]
fn names_of_shapes_and_parts() {
    let shapes = reference::SHAPES.iter().map(|shape| shape.name);
    assert!(Shape::ALL.iter().map(|shape| shape.to_string()).eq(shapes));
    let parts = reference::PARTS.iter().map(|part| part.name);
    assert!(Part::ALL.iter().map(|part| part.to_string()).eq(parts));
}

/// The trees of a list of rules.
fn rule_trees(sample: &EncodingBuf, rules: &[u32]) -> Option<Vec<(Type, Type)>> {
    let mut encoding = with_words(sample, &rules[1..]);
    let mut next = || {
        let part = encoding.types_at(&[0]).ok()?[0];
        encoding.words = &encoding.words[part.words.len()..];
        Type::decode(&part).ok()
    };
    (0..rules[0]).map(|_| Some((next()?, next()?))).collect()
}

/// How many rebuilt trees differed from the tree before, and how many were refused.
#[derive(Default, Debug)]
struct RebuildTally {
    changed: usize,
    refused: usize,
}

impl RebuildTally {
    /// A rebuilt tree, and the rebuilt words as the reference gives and reads them.
    fn check<T: PartialEq + std::fmt::Debug>(
        &mut self,
        before: &T,
        rebuilt: Result<T, Refusal>,
        wanted: Result<T, Refusal>,
    ) {
        assert_eq!(rebuilt, wanted);
        match rebuilt {
            Ok(tree) => self.changed += usize::from(tree != *before),
            Err(_) => self.refused += 1,
        }
    }
}

#[test]
fn rebuilt_types() {
    let random = &mut Random::new(94);
    let mut tally = RebuildTally::default();
    for round in 0..3_000 {
        let names = Names::random_with_docs(random, 8);
        let shape = shape(round, random);
        let sample = random_type(random, &names, shape);
        let rules = random_rules(random, &names, &sample);
        let encoding = sample.as_encoding();
        if let (Ok(tree), Some(trees)) = (Type::decode(&encoding), rule_trees(&sample, &rules)) {
            let mut buffer = [0; limits::WORD_LIMIT];
            let wanted = reference::type_rebuild(&encoding, &rules, &mut buffer)
                .and_then(|length| reference::read_type(&with_words(&sample, &buffer[..length])));
            tally.check(&tree, tree.rebuild(&trees), wanted);
        }
    }
    println!("{tally:?}");
    assert!(tally.changed > 500 && tally.refused > 10, "{tally:?}");
}

#[test]
fn rebuilt_and_visited_declarations() {
    let random = &mut Random::new(95);
    let mut tally = RebuildTally::default();
    for round in 0..3_000 {
        let names = Names::random_with_docs(random, 8);
        let shape = shape(round, random);
        let sample = random_declaration(random, &names, shape);
        let rules = random_rules(random, &names, &sample);
        let encoding = sample.as_encoding();
        if let (Ok(tree), Some(trees)) =
            (Declaration::decode(&encoding), rule_trees(&sample, &rules))
        {
            let mut buffer = [0; limits::WORD_LIMIT];
            let wanted =
                reference::declaration_rebuild(&encoding, &rules, &mut buffer).and_then(|length| {
                    reference::read_declaration(&with_words(&sample, &buffer[..length]))
                });
            tally.check(&tree, tree.rebuild(&trees), wanted);
            let positions = encoding.declaration_visit();
            assert_eq!(positions, Ok(tree.reference_visits()));
            let types = encoding.types_at(&tree.reference_visits()).unwrap();
            let trees: Result<Vec<Type>, Refusal> =
                types.iter().map(reference::read_type).collect();
            assert_eq!(tree.visited(), trees);
        }
    }
    println!("{tally:?}");
    assert!(tally.changed > 500 && tally.refused > 10, "{tally:?}");
}

#[test]
fn rules_that_have_no_encoding() {
    let rule = || (Type::named("Depth"), Type::named("Height"));
    let mut encoding = Type::named("Depth").encode().unwrap();
    let before = encoding.clone();
    assert_eq!(
        encoding.encode_rules(&vec![rule(); limits::RULE_LIMIT + 1]),
        Err(UnknownWord)
    );
    let long_name = (Type::U8, Type::named("m".repeat(limits::TEXT_LIMIT - 4)));
    assert_eq!(encoding.encode_rules(&[long_name]), Err(Overlong));
    let deep = (0..limits::DEPTH_LIMIT).fold(Type::U8, |inner, _| Type::borrowed(inner));
    assert_eq!(encoding.encode_rules(&[(deep, Type::U8)]), Err(TooDeep));
    assert_eq!(encoding, before);

    assert_eq!(encoding.encode_rules(&[]), Ok(vec![0]));
    assert_eq!(
        encoding.encode_rules(&[rule()]),
        Ok(vec![1, 12, 16, 12, 17])
    );
    encoding.pairs.push(0);
    assert_eq!(encoding.encode_rules(&[]), Err(BadPair));
}

/// What the reference prints for a file, from the encoding in the file.
fn check_file(file: &[u8]) -> Result<Vec<u8>, Refusal> {
    let text = EncodingBuf::from_file(file).and_then(|it| it.as_encoding().declaration_text(0));
    let wanted = match &text {
        Ok(text) => [text, &b"\n"[..]].concat(),
        Err(refusal) => format!("refused {}\n", refusal.number()).into_bytes(),
    };
    assert_eq!(wanted, reference::printdecl(file), "{file:?}");
    text
}

/// Files, whole ones and with other lengths and headers than they should have.
#[test]
fn files() {
    let random = &mut Random::new(96);
    let mut tally = Tally::default();
    for round in 0..3_000 {
        let names = Names::random_with_docs(random, 6);
        let shape = shape(round % 8, random);
        let mut sample = random_declaration(random, &names, shape);
        if random.percent(30) {
            damage(random, &mut sample);
        }
        let mut file = sample.to_file();
        match random.below(8) {
            0 => file.truncate(random.below(20)),
            1 => file.truncate(random.below(file.len() + 1)),
            2 => file.extend(vec![0; 1 + random.below(9)]),
            3 | 4 => file[random.below(12)] ^= 1 << random.below(8),
            _ => {}
        }
        tally.count_text(&check_file(&file));
    }
    println!("{tally:?}");
    assert!(tally.texts > 500);
    assert!(tally.refused(Refusal::BadFileLength) > 500);
    assert!(tally.refused(Overlong) > 100);
}

/// Headers at the limits and above, of files that are too short and of the right length. What is not
/// over a limit has the first word 0, which begins no declaration.
#[test]
fn limits_of_files() {
    let [pairs, words, text] =
        [limits::PAIR_LIMIT, limits::WORD_LIMIT, limits::TEXT_LIMIT].map(|limit| limit as u32);
    let limits = [
        ([pairs, words, text], UnknownWord),
        ([pairs + 1, 0, 0], Overlong),
        ([0, words + 1, 0], Overlong),
        ([0, 0, text + 1], Overlong),
    ];
    for (header, of_whole) in limits {
        let [pairs, words, text]: [u32; 3] = header;
        let mut file: Vec<u8> = header.iter().flat_map(|it| it.to_le_bytes()).collect();
        let of_header = match of_whole {
            Overlong => Overlong,
            _ => Refusal::BadFileLength,
        };
        assert_eq!(check_file(&file), Err(of_header));
        file.resize(12 + (8 * pairs + 4 * words + text) as usize, 0);
        assert_eq!(check_file(&file), Err(of_whole));
    }
}

/// Texts that the first buffers are too short for.
#[test]
fn long_texts() {
    let name = "m".repeat(1_000);
    let tuple = Type::tuple(vec![Type::named(&name); 3_000]);
    let wanted = format!("({})", vec![name.as_str(); 3_000].join(", "));
    assert!(tuple.to_text().unwrap() == wanted);
    let synonym = Declaration::from(TypeSynonym::new("A", tuple));
    assert!(synonym.to_text(0).unwrap() == format!("pub type A = {wanted};"));
    let path = Path::global(vec![&name; 3_000]);
    assert!(path.to_text().unwrap() == format!("::{name}").repeat(3_000));
    assert_eq!(
        synonym.to_text_bytes(limits::LEVEL_LIMIT + 1),
        Err(Refusal::BadLevel)
    );
}

#[test]
fn encodings_are_owned_and_borrowed() {
    let encoding = gauge(&[12, 16]);
    let owned = EncodingBuf::from(&encoding);
    let parts = (&owned.words[..], &owned.pairs[..], &owned.text[..]);
    assert_eq!(parts, (encoding.words, encoding.pairs, encoding.text));
    assert_eq!(Encoding::from(&owned), encoding);
}

/// A text that is not UTF-8 is in the error, which says where it stops being so.
#[test]
fn texts_that_are_not_utf8() {
    let error = Type::slice(Type::named(b"mm\xFF")).to_text().unwrap_err();
    let words = error.to_string();
    assert!(words.starts_with("the text is not UTF-8: "), "{words}");
    assert!(words.ends_with("from index 3"), "{words}");
    assert!(error.source().is_some());
    match error {
        TextError::NotUtf8(error) => assert_eq!(error.as_bytes(), b"[mm\xFF]"),
        other => panic!("{other}"),
    }
}

/// Trees, encodings and errors go from thread to thread, and errors into boxes.
#[test]
fn types_are_send_and_sync() {
    fn shared<T: Send + Sync + 'static>() {}
    shared::<(Type, Path, Declaration, EncodingBuf, Encoding<'static>)>();
    fn error<T: std::error::Error + Send + Sync + 'static>() {}
    error::<Refusal>();
    error::<DecodeError>();
    error::<TextError>();
}
