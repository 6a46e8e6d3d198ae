//! Trees and docs to compare, and the lines that put them to the evaluator.

use std::collections::HashMap;
use std::ops::Range;

use tillercoral::cases::{self, WordCase};
use tillercoral::generate::{
    random_declaration, random_doc, random_path, random_rules, random_shaped_type, random_type,
    Names, Random, Shape,
};
use tillercoral::tree::{Declaration, Path, Struct, Type};
use tillercoral::words::kind;
use tillercoral::{reference, Encoding, EncodingBuf};

use crate::terms::{
    declaration_term, list_term, path_term, tagged_declaration, tagged_type, type_term, Strings,
};

/// No rules.
pub const NO_RULES: [u32; 1] = [0];

/// The struct that docs are given to, without its doc.
pub const DOCUMENTED: &[u8] = b"pub struct A {}";

/// What a sample is.
pub enum Kind {
    Type,
    Declaration,
    /// A path, and the words of one with the same root and the first of its names.
    Path {
        first: Vec<u32>,
    },
    /// The doc of a struct that has nothing else.
    Doc,
}

impl Kind {
    pub fn name(&self) -> &'static str {
        match self {
            Kind::Type => "types",
            Kind::Declaration => "declarations",
            Kind::Path { .. } => "paths",
            Kind::Doc => "docs",
        }
    }
}

/// Something to compare: accepted by all calls that are made of it.
pub struct Sample {
    pub kind: Kind,
    pub encoding: EncodingBuf,
    pub rules: Vec<u32>,
    pub strings: Strings,
    /// The case as the evaluator reads it.
    pub line: String,
    /// The term of the tree itself, without tags.
    pub term: String,
    /// The words of each type, by its tag.
    pub ranges: HashMap<usize, Range<usize>>,
}

impl Sample {
    /// A type and rules; none where one of the two is refused.
    fn of_type(encoding: EncodingBuf, rules: &[u32]) -> Option<Sample> {
        let borrowed = encoding.as_encoding();
        let tree = Type::decode(&borrowed).ok()?;
        reference::rebuilt_type(&borrowed, rules).ok()?;
        let strings = Strings::of(&borrowed);
        let tagged = tagged_type(strings, &tree);
        assert_eq!(tagged.words, encoding.words.len());
        let rule_terms = rules_term(strings, &borrowed, rules);
        Some(Sample {
            kind: Kind::Type,
            rules: rules.to_vec(),
            strings,
            line: format!("type {rule_terms} {}", tagged.term),
            term: type_term(strings, &tree),
            ranges: tagged.ranges,
            encoding,
        })
    }

    /// A declaration and rules; none where one of the two is refused.
    fn of_declaration(encoding: EncodingBuf, rules: &[u32]) -> Option<Sample> {
        let borrowed = encoding.as_encoding();
        let tree = Declaration::decode(&borrowed).ok()?;
        reference::rebuilt_declaration(&borrowed, rules).ok()?;
        let strings = Strings::of(&borrowed);
        let tagged = tagged_declaration(strings, &tree);
        assert_eq!(tagged.words, encoding.words.len());
        let rule_terms = rules_term(strings, &borrowed, rules);
        Some(Sample {
            kind: Kind::Declaration,
            rules: rules.to_vec(),
            strings,
            line: format!("decl {rule_terms} {}", tagged.term),
            term: declaration_term(strings, &tree),
            ranges: tagged.ranges,
            encoding,
        })
    }

    /// A path, whose first `count` names hang on the root before `MSels` adds the others.
    fn of_path(encoding: EncodingBuf, count: usize) -> Sample {
        let tree = Path::decode(&encoding.as_encoding()).expect("generated paths are accepted");
        let strings = Strings::of(&encoding.as_encoding());
        let (first, others) = tree.names.split_at(count);
        let names = list_term(others.iter().map(|name| strings.term(name)));
        let base = path_term(strings, &Path::new(tree.root, first));
        let words = &encoding.words;
        Sample {
            kind: Kind::Path {
                first: [&[words[0], count as u32], &words[2..2 + count]].concat(),
            },
            rules: NO_RULES.to_vec(),
            strings,
            line: format!("path {names} {base}"),
            term: path_term(strings, &tree),
            ranges: HashMap::new(),
            encoding,
        }
    }

    fn of_doc(doc: &[u8]) -> Sample {
        let tree = Declaration::from(Struct::new("A").doc(doc));
        let encoding = tree.encode().expect("a struct with a short doc");
        let strings = Strings::of(&encoding.as_encoding());
        Sample {
            kind: Kind::Doc,
            rules: NO_RULES.to_vec(),
            strings,
            line: format!("doc {}", strings.term(doc)),
            term: strings.term(doc),
            ranges: HashMap::new(),
            encoding,
        }
    }
}

/// The terms of accepted rules, from and to in turns.
fn rules_term(strings: Strings, encoding: &Encoding<'_>, rules: &[u32]) -> String {
    let mut left = Encoding {
        words: &rules[1..],
        ..*encoding
    };
    list_term((0..2 * rules[0]).map(|_| {
        let next = left.types_at(&[0]).expect("the rules were accepted")[0];
        left.words = &left.words[next.words.len()..];
        let tree = Type::decode(&next).expect("the rules were accepted");
        type_term(strings, &tree)
    }))
}

/// The cases that were worked out by hand, as far as they are not refused, and a few docs.
pub fn by_hand() -> Vec<Sample> {
    let visits_and_rebuilds = [
        cases::type_rebuilds(),
        cases::initializations(),
        cases::type_visits(),
    ];
    let mut samples: Vec<Sample> = accepted(visits_and_rebuilds.concat(), Sample::of_type);
    let of_declarations = [cases::declaration_rebuilds(), cases::declaration_visits()];
    samples.extend(accepted(of_declarations.concat(), Sample::of_declaration));
    let shapes = cases::shapes().into_iter().map(|case| case.words);
    let parts = cases::parts().into_iter().map(|case| case.words);
    let encodings = shapes.chain(parts).map(|words| cases::encoded(&words));
    samples.extend(encodings.filter_map(|encoding| Sample::of_type(encoding, &NO_RULES)));
    samples.extend(DOCS.map(|doc| Sample::of_doc(doc.as_bytes())));
    samples
}

/// Samples of the cases whose trees and rules are accepted. A call without rules has no list of them.
fn accepted(
    cases: Vec<WordCase>,
    sample: fn(EncodingBuf, &[u32]) -> Option<Sample>,
) -> Vec<Sample> {
    let sample = |case: &WordCase| {
        let rules: &[u32] = if case.rules.is_empty() {
            &NO_RULES
        } else {
            &case.rules
        };
        sample(cases::encoded(&case.words), rules)
    };
    cases.iter().filter_map(sample).collect()
}

/// Docs with what is easily got wrong: four spaces and what follows them, code that begins, ends,
/// begins with `rs` or has more backticks, and backticks that end none.
const DOCS: [&str; 22] = [
    "",
    "    ",
    "     ",
    "    x",
    "    \n",
    "a\n    ",
    "a\n    b",
    "x    y",
    "   ```\n    x",
    "    ```\n    x",
    "```",
    "``` ",
    "```rs",
    "```rs ",
    "```rs\nx\n```\n    y",
    "```rsx\n```",
    "```\n    x\n```\n    y",
    "````\n```\n````\n    x",
    "```\nx```\n    y",
    "```\nx\n````\n    y",
    "``` ```\n    x",
    "```rs ```\n    x",
];

/// Made-up samples without end.
pub fn made_up(seed: u64) -> impl Iterator<Item = Sample> {
    let mut random = Random::new(seed);
    (0..).filter_map(move |round| made_up_in_round(&mut random, round))
}

/// A sample; none in the few rounds in which the tree is too deep.
fn made_up_in_round(random: &mut Random, round: usize) -> Option<Sample> {
    match round % 10 {
        0..=3 => {
            let names = shape_names(random);
            let depth = 2 + random.below(6);
            let tree = random_shaped_type(random, &names, depth);
            let rules = accepted_rules(random, &names, &tree);
            Sample::of_type(tree, &rules)
        }
        4..=5 => {
            let names = plain_names(random);
            let shape = shape(random, round / 10);
            let tree = random_type(random, &names, shape);
            let rules = accepted_rules(random, &names, &tree);
            Sample::of_type(tree, &rules)
        }
        6..=7 => {
            let names = names_with_docs(random);
            let shape = shape(random, round / 10);
            let tree = random_declaration(random, &names, shape);
            let rules = accepted_rules(random, &names, &tree);
            Sample::of_declaration(tree, &rules)
        }
        8 => {
            let names = plain_names(random);
            let most = random.pick(&[2, 4, 8, 40]);
            let path = random_path(random, &names, most);
            let count = random.below(path.words.len() - 1);
            Some(Sample::of_path(path, count))
        }
        _ => Some(Sample::of_doc(&doc(random))),
    }
}

/// Names with characters of one to four bytes.
const WIDE_NAMES: [&str; 8] = ["é", "Größe", "深さ", "Array深", "𝛿", "T", "self", "_"];

/// A table of those names, in one of eight cases.
fn wide_names(random: &mut Random) -> Option<Names> {
    let bytes = WIDE_NAMES.map(str::as_bytes);
    random.percent(12).then(|| Names::of(&bytes))
}

fn shape_names(random: &mut Random) -> Names {
    wide_names(random).unwrap_or_else(|| Names::random_for_shapes(random))
}

fn plain_names(random: &mut Random) -> Names {
    wide_names(random).unwrap_or_else(|| Names::random(random, 12))
}

fn names_with_docs(random: &mut Random) -> Names {
    match wide_names(random) {
        Some(mut names) => {
            names.push_doc(&doc(random));
            names
        }
        None => Names::random_with_docs(random, 12),
    }
}

/// A doc, in half of the cases with wide characters where others have bytes that are no UTF-8.
fn doc(random: &mut Random) -> Vec<u8> {
    let most = random.pick(&[3, 6, 12]);
    let doc = random_doc(random, most);
    if random.percent(50) {
        return doc;
    }
    let text = String::from_utf8_lossy(&doc).replace(char::REPLACEMENT_CHARACTER, "深𝛿");
    text.into_bytes()
}

/// Small trees, and one of ten as large as in the other tests.
fn shape(random: &mut Random, round: usize) -> Shape {
    if round.is_multiple_of(10) {
        return crate::common::shape(round / 10, random);
    }
    Shape {
        depth: 1 + random.below(6),
        chain: false,
        children: 1 + random.below(3),
        words: 30,
        careless: random.pick(&[0, 10, 100]),
    }
}

/// Rules for a tree; none where those that were made are refused.
fn accepted_rules(random: &mut Random, names: &Names, tree: &EncodingBuf) -> Vec<u32> {
    let rules = random_rules(random, names, tree);
    match reference::rebuilt_type(&names.with_words(&[kind::U8]).as_encoding(), &rules) {
        Ok(_) => rules,
        Err(_) => NO_RULES.to_vec(),
    }
}
