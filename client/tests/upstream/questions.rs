//! What the reference and the library answer about a sample, in the evaluator's form.

use std::ops::Range;

use tillercoral::limits::WORD_LIMIT;
use tillercoral::tree::{Declaration, Type};
use tillercoral::{reference, Encoding, Part, Refusal, Shape};

use crate::common::TextCall;
use crate::samples::{Kind, Sample, DOCUMENTED, NO_RULES};
use crate::terms::{declaration_term, type_term};

/// The levels of indent that the evaluator prints.
const LEVELS: [u32; 4] = [0, 1, 2, 16];

type WordCall = fn(&Encoding<'_>, &mut [u32]) -> Result<usize, Refusal>;
type RebuildCall = fn(&Encoding<'_>, &[u32], &mut [u32]) -> Result<usize, Refusal>;

/// The calls that are compared with the source.
pub struct Implementation {
    pub name: &'static str,
    type_text: TextCall,
    path_text: TextCall,
    declaration_text: TextCall,
    type_visit: WordCall,
    declaration_visit: WordCall,
    type_rebuild: RebuildCall,
    declaration_rebuild: RebuildCall,
    type_at_initialization: WordCall,
    shape: fn(Shape, &Encoding<'_>) -> Result<bool, Refusal>,
    part: fn(Part, &Encoding<'_>) -> Result<Range<usize>, Refusal>,
    read_type: fn(&Encoding<'_>) -> Result<Type, Refusal>,
    read_declaration: fn(&Encoding<'_>) -> Result<Declaration, Refusal>,
}

pub static IMPLEMENTATIONS: [Implementation; 2] = [
    Implementation {
        name: "reference",
        type_text: reference::type_text,
        path_text: reference::path_text,
        declaration_text: reference::declaration_text,
        type_visit: reference::type_visit,
        declaration_visit: reference::declaration_visit,
        type_rebuild: reference::type_rebuild,
        declaration_rebuild: reference::declaration_rebuild,
        type_at_initialization: reference::type_at_initialization,
        shape: reference_shape,
        part: reference_part,
        read_type: reference::read_type,
        read_declaration: reference::read_declaration,
    },
    Implementation {
        name: "library",
        type_text: tillercoral::type_text,
        path_text: tillercoral::path_text,
        declaration_text: tillercoral::declaration_text,
        type_visit: tillercoral::type_visit,
        declaration_visit: tillercoral::declaration_visit,
        type_rebuild: tillercoral::type_rebuild,
        declaration_rebuild: tillercoral::declaration_rebuild,
        type_at_initialization: tillercoral::type_at_initialization,
        shape: Shape::of,
        part: Part::of,
        read_type: |encoding| Ok(Type::decode(encoding)?),
        read_declaration: |encoding| Ok(Declaration::decode(encoding)?),
    },
];

fn reference_shape(shape: Shape, encoding: &Encoding<'_>) -> Result<bool, Refusal> {
    let mut all = reference::SHAPES.iter();
    let known = all.find(|known| known.name == shape.name());
    known.expect("the same names").answer(encoding)
}

fn reference_part(part: Part, encoding: &Encoding<'_>) -> Result<Range<usize>, Refusal> {
    let mut all = reference::PARTS.iter();
    let known = all.find(|known| known.name == part.name());
    known.expect("the same names").answer(encoding)
}

/// What an implementation answers: the evaluator's name for it, and the answer in its form.
pub struct Given {
    pub name: String,
    pub answer: Result<String, Refusal>,
}

fn given(name: impl Into<String>, answer: Result<String, Refusal>) -> Given {
    Given {
        name: name.into(),
        answer,
    }
}

/// Asks an implementation about a sample.
pub struct Questions<'a> {
    pub to: &'a Implementation,
    pub about: &'a Sample,
}

impl Questions<'_> {
    pub fn all(&self) -> Vec<Given> {
        match &self.about.kind {
            Kind::Type => self.of_type(),
            Kind::Declaration => self.of_declaration(),
            Kind::Path { first } => self.of_path(first),
            Kind::Doc => self.of_doc(),
        }
    }

    fn of_type(&self) -> Vec<Given> {
        let mut all = self.texts("Type.ToString", self.to.type_text);
        all.push(given("Type.Fold", self.visits(self.to.type_visit)));
        for shape in Shape::ALL {
            all.push(given(format!("Type.{shape}"), self.shape(*shape)));
        }
        // The module's function of the same meaning.
        all.push(given("IsMaybeUninitType", self.shape(Shape::IsMaybeUninit)));
        for part in Part::ALL {
            all.push(given(format!("Type.{part}"), self.part(*part)));
        }
        all.push(given("Type.TypeAtInitialization", self.initialized()));
        for name in ["Type.ReplaceMap", "Type.Replace"] {
            all.push(given(name, self.rebuilt_type()));
        }
        all
    }

    fn of_declaration(&self) -> Vec<Given> {
        let visits = self.visits(self.to.declaration_visit);
        let rebuilt = self.rebuilt_declaration(&self.about.rules);
        let unchanged = self.rebuilt_declaration(&NO_RULES);
        let mut all = self.texts("ModDecl.ToString", self.to.declaration_text);
        all.push(given("VisitModMapping", visits));
        all.push(given("ReplaceModDecl", rebuilt));
        all.push(given("ReplaceModDecl(defaults)", unchanged));
        all
    }

    /// The source's path knows no indent; ours has a level that does not show.
    fn of_path(&self, first: &[u32]) -> Vec<Given> {
        let whole = self.about.encoding.as_encoding();
        let first = self.with_words(first);
        let text = |encoding, level| self.term(text_of(self.to.path_text, encoding, level));
        let texts = LEVELS.map(|level| {
            [
                given("Path.ToString", text(&first, level)),
                given("Path.MSels.ToString", text(&whole, level)),
            ]
        });
        texts.into_iter().flatten().collect()
    }

    /// What stands before the rest of the struct.
    fn of_doc(&self) -> Vec<Given> {
        let encoding = self.about.encoding.as_encoding();
        let comment = |level| {
            let mut text = text_of(self.to.declaration_text, &encoding, level)?;
            let rest = text.len().checked_sub(DOCUMENTED.len());
            let rest = rest.filter(|&rest| text[rest..] == *DOCUMENTED);
            text.truncate(rest.expect("the struct stands last"));
            Ok(text)
        };
        let prefix = |level| {
            let name = format!("ToDocstringPrefix@{level}");
            given(name, self.term(comment(level)))
        };
        LEVELS.map(prefix).into()
    }

    /// The text at each level, under this name and the level.
    fn texts(&self, name: &str, call: TextCall) -> Vec<Given> {
        let encoding = self.about.encoding.as_encoding();
        let text = |level| {
            let text = text_of(call, &encoding, level);
            given(format!("{name}@{level}"), self.term(text))
        };
        LEVELS.map(text).into()
    }

    fn term(&self, text: Result<Vec<u8>, Refusal>) -> Result<String, Refusal> {
        Ok(self.about.strings.term(&text?))
    }

    fn visits(&self, call: WordCall) -> Result<String, Refusal> {
        let encoding = self.about.encoding.as_encoding();
        let positions = words_of(encoding.words.len(), |out| call(&encoding, out))?;
        let positions: Vec<String> = positions.iter().map(u32::to_string).collect();
        Ok(positions.join(","))
    }

    fn shape(&self, shape: Shape) -> Result<String, Refusal> {
        let holds = (self.to.shape)(shape, &self.about.encoding.as_encoding())?;
        Ok(u8::from(holds).to_string())
    }

    /// The position of a part, whose words must be all those of the type there.
    fn part(&self, part: Part) -> Result<String, Refusal> {
        let words = (self.to.part)(part, &self.about.encoding.as_encoding())?;
        if self.about.ranges.get(&words.start) != Some(&words) {
            return Ok(format!("{words:?}, no type"));
        }
        Ok(words.start.to_string())
    }

    fn initialized(&self) -> Result<String, Refusal> {
        let encoding = self.about.encoding.as_encoding();
        self.type_of(|out| (self.to.type_at_initialization)(&encoding, out))
    }

    fn rebuilt_type(&self) -> Result<String, Refusal> {
        let encoding = self.about.encoding.as_encoding();
        self.type_of(|out| (self.to.type_rebuild)(&encoding, &self.about.rules, out))
    }

    /// The term of the type that a call writes.
    fn type_of(
        &self,
        call: impl FnOnce(&mut [u32]) -> Result<usize, Refusal>,
    ) -> Result<String, Refusal> {
        let words = words_of(WORD_LIMIT, call)?;
        let tree = (self.to.read_type)(&self.with_words(&words));
        let tree = tree.expect("rebuilt types are accepted");
        Ok(type_term(self.about.strings, &tree))
    }

    fn rebuilt_declaration(&self, rules: &[u32]) -> Result<String, Refusal> {
        let encoding = self.about.encoding.as_encoding();
        let call = |out: &mut [u32]| (self.to.declaration_rebuild)(&encoding, rules, out);
        let words = words_of(WORD_LIMIT, call)?;
        let tree = (self.to.read_declaration)(&self.with_words(&words));
        let tree = tree.expect("rebuilt declarations are accepted");
        Ok(declaration_term(self.about.strings, &tree))
    }

    /// Other words with the names of the sample.
    fn with_words<'a>(&'a self, words: &'a [u32]) -> Encoding<'a> {
        Encoding {
            words,
            ..self.about.encoding.as_encoding()
        }
    }
}

/// The text that a call writes, into as long a buffer as it takes.
fn text_of(call: TextCall, encoding: &Encoding<'_>, level: u32) -> Result<Vec<u8>, Refusal> {
    let mut buffer = vec![0; 4_096];
    loop {
        match call(encoding, level, &mut buffer) {
            Err(Refusal::BufferTooShort) => buffer = vec![0; 4 * buffer.len()],
            length => {
                buffer.truncate(length?);
                return Ok(buffer);
            }
        }
    }
}

/// The words that a call writes.
fn words_of(
    room: usize,
    call: impl FnOnce(&mut [u32]) -> Result<usize, Refusal>,
) -> Result<Vec<u32>, Refusal> {
    let mut buffer = vec![0; room];
    let length = call(&mut buffer)?;
    buffer.truncate(length);
    Ok(buffer)
}
