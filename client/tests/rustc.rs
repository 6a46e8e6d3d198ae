//! A check from outside: rustc parses what the library prints.
//!
//! Each declaration is put in a module that is configured out: rustc must still parse it, but asks
//! for none of the names. Left out is what Rust's grammar has no place for, whatever prints it:
//!
//! - names that are no identifiers or are keywords, bytes that are no UTF-8, and a carriage return
//!   in a doc, which the lexer refuses
//! - fields named `self` and fields of type `_`, which print without a type
//! - intersections outside constraints (`&A + B` is ambiguous), applications of anything but a name
//!   or a path, `impl` and `dyn` before anything but a name, a path or a function, constraints that
//!   are anything else, and the path of no names

use std::path::{Path as FilePath, PathBuf};
use std::process::{Command, Output};
use std::{env, fs};

use tillercoral::generate::{random_doc, Random};
use tillercoral::limits::LEVEL_LIMIT;
use tillercoral::tree::{
    Attribute, Declaration, Enum, EnumCase, Field, Fields, Name, NamelessField, Path, Root, Struct,
    Type, TypeParameter, TypeSynonym, Use, Visibility,
};
use tillercoral::{declaration_text, EncodingBuf};

const DECLARATIONS: usize = 600;

/// A folder for one test, removed in the end.
struct Folder(PathBuf);

impl Folder {
    fn new(name: &str) -> Folder {
        let path = env::temp_dir().join(format!("tillercoral-{name}-{}", std::process::id()));
        fs::create_dir_all(&path).expect("a temporary folder");
        Folder(path)
    }
}

impl Drop for Folder {
    fn drop(&mut self) {
        let _ = fs::remove_dir_all(&self.0);
    }
}

fn rustc(folder: &FilePath, source: &str) -> Output {
    let file = folder.join("lib.rs");
    fs::write(&file, source).expect("a file in a temporary folder");
    Command::new(env::var_os("RUSTC").unwrap_or("rustc".into()))
        .args(["--edition", "2021", "--crate-type", "lib"])
        .args(["--crate-name", "printed", "--emit", "metadata", "--out-dir"])
        .arg(folder)
        .arg(&file)
        .output()
        .expect("rustc runs")
}

fn assert_taken(output: &Output) {
    assert!(
        output.status.success(),
        "rustc refuses what was printed:\n{}",
        String::from_utf8_lossy(&output.stderr)
    );
}

/// Modules that are configured out, one for each text.
fn configured_out(texts: &[String]) -> String {
    texts
        .iter()
        .enumerate()
        .map(|(number, text)| format!("#[cfg(any())]\nmod d{number} {{\n{text}\n}}\n"))
        .collect()
}

/// The text as the library gives it.
fn printed(declaration: &Declaration, level: u32) -> String {
    let encoding = EncodingBuf::from_declaration(declaration).expect("a small declaration");
    let mut buffer = vec![0; 1 << 20];
    let length = declaration_text(&encoding.as_encoding(), level, &mut buffer)
        .unwrap_or_else(|refusal| panic!("{refusal}: {declaration:?}"));
    String::from_utf8(buffer[..length].to_vec()).expect("only UTF-8 went in")
}

#[test]
fn generated_declarations_parse() {
    let random = &mut Random::new(71);
    let mut heads = [0; 4];
    let mut texts: Vec<String> = (0..DECLARATIONS)
        .map(|_| {
            let declaration = Maker { random }.declaration();
            heads[match &declaration {
                Declaration::Struct(_) => 0,
                Declaration::Enum(_) => 1,
                Declaration::TypeSynonym(_) => 2,
                Declaration::Use(_) => 3,
                other => panic!("{other:?} is none of the kinds made here"),
            }] += 1;
            printed(&declaration, random.below(LEVEL_LIMIT as usize + 1) as u32)
        })
        .collect();
    assert!(heads.iter().all(|&count| count > 40), "{heads:?}");
    let folder = Folder::new("parse");
    assert_taken(&rustc(&folder.0, &configured_out(&texts)));

    // One broken declaration among them, and the same file is refused.
    for broken in ["pub struct Gauge {\n    pub mm i32\n}", "pub enum Gauge {"] {
        texts[DECLARATIONS / 2] = broken.into();
        let output = rustc(&folder.0, &configured_out(&texts));
        assert!(!output.status.success(), "rustc takes {broken}");
    }
}

/// What the texts of the examples refer to. The crate goes by the runtime's name as well, so that
/// `::dafny_runtime::` leads here.
const STUBS: &str = "\
#![allow(dead_code, unused_imports)]
extern crate self as dafny_runtime;
pub struct Sequence<T>(pub Vec<T>);
impl<T> Clone for Sequence<T> {
    fn clone(&self) -> Self {
        loop {}
    }
}
pub struct Object<T>(pub Option<std::rc::Rc<T>>);
impl<T> Clone for Object<T> {
    fn clone(&self) -> Self {
        loop {}
    }
}
pub type Millimetres = i32;
pub mod nmea {
    pub struct Sentence;
    pub struct Fix;
    #[derive(Clone, Debug, PartialEq)]
    pub struct Fault;
    #[derive(Clone, Copy, Debug)]
    pub struct Datum;
    pub trait Unit {}
    pub trait Transducer {}
}
";

/// The texts of the examples in a module each, `gauge` configured out or not.
fn examples(with_gauge: bool) -> String {
    let folder = FilePath::new(env!("CARGO_MANIFEST_DIR")).join("../examples");
    let mut source = String::from(STUBS);
    let mut count = 0;
    for entry in fs::read_dir(folder).expect("the examples are there") {
        let path = entry.expect("a readable folder").path();
        if path.extension().is_some_and(|it| it == "rs") {
            let name = path.file_stem().and_then(|it| it.to_str()).expect("a name");
            let text = fs::read_to_string(&path).expect("a readable file");
            if name == "gauge" && !with_gauge {
                source += "#[cfg(any())]\n";
            }
            source += &format!("pub mod {name} {{\nuse super::*;\n{text}}}\n");
            count += 1;
        }
    }
    assert!(count >= 6);
    source
}

/// The examples, which another test compares with what the library prints, are compiled for real.
/// Only `gauge` is not: its field `&u8` has no lifetime.
#[test]
fn examples_compile() {
    let folder = Folder::new("examples");
    assert_taken(&rustc(&folder.0, &examples(false)));
    let output = rustc(&folder.0, &examples(true));
    let message = String::from_utf8_lossy(&output.stderr);
    assert!(!output.status.success() && message.contains("missing lifetime specifier"));
}

/// Makes declarations that Rust has a place for.
struct Maker<'a> {
    random: &'a mut Random,
}

impl Maker<'_> {
    fn declaration(&mut self) -> Declaration {
        match self.random.below(8) {
            0..=2 => Declaration::Struct(Struct {
                doc: self.doc(),
                attributes: self.attributes(),
                name: self.name(),
                parameters: self.parameters(),
                fields: self.fields(),
            }),
            3..=5 => Declaration::Enum(Enum {
                doc: self.doc(),
                attributes: self.attributes(),
                name: self.name(),
                parameters: self.parameters(),
                cases: self.some(4, |maker| EnumCase {
                    doc: maker.doc(),
                    name: maker.name(),
                    fields: maker.fields(),
                }),
            }),
            6 => Declaration::TypeSynonym(TypeSynonym {
                doc: self.doc(),
                attributes: self.attributes(),
                name: self.name(),
                parameters: self.parameters(),
                target: self.any_type(4),
            }),
            _ => Declaration::Use(Use {
                visibility: self.visibility(),
                path: self.path(),
            }),
        }
    }

    /// At most so many of these.
    fn some<T>(&mut self, most: usize, mut one: impl FnMut(&mut Self) -> T) -> Vec<T> {
        let count = self.random.below(most + 1);
        (0..count).map(|_| one(self)).collect()
    }

    fn name(&mut self) -> Name {
        let names = [
            "Gauge", "Depth", "mm", "id", "T", "_x9", "std", "rc", "Object", "union", "i256",
        ];
        self.random.pick(&names).into()
    }

    fn doc(&mut self) -> Name {
        let doc = random_doc(self.random, 10);
        String::from_utf8_lossy(&doc).replace('\r', "").into()
    }

    fn attributes(&mut self) -> Vec<Attribute> {
        self.some(2, |maker| Attribute {
            name: maker.name(),
            arguments: maker.some(3, Self::name),
        })
    }

    fn parameters(&mut self) -> Vec<TypeParameter> {
        self.some(2, |maker| TypeParameter {
            name: maker.name(),
            constraints: maker.some(3, Self::constraint),
        })
    }

    /// What may stand after the colon of a parameter.
    fn constraint(&mut self) -> Type {
        if self.random.percent(20) {
            return Type::Intersection {
                left: Box::new(self.bound(2)),
                right: Box::new(self.constraint()),
            };
        }
        self.bound(2)
    }

    fn fields(&mut self) -> Fields {
        if self.random.percent(60) {
            Fields::Named(self.some(3, |maker| Field {
                visibility: maker.visibility(),
                name: maker.name(),
                field_type: maker.any_type(4),
            }))
        } else {
            Fields::Nameless(self.some(3, |maker| NamelessField {
                visibility: maker.visibility(),
                field_type: maker.any_type(4),
            }))
        }
    }

    fn visibility(&mut self) -> Visibility {
        self.random.pick(&[Visibility::Pub, Visibility::Priv])
    }

    fn path(&mut self) -> Path {
        let root = self
            .random
            .pick(&[Root::Global, Root::Crate, Root::SelfType]);
        let mut names = self.some(2, Self::name);
        if root == Root::Global || self.random.percent(70) {
            names.push(self.name());
        }
        Path { root, names }
    }

    fn boxed(&mut self, depth: usize) -> Box<Type> {
        Box::new(self.any_type(depth))
    }

    /// A name or a path, with arguments or without, or a function.
    fn bound(&mut self, depth: usize) -> Type {
        let base = if self.random.percent(50) {
            Type::Identifier(self.name())
        } else {
            Type::FromPath(self.path())
        };
        match self.random.below(5) {
            0 if depth > 1 => Type::App {
                base: Box::new(base),
                arguments: self.some(3, |maker| maker.any_type(depth - 1)),
            },
            1 if depth > 1 => Type::Fn {
                arguments: self.some(2, |maker| maker.any_type(depth - 1)),
                result: Box::new(base),
            },
            2 => Type::MetaData {
                display: Box::new(base),
                copy_semantics: true,
                overflow: false,
            },
            _ => base,
        }
    }

    fn any_type(&mut self, depth: usize) -> Type {
        if depth <= 1 {
            return self
                .random
                .pick(&[Type::U8, Type::Bool, Type::I128, Type::Usize].each_ref())
                .clone();
        }
        let below = depth - 1;
        match self.random.below(12) {
            0 => Type::Borrowed(self.boxed(below)),
            1 => Type::BorrowedMut(self.boxed(below)),
            2 => Type::Impl(Box::new(self.bound(below))),
            3 => Type::Dyn(Box::new(self.bound(below))),
            4 => Type::Tuple(self.some(3, |maker| maker.any_type(below))),
            5 => Type::Fn {
                arguments: self.some(3, |maker| maker.any_type(below)),
                result: self.boxed(below),
            },
            6 => Type::Array {
                element: self.boxed(below),
                size: None,
            },
            7 => Type::Array {
                element: self.boxed(below),
                size: Some(self.random.pick(&["16", "CHANNELS", "0x10"]).into()),
            },
            8 => Type::Synonym {
                display: self.boxed(below),
                base: self.boxed(below),
            },
            9 => self.any_type(1),
            _ => self.bound(below),
        }
    }
}
