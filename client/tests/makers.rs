//! What a maker of programs starts from: the examples of this package, the C header and its program.
//! Each is run and compared with a text that was not made by the library.

use std::collections::BTreeMap;
use std::path::{Path, PathBuf};
use std::process::Command;
use std::{env, fs};

use tillercoral::tree::{Declaration, Type};
use tillercoral::{limits, reference, words, EncodingBuf, Refusal};

// The examples' own data, for the reference to print.
#[allow(dead_code)]
#[path = "../examples/ask_shapes.rs"]
mod ask_shapes;
#[allow(dead_code)]
#[path = "../examples/gauge_records.rs"]
mod gauge_records;
#[allow(dead_code)]
#[path = "../examples/rename_types.rs"]
mod rename_types;

fn package() -> &'static Path {
    Path::new(env!("CARGO_MANIFEST_DIR"))
}

fn read(path: &Path) -> String {
    fs::read_to_string(path).unwrap_or_else(|error| panic!("{}: {error}", path.display()))
}

/// What a program writes, run without arguments.
fn output(program: &Path) -> String {
    let ended = Command::new(program)
        .output()
        .unwrap_or_else(|error| panic!("cannot run {}: {error}", program.display()));
    let errors = String::from_utf8_lossy(&ended.stderr);
    assert!(ended.status.success(), "{}: {errors}", program.display());
    assert_eq!(errors, "", "{}", program.display());
    String::from_utf8(ended.stdout).expect("the output is text")
}

/// Runs an example and gives its output, which must be the one on file. The reference's output of the
/// same data must be too, so that the file cannot have been made by the library.
fn check_example(name: &str, by_reference: &str) {
    let tests = env::current_exe().expect("a test knows its file");
    let profile = tests
        .ancestors()
        .nth(2)
        .expect("a test lies in target/PROFILE/deps");
    let program = profile.join("examples").join(name);
    assert!(
        program.is_file(),
        "there is no {}; `cargo test` builds it, `cargo test --test makers` does not",
        program.display()
    );
    let wanted = read(
        &package()
            .join("examples/expected")
            .join(format!("{name}.txt")),
    );
    assert_eq!(by_reference, wanted, "{name} by the reference");
    assert_eq!(output(&program), wanted, "{name}");
}

fn text_by_reference(declaration: &Declaration) -> String {
    String::from_utf8(declaration.reference_text(0)).expect("the examples are UTF-8")
}

#[test]
fn gauge_records() {
    let records = gauge_records::declarations().expect("the rows have three columns");
    assert_eq!(records.len(), 40);
    let texts: Vec<String> = records.iter().map(text_by_reference).collect();
    check_example("gauge_records", &(texts.join("\n\n") + "\n"));
}

#[test]
fn rename_types() {
    let rules = rename_types::rules();
    let rebuilt = |mut tree: EncodingBuf, rebuild: Rebuild| {
        let rules = tree.encode_rules(&rules).expect("few rules");
        let mut buffer = [0; 256];
        let length = rebuild(&tree.as_encoding(), &rules, &mut buffer).expect("room for all");
        tree.words = buffer[..length].to_vec();
        tree
    };
    let mut wanted = String::new();
    for declaration in rename_types::declarations() {
        let tree = rebuilt(
            declaration.encode().unwrap(),
            reference::declaration_rebuild,
        );
        let tree = reference::read_declaration(&tree.as_encoding()).unwrap();
        wanted += &(text_by_reference(&tree) + "\n\n");
    }
    let slice = Type::borrowed(Type::slice(Type::named("Depth")));
    let slice = rebuilt(slice.encode().unwrap(), reference::type_rebuild);
    let slice = reference::read_type(&slice.as_encoding()).unwrap();
    wanted += &String::from_utf8(slice.reference_text()).unwrap();
    check_example("rename_types", &(wanted + "\n"));
}

type Rebuild = fn(&tillercoral::Encoding<'_>, &[u32], &mut [u32]) -> Result<usize, Refusal>;

#[test]
fn ask_shapes() {
    let mut wanted = String::new();
    for asked in ask_shapes::types() {
        let shapes = reference::SHAPES
            .iter()
            .filter(|shape| (shape.holds)(&asked));
        let shapes: Vec<&str> = shapes.map(|shape| shape.name).collect();
        let shapes = if shapes.is_empty() {
            "none".into()
        } else {
            shapes.join(", ")
        };
        let text = |of: &Type| String::from_utf8(of.reference_text()).unwrap();
        wanted += &format!("{}\n    shapes: {shapes}\n", text(&asked));
        for part in &reference::PARTS {
            match (part.of)(&asked) {
                Some(taken) if *taken != asked => {
                    wanted += &format!("    {}: {}\n", part.name, text(taken));
                }
                _ => {}
            }
        }
    }
    check_example("ask_shapes", &wanted);
}

// The C header.

fn root() -> &'static Path {
    package()
        .parent()
        .expect("the package lies in the repository")
}

fn header() -> String {
    read(&root().join("include/tillercoral.h"))
}

/// The functions that the library exports, each with its parameters as a C programmer writes them.
type Prototypes = BTreeMap<String, String>;

/// What stands between two marks, each time.
fn between<'a>(source: &'a str, from: &'a str, to: &'a str) -> impl Iterator<Item = &'a str> {
    source
        .split(from)
        .skip(1)
        .map(move |rest| rest.split(to).next().expect("split gives something"))
}

/// Name and parameters of `name(parameters`, with single spaces.
fn name_and_parameters(source: &str) -> (String, String) {
    let (name, parameters) = source.split_once('(').expect("a function has parameters");
    let parameters: Vec<&str> = parameters.split_whitespace().collect();
    (
        name.trim().to_string(),
        parameters.join(" ").trim_end_matches(',').to_string(),
    )
}

/// The prototypes of the header. Its inline functions give no `uint64_t`.
fn header_prototypes() -> Prototypes {
    between(&header(), "\nuint64_t ", ");")
        .map(name_and_parameters)
        .collect()
}

/// Parameters in C, from those of a Rust or Rattle function.
fn in_c(parameters: &str) -> String {
    let in_c = |parameter: &str| {
        let (name, of) = parameter
            .trim()
            .split_once(": ")
            .expect("a parameter has a type");
        match of {
            "&[u32]" => format!("const uint32_t *{name}, size_t {name}_len"),
            "&[u8]" => format!("const uint8_t *{name}, size_t {name}_len"),
            "&mut [u32]" => format!("uint32_t *{name}, size_t {name}_len"),
            "&mut [u8]" => format!("uint8_t *{name}, size_t {name}_len"),
            "*const u32" => format!("const uint32_t *{name}"),
            "*const u8" => format!("const uint8_t *{name}"),
            "*mut u32" => format!("uint32_t *{name}"),
            "*mut u8" => format!("uint8_t *{name}"),
            "u32" => format!("uint32_t {name}"),
            "usize" => format!("size_t {name}"),
            other => panic!("{other} has no place in the C interface"),
        }
    };
    parameters
        .split(", ")
        .map(in_c)
        .collect::<Vec<_>>()
        .join(", ")
}

/// The prototypes by the Rattle sources of the exported functions, which are the ones that count.
fn exported_prototypes() -> Prototypes {
    let source = read(&root().join("crates/capi/src/lib.rt"));
    between(&source, "pub extern \"C\" fn ", ") -> u64")
        .map(name_and_parameters)
        .map(|(name, parameters)| (name, in_c(&parameters)))
        .collect()
}

/// The prototypes by this package's declarations. Most of the functions stand in lists, all with the
/// parameters that the macro of these lists has.
fn ffi_prototypes() -> Prototypes {
    let sources = ["ffi.rs", "ffi/rebuild.rs", "ffi/walks.rs"];
    let source: String = sources
        .map(|file| read(&package().join("src").join(file)))
        .concat();
    let in_lists = between(&source, "\n    tillercoral_", " as ");
    let in_lists: Vec<String> = in_lists.map(|name| format!("tillercoral_{name}")).collect();
    let mut prototypes = Prototypes::new();
    for function in between(&source, " fn ", ") -> u64;") {
        let (name, parameters) = name_and_parameters(function);
        if name.starts_with("tillercoral_") {
            prototypes.insert(name, in_c(&parameters));
        } else if name == "$exported" {
            let of_list = |name: &String| (name.clone(), in_c(&parameters));
            prototypes.extend(in_lists.iter().map(of_list));
        }
    }
    prototypes
}

#[test]
fn the_header_declares_the_exported_functions() {
    let exported = exported_prototypes();
    assert_eq!(exported.len(), 35);
    assert_eq!(header_prototypes(), exported);
    assert_eq!(ffi_prototypes(), exported);
}

#[test]
fn the_header_has_the_numbers() {
    let header = header();
    let value = |line: &str| {
        let values: Vec<&str> = between(&header, line, "\n").collect();
        assert_eq!(values.len(), 1, "{line}");
        values[0]
            .trim_end_matches(',')
            .parse::<usize>()
            .expect(line)
    };
    for refusal in Refusal::ALL {
        let mut name = String::new();
        for letter in format!("{refusal:?}").chars() {
            if letter.is_ascii_uppercase() {
                name.push('_');
            }
            name.push(letter.to_ascii_uppercase());
        }
        let line = format!("TILLERCORAL{name} = ");
        assert_eq!(value(&line), refusal.number() as usize);
    }
    assert_eq!(header.matches(" = ").count(), Refusal::ALL.len());
    for (name, limit) in [
        ("WORD_LIMIT", limits::WORD_LIMIT),
        ("PAIR_LIMIT", limits::PAIR_LIMIT),
        ("TEXT_LIMIT", limits::TEXT_LIMIT),
        ("DEPTH_LIMIT", limits::DEPTH_LIMIT),
        ("LEVEL_LIMIT", limits::LEVEL_LIMIT as usize),
        ("RULE_LIMIT", limits::RULE_LIMIT),
        ("FIRST_PAIR", words::FIRST_PAIR as usize),
    ] {
        assert_eq!(value(&format!("#define TILLERCORAL_{name} ")), limit);
    }
}

/// A file for one test, removed in the end.
struct TemporaryFile(PathBuf);

impl Drop for TemporaryFile {
    fn drop(&mut self) {
        let _ = fs::remove_file(&self.0);
    }
}

#[test]
fn the_c_program_prints_its_text() {
    let source = root().join("examples/c/print_gauge.c");
    let name = format!("tillercoral-print_gauge-{}", std::process::id());
    let program = TemporaryFile(env::temp_dir().join(name));
    let ended = Command::new(env::var_os("CC").unwrap_or("cc".into()))
        .args(["-std=c99", "-Wall", "-Wextra", "-Werror", "-pedantic"])
        .arg("-I")
        .arg(root().join("include"))
        .arg(&source)
        .arg(env!("TILLERCORAL_ARCHIVE"))
        .arg("-o")
        .arg(&program.0)
        .output()
        .expect("a C compiler named cc runs");
    let errors = String::from_utf8_lossy(&ended.stderr);
    assert!(ended.status.success(), "cc refuses the program:\n{errors}");
    assert_eq!(output(&program.0), read(&source.with_extension("txt")));
}

/// Each function is called, or in a table of those that are: a name that the library does not have
/// would not link, and a type that the header has wrong would not compile.
#[test]
fn the_c_program_refers_to_every_function() {
    let source = read(&root().join("examples/c/print_gauge.c"));
    let is_word = |letter: char| letter.is_ascii_alphanumeric() || letter == '_';
    let words: Vec<&str> = source.split(|letter| !is_word(letter)).collect();
    for name in header_prototypes().keys() {
        assert!(words.contains(&name.as_str()), "{name}");
    }
}
