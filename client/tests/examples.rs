//! The examples: each source gives its file, and each file prints its text.

use std::fs;
use std::path::{Path, PathBuf};

use tillercoral::cases::GAUGE;
use tillercoral::{declaration_text, reference, source, Encoding, EncodingBuf};

fn folder() -> PathBuf {
    Path::new(env!("CARGO_MANIFEST_DIR")).join("../examples")
}

/// The names of the files with this ending, without it.
fn names(ending: &str) -> Vec<String> {
    let mut names: Vec<String> = fs::read_dir(folder())
        .expect("the examples are there")
        .filter_map(|entry| {
            let name = entry.expect("a readable folder").file_name();
            Some(name.to_str()?.strip_suffix(ending)?.to_string())
        })
        .collect();
    names.sort();
    names
}

fn read(name: &str, ending: &str) -> Vec<u8> {
    let path = folder().join(format!("{name}{ending}"));
    fs::read(&path).unwrap_or_else(|error| panic!("{}: {error}", path.display()))
}

fn encoding_of_source(name: &str) -> EncodingBuf {
    let text = String::from_utf8(read(name, ".txt")).expect("a source is text");
    let declaration = source::parse(&text).unwrap_or_else(|error| panic!("{name}.txt: {error}"));
    EncodingBuf::from_declaration(&declaration).unwrap_or_else(|it| panic!("{name}.txt: {it}"))
}

#[test]
fn each_example_is_whole() {
    assert!(names(".txt").len() >= 6);
    assert_eq!(names(".bin"), names(".txt"));
    assert_eq!(names(".rs"), names(".txt"));
}

#[test]
fn each_source_gives_its_file() {
    for name in names(".txt") {
        let made = encoding_of_source(&name).to_file();
        assert!(
            made == read(&name, ".bin"),
            "{name}.bin is not what {name}.txt gives; write it with the program encode"
        );
    }
}

#[test]
fn each_file_prints_its_text() {
    for name in names(".txt") {
        let wanted = read(&name, ".rs");
        assert_eq!(
            String::from_utf8_lossy(&reference::printdecl(&read(&name, ".bin"))),
            String::from_utf8_lossy(&wanted),
            "{name}, reference"
        );
        let mut buffer = [0; 4_096];
        let encoding = encoding_of_source(&name);
        let length = declaration_text(&encoding.as_encoding(), 0, &mut buffer)
            .unwrap_or_else(|refusal| panic!("{name}: {refusal}"));
        buffer[length] = b'\n';
        assert_eq!(
            String::from_utf8_lossy(&buffer[..=length]),
            String::from_utf8_lossy(&wanted),
            "{name}, library"
        );
    }
}

/// The example `gauge`, by its numbers; `docs/API.md` has the same ones.
#[test]
fn gauge_is_the_papers_own() {
    assert_eq!(
        encoding_of_source("gauge").as_encoding(),
        Encoding {
            words: &GAUGE,
            pairs: &[0, 5, 5, 13, 18, 2, 20, 2],
            text: b"GaugeOffset in mm.mmid",
        }
    );
}
