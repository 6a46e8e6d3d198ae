//! The evaluator of the Dafny source: a program that reads one case a line and prints one line of
//! answers for each.

use std::collections::HashMap;
use std::ffi::OsString;
use std::io::Write;
use std::path::{Path, PathBuf};
use std::process::{Command, Output, Stdio};
use std::{env, fs, thread};

/// Names `interp.py`, the evaluator.
pub const VARIABLE: &str = "TILLERCORAL_UPSTREAM";

/// How the evaluator is run.
pub struct Evaluator {
    program: PathBuf,
    /// Another source than the one that it finds by itself.
    source: Option<PathBuf>,
}

/// What is answered to one case.
pub struct Answers(HashMap<String, String>);

impl Answers {
    /// The answer of this name. There is none where the evaluation failed.
    pub fn get(&self, name: &str) -> Option<&str> {
        self.0.get(name).map(String::as_str)
    }

    fn read(line: &str) -> Answers {
        let answers = line.split('\t').filter_map(|answer| answer.split_once('='));
        Answers(
            answers
                .map(|(name, value)| (name.into(), value.into()))
                .collect(),
        )
    }
}

impl Evaluator {
    /// The one that the variable names, if it is set.
    pub fn named() -> Option<Evaluator> {
        let program = env::var_os(VARIABLE).filter(|name| !name.is_empty())?;
        let program = PathBuf::from(program);
        assert!(
            program.is_file(),
            "{VARIABLE} is {}, which is no file",
            program.display()
        );
        Some(Evaluator {
            program,
            source: None,
        })
    }

    /// The same program for another source.
    pub fn with_source(&self, source: &Path) -> Evaluator {
        Evaluator {
            program: self.program.clone(),
            source: Some(source.to_path_buf()),
        }
    }

    /// The text of the source that the evaluator finds by itself: it stands in `../../docs`, seen from
    /// the evaluator's folder.
    pub fn source_text(&self) -> String {
        let docs = self.program.parent().expect("a file").join("../../docs");
        let files = fs::read_dir(&docs).expect("the folder of the source");
        let is_source = |path: &PathBuf| path.to_string_lossy().ends_with("-rast.dfy.txt");
        let mut paths = files.map(|file| file.expect("a file of the folder").path());
        let source = paths.find(is_source).expect("the source");
        fs::read_to_string(source).expect("the source is text")
    }

    /// The answers to all cases.
    pub fn answers<'a>(&self, cases: impl Iterator<Item = &'a str>) -> Vec<Answers> {
        let mut input = String::new();
        let mut count = 0;
        for case in cases {
            input.push_str(case);
            input.push('\n');
            count += 1;
        }
        let output = self.run(&input);
        let errors = String::from_utf8_lossy(&output.stderr);
        assert!(output.status.success(), "{}: {errors}", output.status);
        let text = String::from_utf8(output.stdout).expect("the answers are ASCII");
        let answers: Vec<Answers> = text.lines().map(Answers::read).collect();
        assert_eq!(answers.len(), count, "a line for each case; {errors}");
        answers
    }

    /// What it prints. A thread writes the input, so that neither side waits for the other for ever.
    fn run(&self, input: &str) -> Output {
        let python = env::var_os("PYTHON").unwrap_or_else(|| OsString::from("python3"));
        let mut child = Command::new(python)
            .arg("-B") // leaves no compiled files beside the evaluator
            .arg(&self.program)
            .args(&self.source)
            .stdin(Stdio::piped())
            .stdout(Stdio::piped())
            .stderr(Stdio::piped())
            .spawn()
            .expect("Python starts");
        let mut pipe = child.stdin.take().expect("a pipe");
        thread::scope(|scope| {
            // Where the evaluator ends early the pipe is closed, and its status tells.
            scope.spawn(move || pipe.write_all(input.as_bytes()));
            child.wait_with_output().expect("the evaluator ends")
        })
    }
}
