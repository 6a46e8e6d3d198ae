//! Compares the reference and the library with the Dafny source itself, evaluated.
//!
//! The evaluator is no part of this repository: a program that reads the source's text as it stands
//! and evaluates its functions on terms. `TILLERCORAL_UPSTREAM` names it (`interp.py`); without that
//! the tests say that they were skipped, and pass. `TILLERCORAL_UPSTREAM_CASES` is how many made-up
//! cases there are, beside those worked out by hand. Python is `python3`, or the one that `PYTHON`
//! names.

mod common;

#[path = "upstream/comparison.rs"]
mod comparison;
#[path = "upstream/edits.rs"]
mod edits;
#[path = "upstream/evaluator.rs"]
mod evaluator;
#[path = "upstream/questions.rs"]
mod questions;
#[path = "upstream/samples.rs"]
mod samples;
#[path = "upstream/terms.rs"]
mod terms;

use std::io::{self, Write};
use std::path::Path;
use std::{env, fs, process};

use comparison::Comparison;
use edits::EDITS;
use evaluator::Evaluator;
use samples::Sample;

const SEED: u64 = 12;
const CASES_VARIABLE: &str = "TILLERCORAL_UPSTREAM_CASES";
const CASES: usize = 2_000;

/// Says something even where the test harness keeps what a test prints to itself, in one piece: other
/// tests are saying something too.
fn say(what: &str) {
    let line = format!("upstream: {what}\n");
    let said = io::stderr().write_all(line.as_bytes());
    said.expect("standard error");
}

/// The evaluator, if there is one; else says what is skipped for want of it.
fn evaluator_for(what: &str) -> Option<Evaluator> {
    let evaluator = Evaluator::named();
    if evaluator.is_none() {
        let variable = evaluator::VARIABLE;
        say(&format!(
            "{variable} does not name the evaluator of the Dafny source: skipped {what}"
        ));
    }
    evaluator
}

fn case_count() -> usize {
    match env::var(CASES_VARIABLE) {
        Ok(count) => count.parse().expect("a number of cases"),
        Err(_) => CASES,
    }
}

#[test]
fn the_source_agrees() {
    let Some(evaluator) = evaluator_for("the comparison with it") else {
        return;
    };
    let count = case_count();
    let made_up = samples::made_up(SEED).take(count);
    let comparison = Comparison::of(&evaluator, samples::by_hand().into_iter().chain(made_up));
    say(&format!("seed {SEED}, {comparison}"));
    comparison.assert_no_differences();
    comparison.assert_telling(count / 200);
}

/// The comparison would notice if the source said something else.
#[test]
fn changes_of_the_source_are_noticed() {
    let Some(evaluator) = evaluator_for("its changes") else {
        return;
    };
    let source = evaluator.source_text();
    let file = format!("changed-{}.dfy", process::id());
    let file = Path::new(env!("CARGO_TARGET_TMPDIR")).join(file);
    for edit in &EDITS {
        fs::write(&file, edit.of(&source)).expect("a file in a temporary folder");
        let is_of_kind = |sample: &Sample| sample.kind.name() == edit.kind;
        let samples = samples::made_up(SEED).filter(is_of_kind).take(150);
        let comparison = Comparison::of(&evaluator.with_source(&file), samples);
        for implementation in ["reference", "library"] {
            let noticed = comparison.differs(implementation, edit.answer);
            assert!(noticed, "{}: {comparison}", edit.answer);
        }
    }
    fs::remove_file(&file).expect("the file is still there");
    let count = EDITS.len();
    say(&format!("{count} changes of the source, each noticed"));
}
