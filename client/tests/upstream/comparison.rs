//! The reference and the library against the evaluated source.

use std::collections::BTreeMap;
use std::fmt;

use tillercoral::limits::DEPTH_LIMIT;
use tillercoral::Refusal;

use crate::evaluator::{Answers, Evaluator};
use crate::questions::{Given, Questions, IMPLEMENTATIONS};
use crate::samples::Sample;
use crate::terms::{type_depth, Strings};

/// So many samples are put to the evaluator at a time.
const BATCH: usize = 2_500;

/// An answer in which an implementation and the source differ.
struct Difference {
    implementation: &'static str,
    answer: String,
    line: String,
    source: String,
    given: String,
}

impl fmt::Display for Difference {
    fn fmt(&self, f: &mut fmt::Formatter<'_>) -> fmt::Result {
        writeln!(f, "{} of {}", self.answer, self.line)?;
        writeln!(f, "  source: {}", self.source)?;
        writeln!(f, "  {}: {}", self.implementation, self.given)
    }
}

/// How large samples are, and which characters their names have.
#[derive(Default, Debug)]
struct Sizes {
    words: usize,
    most_words: usize,
    most_rule_words: usize,
    deepest: usize,
    /// With characters that do not fit in a byte.
    wide: usize,
    /// With a character for each byte, since some name is not UTF-8.
    bytes: usize,
}

impl Sizes {
    fn add(&mut self, sample: &Sample) {
        let words = sample.encoding.words.len();
        self.words += words;
        self.most_words = self.most_words.max(words);
        self.most_rule_words = self.most_rule_words.max(sample.rules.len());
        self.deepest = self.deepest.max(type_depth(&sample.term));
        self.wide += usize::from(sample.line.contains('%'));
        self.bytes += usize::from(sample.strings == Strings::Bytes);
    }
}

/// What was compared, and what came of it.
#[derive(Default)]
pub struct Comparison {
    /// How many samples there were of each kind.
    samples: BTreeMap<&'static str, usize>,
    sizes: Sizes,
    /// How many answers were compared, by their names.
    compared: BTreeMap<String, usize>,
    /// How many of these say more than that there is nothing, or that a tree stays as it is.
    telling: BTreeMap<String, usize>,
    /// Rebuilt trees that were refused with 5, where the source's tree is too deep.
    too_deep: usize,
    /// Rebuilt trees that were refused with 8, of which the source knows nothing.
    left_out: usize,
    differences: Vec<Difference>,
}

impl Comparison {
    /// Puts all samples to the evaluator and to both implementations.
    pub fn of(evaluator: &Evaluator, samples: impl Iterator<Item = Sample>) -> Comparison {
        let mut comparison = Comparison::default();
        let mut samples = samples.peekable();
        while samples.peek().is_some() {
            let batch: Vec<Sample> = samples.by_ref().take(BATCH).collect();
            let answers = evaluator.answers(batch.iter().map(|sample| sample.line.as_str()));
            for (sample, answers) in batch.iter().zip(&answers) {
                comparison.add(sample, answers);
            }
        }
        comparison
    }

    fn add(&mut self, sample: &Sample, answers: &Answers) {
        *self.samples.entry(sample.kind.name()).or_default() += 1;
        self.sizes.add(sample);
        for to in &IMPLEMENTATIONS {
            let questions = Questions { to, about: sample };
            for given in questions.all() {
                let source = answers.get(&given.name).or(answers.get("EXCEPTION"));
                let source = source.unwrap_or("no answer");
                self.compare(to.name, sample, source, given);
            }
        }
    }

    fn compare(&mut self, by: &'static str, sample: &Sample, source: &str, given: Given) {
        // A part that there is none of, and one that must not be asked for.
        let source = match source {
            "None" | "requires" => "refusal 7",
            other => other,
        };
        let answer = match given.answer {
            Err(Refusal::BufferTooShort) if source.starts_with('(') => {
                self.left_out += 1;
                return;
            }
            Err(Refusal::TooDeep) if type_depth(source) > DEPTH_LIMIT => {
                self.too_deep += 1;
                source.to_string()
            }
            Err(refusal) => format!("refusal {}", refusal.number()),
            Ok(answer) => answer,
        };
        let dull = ["0", "", "$", "refusal 7", &sample.term].contains(&source);
        *self.telling.entry(given.name.clone()).or_default() += usize::from(!dull);
        *self.compared.entry(given.name.clone()).or_default() += 1;
        if answer != source {
            self.differences.push(Difference {
                implementation: by,
                answer: given.name,
                line: sample.line.clone(),
                source: source.to_string(),
                given: answer,
            });
        }
    }

    /// Each answer must have been one to learn from so often.
    pub fn assert_telling(&self, least: usize) {
        println!("{:?}", self.sizes);
        for (name, &telling) in &self.telling {
            println!("{name}: {telling} of {}", self.compared[name]);
            // Without rules every tree stays as it is.
            let enough = telling >= least || name.ends_with("(defaults)");
            assert!(enough, "{name}: {telling}");
        }
    }

    /// Shows the first few differences.
    pub fn assert_no_differences(&self) {
        let first = self.differences.iter().take(5).map(Difference::to_string);
        let first: String = first.collect();
        assert!(first.is_empty(), "{self}\n{first}");
    }

    /// Whether an implementation differs from the source in this answer.
    pub fn differs(&self, implementation: &str, answer: &str) -> bool {
        let mut differences = self.differences.iter();
        differences.any(|found| found.implementation == implementation && found.answer == answer)
    }
}

impl fmt::Display for Comparison {
    fn fmt(&self, f: &mut fmt::Formatter<'_>) -> fmt::Result {
        let kinds = self
            .samples
            .iter()
            .map(|(kind, count)| format!("{count} {kind}"));
        let kinds: Vec<String> = kinds.collect();
        let samples: usize = self.samples.values().sum();
        let compared: usize = self.compared.values().sum();
        let (differences, kinds) = (self.differences.len(), kinds.join(", "));
        let (too_deep, left_out) = (self.too_deep, self.left_out);
        write!(
            f,
            "{samples} cases ({kinds}), {compared} comparisons, {differences} differences; "
        )?;
        write!(
            f,
            "of the rebuilt trees {too_deep} are refused with 5 and too deep in the source, "
        )?;
        write!(f, "and {left_out} refused with 8 were left out")
    }
}
