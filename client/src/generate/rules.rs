//! Made-up lists of rules for trees that are there already.

use super::{damage, random_shaped_type, random_type, Names, Random, Shape};
use crate::limits::{DEPTH_LIMIT, RULE_LIMIT};
use crate::reference::{rebuilt_type, types_of_declaration, types_of_type};
use crate::words::{kind, NO_SIZE};
use crate::{Encoding, EncodingBuf, Refusal};

/// Rules for a type or a declaration with these names: their froms are mostly types of the tree or
/// what becomes of them, and their tos of all sorts. Most lists are accepted.
pub fn random_rules(random: &mut Random, names: &Names, tree: &EncodingBuf) -> Vec<u32> {
    let encoding = tree.as_encoding();
    let stock = types_of_type(&encoding)
        .or_else(|_| types_of_declaration(&encoding))
        .unwrap_or_default();
    let mut maker = Maker {
        random,
        names,
        stock,
        rules: Vec::new(),
    };
    let count = match maker.random.below(20) {
        0..=1 => 0,
        2..=16 => 1 + maker.random.below(4),
        17..=18 => 5 + maker.random.below(RULE_LIMIT - 4),
        _ => RULE_LIMIT - 1 + maker.random.below(3),
    };
    for _ in 0..count {
        maker.add_rule();
    }
    maker.words()
}

/// Does one kind of harm to a list of rules. It may happen to stay acceptable.
pub fn damage_rules(random: &mut Random, rules: &mut Vec<u32>) {
    let mut sample = EncodingBuf {
        words: std::mem::take(rules),
        ..EncodingBuf::default()
    };
    damage(random, &mut sample);
    *rules = sample.words;
}

struct Rule {
    from: Vec<u32>,
    to: Vec<u32>,
}

struct Maker<'a> {
    random: &'a mut Random,
    names: &'a Names,
    /// The types of the tree.
    stock: Vec<Vec<u32>>,
    rules: Vec<Rule>,
}

impl Maker<'_> {
    fn words(&self) -> Vec<u32> {
        let mut words = vec![self.rules.len() as u32];
        for rule in &self.rules {
            words.extend(&rule.from);
            words.extend(&rule.to);
        }
        words
    }

    /// A rule; most of those that repeat a from are dropped again.
    fn add_rule(&mut self) {
        let from = self.from();
        let to = self.to();
        self.rules.push(Rule { from, to });
        if self.rebuilt(&[kind::U8]) == Err(Refusal::RepeatedRule) && self.random.percent(98) {
            self.rules.pop();
        }
    }

    /// What the rules make of a type, if that is not too long.
    fn rebuilt(&self, words: &[u32]) -> Result<Vec<u32>, Refusal> {
        let encoding = Encoding {
            words,
            pairs: &self.names.pairs,
            text: &self.names.text,
        };
        let rebuilt = rebuilt_type(&encoding, &self.words())?;
        if rebuilt.length > 400 {
            return Err(Refusal::BufferTooShort);
        }
        Ok(rebuilt.words())
    }

    fn from(&mut self) -> Vec<u32> {
        let from = match self.random.below(20) {
            0..=8 => self.small_of_stock(),
            9..=14 => {
                let before = self.small_of_stock();
                self.rebuilt(&before).unwrap_or(before)
            }
            15..=16 if !self.rules.is_empty() => {
                let index = self.random.below(self.rules.len());
                self.rules[index].to.clone()
            }
            _ => self.small(),
        };
        if self.random.percent(40) {
            return respelled(self.random, self.names, &from);
        }
        from
    }

    fn to(&mut self) -> Vec<u32> {
        match self.random.below(20) {
            0..=4 => vec![self.random.plain_kind()],
            5..=9 => self.small(),
            10..=12 => self.small_of_stock(),
            13..=14 if !self.rules.is_empty() => {
                let index = self.random.below(self.rules.len());
                [&[kind::BORROWED], &self.rules[index].from[..]].concat()
            }
            15..=17 => {
                let count = self.random.below(50);
                [&[kind::TUPLE, count as u32], &vec![kind::U16; count][..]].concat()
            }
            _ => {
                let mut deep = vec![kind::BORROWED; self.random.below(DEPTH_LIMIT)];
                deep.push(self.random.plain_kind());
                deep
            }
        }
    }

    /// The shorter of two types of the tree, so that types around others are rarer.
    fn small_of_stock(&mut self) -> Vec<u32> {
        if self.stock.is_empty() {
            return self.small();
        }
        let one = self.random.below(self.stock.len());
        let other = self.random.below(self.stock.len());
        let (one, other) = (&self.stock[one], &self.stock[other]);
        if one.len() < other.len() {
            one.clone()
        } else {
            other.clone()
        }
    }

    fn small(&mut self) -> Vec<u32> {
        if self.random.percent(30) {
            return random_shaped_type(self.random, self.names, 3).words;
        }
        let shape = Shape {
            depth: 1 + self.random.below(3),
            chain: false,
            children: 2,
            words: 12,
            careless: 100,
        };
        random_type(self.random, self.names, shape).words
    }
}

/// The same type with other numbers for the same names, where there are any.
pub fn respelled(random: &mut Random, names: &Names, words: &[u32]) -> Vec<u32> {
    let mut words = words.to_vec();
    let mut at = 0;
    while at < words.len() {
        let name_words = match words[at] {
            kind::IDENTIFIER => at + 1..at + 2,
            kind::FROM_PATH => at + 3..at + 3 + words[at + 2] as usize,
            kind::ARRAY if words[at + 1] != NO_SIZE => {
                words[at + 1] = 1 + names.respelled(random, words[at + 1] - 1);
                at + 2..at + 2
            }
            kind::APP | kind::TUPLE | kind::FN | kind::ARRAY | kind::META_DATA => at + 2..at + 2,
            _ => at + 1..at + 1,
        };
        at = name_words.end;
        for word in &mut words[name_words] {
            *word = names.respelled(random, *word);
        }
    }
    words
}

impl Names {
    fn respelled(&self, random: &mut Random, number: u32) -> u32 {
        random.pick(&self.numbers_of(self.bytes_of(number)))
    }
}

#[cfg(test)]
mod tests {
    use super::*;
    use crate::reference::read_type;

    #[test]
    fn respelled_types_are_the_same() {
        let random = &mut Random::new(71);
        let mut changed = 0;
        for _ in 0..2_000 {
            let names = Names::random_for_shapes(random);
            let sample = random_shaped_type(random, &names, 6);
            let other = names.with_words(&respelled(random, &names, &sample.words));
            changed += usize::from(other != sample);
            let tree = read_type(&sample.as_encoding()).unwrap();
            assert_eq!(read_type(&other.as_encoding()).unwrap(), tree);
        }
        assert!(changed > 500, "{changed}");
    }

    #[test]
    fn most_lists_are_accepted() {
        let random = &mut Random::new(72);
        let (mut accepted, mut changed) = (0, 0);
        for _ in 0..1_000 {
            let names = Names::random_for_shapes(random);
            let sample = random_shaped_type(random, &names, 6);
            let rules = random_rules(random, &names, &sample);
            if let Ok(rebuilt) = rebuilt_type(&sample.as_encoding(), &rules) {
                accepted += 1;
                changed += usize::from(rebuilt.words() != sample.words);
            }
        }
        assert!(accepted > 800 && changed > 500, "{accepted} {changed}");
    }
}
