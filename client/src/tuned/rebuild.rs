//! Rebuilt types and declarations.
//!
//! The words are checked first, then the rules. The rebuilding itself is one pass over the words:
//! as long as nothing is replaced they are only looked at, and copied in runs as long as possible.
//! They are copied to a place of our own, as the caller's buffer must stay as it was beyond the
//! result, however many words there were for a moment.

use super::check::{
    check_declaration, check_type, check_whole_type, name_count, DeclarationWalk, NONE_LEFT,
};
use super::declaration::Names;
use super::{check_no_rest, check_tables, next};
use crate::limits::{DEPTH_LIMIT, RULE_LIMIT, WORD_LIMIT};
use crate::words::{kind, NO_SIZE};
use crate::{Encoding, Refusal};

const HEADS: usize = kind::END as usize;

pub fn type_rebuild(
    encoding: &Encoding<'_>,
    rules: &[u32],
    out: &mut [u32],
) -> Result<usize, Refusal> {
    let rules = checked(encoding, rules, check_whole_type)?;
    if rules.count == 0 {
        return copied(encoding.words, out);
    }
    let mut rebuilding = Rebuilding::new(encoding, &rules, out.len());
    match rebuilding.whole_type() {
        Ok(()) => copied(rebuilding.result(), out),
        Err(refusal) => cleared(refusal, out),
    }
}

pub fn declaration_rebuild(
    encoding: &Encoding<'_>,
    rules: &[u32],
    out: &mut [u32],
) -> Result<usize, Refusal> {
    let rules = checked(encoding, rules, check_declaration)?;
    if rules.count == 0 {
        return copied(encoding.words, out);
    }
    let mut rebuilding = Rebuilding::new(encoding, &rules, out.len());
    match rebuilding.whole_declaration() {
        Ok(()) => copied(rebuilding.result(), out),
        Err(refusal) => cleared(refusal, out),
    }
}

fn checked<'a>(
    encoding: &Encoding<'a>,
    rules: &'a [u32],
    check: fn(&[u32], u32) -> Result<(), Refusal>,
) -> Result<Rules<'a>, Refusal> {
    if rules.len() > WORD_LIMIT {
        return Err(Refusal::Overlong);
    }
    check_tables(encoding, 0)?;
    let names = name_count(encoding.pairs);
    check(encoding.words, names)?;
    Rules::read(rules, names, name_bytes(encoding))
}

fn name_bytes<'a>(encoding: &Encoding<'a>) -> Names<'a> {
    Names {
        pairs: encoding.pairs,
        text: encoding.text,
    }
}

pub(super) fn copied(words: &[u32], out: &mut [u32]) -> Result<usize, Refusal> {
    match out.get_mut(..words.len()) {
        Some(front) => {
            front.copy_from_slice(words);
            Ok(words.len())
        }
        None => cleared(Refusal::BufferTooShort, out),
    }
}

pub(super) fn cleared(refusal: Refusal, out: &mut [u32]) -> Result<usize, Refusal> {
    out.fill(0);
    Err(refusal)
}

/// Where the two types of a rule begin, and where the second ends.
#[derive(Clone, Copy)]
struct Rule {
    from: u16,
    to: u16,
    end: u16,
}

struct Rules<'a> {
    words: &'a [u32],
    rules: [Rule; RULE_LIMIT],
    count: usize,
    /// Bit i: the from of rule i has this head.
    by_head: [u32; HEADS],
    names: Names<'a>,
}

impl<'a> Rules<'a> {
    fn read(words: &'a [u32], name_count: u32, names: Names<'a>) -> Result<Rules<'a>, Refusal> {
        let mut rest = words.iter();
        let count = next(&mut rest)? as usize;
        if count > RULE_LIMIT {
            return Err(Refusal::UnknownWord);
        }
        let nowhere = Rule {
            from: 0,
            to: 0,
            end: 0,
        };
        let mut rules = Rules {
            words,
            rules: [nowhere; RULE_LIMIT],
            count,
            by_head: [0; HEADS],
            names,
        };
        let mut outer = NONE_LEFT;
        let mut end = 1;
        for rule in &mut rules.rules[..count] {
            let from = end;
            check_type(&mut rest, name_count, &mut outer)?;
            let to = words.len() - rest.len();
            check_type(&mut rest, name_count, &mut outer)?;
            end = words.len() - rest.len();
            // All positions are at most 8,192.
            (rule.from, rule.to, rule.end) = (from as u16, to as u16, end as u16);
        }
        check_no_rest(&rest)?;
        rules.index()?;
        Ok(rules)
    }

    /// Fills `by_head`; a from must not be there already.
    fn index(&mut self) -> Result<(), Refusal> {
        for number in 0..self.count {
            let from = self.from(self.rules[number]);
            let head = from[0] as usize;
            if self.find(from, self.by_head[head]).is_some() {
                return Err(Refusal::RepeatedRule);
            }
            self.by_head[head] |= 1 << number;
        }
        Ok(())
    }

    #[inline]
    fn from(&self, rule: Rule) -> &'a [u32] {
        &self.words[usize::from(rule.from)..usize::from(rule.to)]
    }

    /// The to of the rule, among the candidates, whose from is this type.
    #[inline]
    fn find(&self, finished: &[u32], mut candidates: u32) -> Option<&'a [u32]> {
        while candidates != 0 {
            let rule = self.rules[candidates.trailing_zeros() as usize];
            candidates &= candidates - 1;
            let from = self.from(rule);
            // Equal types have equally many words.
            if from.len() == finished.len() && is_same(from, finished, self.names) {
                return Some(&self.words[usize::from(rule.to)..usize::from(rule.end)]);
            }
        }
        None
    }
}

/// Whether two types of equally many words are the same tree.
fn is_same(a: &[u32], b: &[u32], names: Names<'_>) -> bool {
    let same_name = |a: u32, b: u32| a == b || names.bytes(a) == names.bytes(b);
    let mut at = 0;
    while at < a.len() {
        let head = a[at];
        if head != b[at] {
            return false;
        }
        at += match head {
            kind::U8..=kind::BOOL | kind::BORROWED..=kind::DYN => 1,
            kind::INTERSECTION | kind::SYNONYM => 1,
            kind::IDENTIFIER if same_name(a[at + 1], b[at + 1]) => 2,
            kind::FROM_PATH if a[at + 1..at + 3] == b[at + 1..at + 3] => {
                let names = at + 3..at + 3 + a[at + 2] as usize;
                let mut both = a[names.clone()].iter().zip(&b[names.clone()]);
                if !both.all(|(&a, &b)| same_name(a, b)) {
                    return false;
                }
                3 + names.len()
            }
            kind::APP | kind::TUPLE | kind::FN | kind::META_DATA if a[at + 1] == b[at + 1] => 2,
            kind::ARRAY if is_same_size(a[at + 1], b[at + 1], same_name) => 2,
            _ => return false,
        };
    }
    true
}

fn is_same_size(a: u32, b: u32, same_name: impl Fn(u32, u32) -> bool) -> bool {
    a == b || (a != NO_SIZE && b != NO_SIZE && same_name(a - 1, b - 1))
}

/// A type whose children are being rebuilt.
#[derive(Clone, Copy)]
struct Open {
    /// Where it begins in the result.
    start: u16,
    children_left: u16,
    head: u16,
}

const NO_TYPE: Open = Open {
    start: 0,
    children_left: 0,
    head: 0,
};

/// The result is `made` and then `words[copied..]` up to where the pass has come.
struct Rebuilding<'a> {
    words: &'a [u32],
    names: u32,
    rules: &'a Rules<'a>,
    /// How many words there may be.
    room: usize,
    made: Vec<u32>,
    copied: usize,
    outer: [Open; DEPTH_LIMIT],
}

impl<'a> Rebuilding<'a> {
    fn new(encoding: &Encoding<'a>, rules: &'a Rules<'a>, room: usize) -> Rebuilding<'a> {
        Rebuilding {
            words: encoding.words,
            names: name_count(encoding.pairs),
            rules,
            room: room.min(WORD_LIMIT),
            made: Vec::new(),
            copied: 0,
            outer: [NO_TYPE; DEPTH_LIMIT],
        }
    }

    fn whole_type(&mut self) -> Result<(), Refusal> {
        let at = self.rebuild_type(0)?;
        self.finish_with(at, check_whole_type)
    }

    fn whole_declaration(&mut self) -> Result<(), Refusal> {
        let (words, names) = (self.words, self.names);
        let mut walk = DeclarationWalk {
            words,
            at: 0,
            names,
            on_type: |at, _| self.rebuild_type(at),
        };
        walk.declaration()?;
        self.finish_with(words.len(), check_declaration)
    }

    /// What is left is copied, and the depth checked, unless nothing was replaced.
    fn finish_with(
        &mut self,
        at: usize,
        check: fn(&[u32], u32) -> Result<(), Refusal>,
    ) -> Result<(), Refusal> {
        if !self.is_changed() {
            return self.check_room(at);
        }
        self.copy_up_to(at)?;
        check(&self.made, self.names)
    }

    fn is_changed(&self) -> bool {
        self.copied > 0
    }

    fn result(&self) -> &[u32] {
        if self.is_changed() {
            &self.made
        } else {
            self.words
        }
    }

    fn check_room(&self, length: usize) -> Result<(), Refusal> {
        if length > self.room {
            return Err(Refusal::BufferTooShort);
        }
        Ok(())
    }

    /// Copies the words before `at` that were only looked at so far.
    #[inline]
    fn copy_up_to(&mut self, at: usize) -> Result<(), Refusal> {
        let run = &self.words[self.copied..at];
        self.check_room(self.made.len() + run.len())?;
        if self.made.capacity() == 0 {
            // Most results are about as long as what they come from.
            self.made.reserve(self.words.len() + 32);
        }
        self.made.extend_from_slice(run);
        self.copied = at;
        Ok(())
    }

    /// Rebuilds the type at word `at`, and gives where it ends there.
    fn rebuild_type(&mut self, mut at: usize) -> Result<usize, Refusal> {
        let mut depth = 0;
        loop {
            let (own, children) = own_words_and_children(&self.words[at..]);
            let mut start = self.made.len() + at - self.copied;
            let mut head = self.words[at] as u16;
            at += own;
            if children > 0 {
                // More words than the result may have at all are caught when they are copied.
                self.outer[depth] = Open {
                    start: start.min(WORD_LIMIT) as u16,
                    children_left: children as u16,
                    head,
                };
                depth += 1;
                continue;
            }
            loop {
                self.finish(start, head, at)?;
                if depth == 0 {
                    return Ok(at);
                }
                let open = &mut self.outer[depth - 1];
                open.children_left -= 1;
                if open.children_left > 0 {
                    break;
                }
                (start, head) = (usize::from(open.start), open.head);
                depth -= 1;
            }
        }
    }

    /// Replaces the type from `start` on in the result, whose words end before `at`, if a rule says
    /// so.
    #[inline(always)]
    fn finish(&mut self, start: usize, head: u16, at: usize) -> Result<(), Refusal> {
        let candidates = self.rules.by_head[usize::from(head)];
        if candidates == 0 {
            return Ok(());
        }
        let to = if start >= self.made.len() {
            // Nothing in it was replaced.
            let from = self.copied + (start - self.made.len());
            self.rules.find(&self.words[from..at], candidates)
        } else {
            self.copy_up_to(at)?;
            self.rules.find(&self.made[start..], candidates)
        };
        match to {
            Some(to) => self.replace(start, to, at),
            None => Ok(()),
        }
    }

    fn replace(&mut self, start: usize, to: &[u32], at: usize) -> Result<(), Refusal> {
        // The finished type is there for a moment, so there must be room for it.
        self.copy_up_to(at)?;
        self.check_room(start + to.len())?;
        self.made.truncate(start);
        self.made.extend_from_slice(to);
        Ok(())
    }
}

/// How many words come before the first child, and how many children there are, in words that were
/// checked.
#[inline(always)]
pub(super) fn own_words_and_children(words: &[u32]) -> (usize, u32) {
    match words[0] {
        kind::U8..=kind::BOOL => (1, 0),
        kind::IDENTIFIER => (2, 0),
        kind::FROM_PATH => (3 + words[2] as usize, 0),
        kind::APP | kind::FN => (2, words[1] + 1),
        kind::BORROWED..=kind::DYN => (1, 1),
        kind::TUPLE => (2, words[1]),
        kind::INTERSECTION | kind::SYNONYM => (1, 2),
        _ => (2, 1), // arrays and metadata
    }
}

#[cfg(test)]
mod tests {
    use super::*;
    use crate::cases;
    use crate::generate::{
        damage, damage_rules, random_declaration, random_rules, random_shaped_type, random_type,
        Random, Shape,
    };
    use crate::reference::{self, Rebuilt};
    use crate::EncodingBuf;

    type WordCall = fn(&Encoding<'_>, &[u32], &mut [u32]) -> Result<usize, Refusal>;

    /// How often each answer was met; 0 stands for done.
    type Tally = [usize; 12];

    fn check(calls: [WordCall; 2], sample: &EncodingBuf, rules: &[u32], lengths: &[usize]) {
        for &length in lengths {
            let before: Vec<u32> = (900..).take(length).collect();
            let [(tuned, tuned_buffer), (wanted, wanted_buffer)] = calls.map(|call| {
                let mut buffer = before.clone();
                let answer = call(&sample.as_encoding(), rules, &mut buffer);
                (answer, buffer)
            });
            assert_eq!(
                tuned, wanted,
                "buffer of {length}: {sample:?} with {rules:?}"
            );
            assert!(
                tuned_buffer == wanted_buffer,
                "buffer of {length}: {sample:?} with {rules:?}"
            );
        }
    }

    fn lengths_and_tally(rebuilt: &Result<Rebuilt, Refusal>, tally: &mut Tally) -> Vec<usize> {
        match rebuilt {
            Ok(it) => {
                tally[0] += 1;
                let (length, peak) = (it.length, it.peak.min(9_000));
                vec![peak, peak.saturating_sub(1), length.min(9_000), 0, peak + 5]
            }
            Err(refusal) => {
                tally[refusal.number() as usize] += 1;
                vec![4]
            }
        }
    }

    fn shape(random: &mut Random, round: usize) -> Shape {
        let depth = if round.is_multiple_of(4) {
            DEPTH_LIMIT - 2
        } else {
            5
        };
        Shape {
            depth: depth + random.below(4),
            chain: round.is_multiple_of(4),
            children: 4,
            words: 150,
            careless: 100,
        }
    }

    #[test]
    fn types_as_the_reference_has_them() {
        let calls: [WordCall; 2] = [type_rebuild, reference::type_rebuild];
        for case in cases::type_rebuilds() {
            check(
                calls,
                &cases::encoded(&case.words),
                &case.rules,
                &[case.buffer],
            );
        }
        let random = &mut Random::new(73);
        let mut tally = Tally::default();
        for round in 0..3_000 {
            let names = crate::generate::Names::random_for_shapes(random);
            let mut sample = if round % 3 == 0 {
                random_shaped_type(random, &names, 8)
            } else {
                let shape = shape(random, round);
                random_type(random, &names, shape)
            };
            let mut rules = random_rules(random, &names, &sample);
            match round % 8 {
                0 => damage(random, &mut sample),
                1..=2 => damage_rules(random, &mut rules),
                _ => {}
            }
            let rebuilt = reference::rebuilt_type(&sample.as_encoding(), &rules);
            let lengths = lengths_and_tally(&rebuilt, &mut tally);
            check(calls, &sample, &rules, &lengths);
        }
        assert!(tally[0] > 1_500, "{tally:?}");
        for number in [3, 4, 5, 6, 10] {
            assert!(tally[number] > 10, "{tally:?}");
        }
    }

    #[test]
    fn declarations_as_the_reference_has_them() {
        let calls: [WordCall; 2] = [declaration_rebuild, reference::declaration_rebuild];
        for case in cases::declaration_rebuilds() {
            check(
                calls,
                &cases::encoded(&case.words),
                &case.rules,
                &[case.buffer],
            );
        }
        let random = &mut Random::new(74);
        let mut tally = Tally::default();
        for round in 0..3_000 {
            let names = crate::generate::Names::random_for_shapes(random);
            let shape = shape(random, round);
            let mut sample = random_declaration(random, &names, shape);
            let mut rules = random_rules(random, &names, &sample);
            match round % 8 {
                0 => damage(random, &mut sample),
                1..=2 => damage_rules(random, &mut rules),
                _ => {}
            }
            let rebuilt = reference::rebuilt_declaration(&sample.as_encoding(), &rules);
            let lengths = lengths_and_tally(&rebuilt, &mut tally);
            check(calls, &sample, &rules, &lengths);
        }
        assert!(tally[0] > 1_500, "{tally:?}");
        for number in [3, 4, 5, 6, 10] {
            assert!(tally[number] > 10, "{tally:?}");
        }
    }
}
