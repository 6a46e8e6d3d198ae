//! Visit lists, and some of the answers about shapes and parts.

use std::ops::Range;

use super::check::{check_declaration, check_whole_type, name_count, DeclarationWalk};
use super::declaration::Names;
use super::{check_tables, skip_type};
use crate::words::{flag, kind, name, root, FIRST_PAIR};
use crate::{Encoding, Refusal};

pub fn type_visit(encoding: &Encoding<'_>, out: &mut [u32]) -> Result<usize, Refusal> {
    check_tables(encoding, 0)?;
    let words = encoding.words;
    check_whole_type(words, name_count(encoding.pairs))?;
    // There are at most as many types as words.
    if out.len() < words.len() {
        let mut count = 0;
        visit_types(words, 0, 1, &mut |_| count += 1);
        check_room(count, out)?;
    }
    let mut count = 0;
    visit_types(words, 0, 1, &mut |at| {
        out[count] = at as u32;
        count += 1;
    });
    Ok(count)
}

pub fn declaration_visit(encoding: &Encoding<'_>, out: &mut [u32]) -> Result<usize, Refusal> {
    check_tables(encoding, 0)?;
    let (words, names) = (encoding.words, name_count(encoding.pairs));
    check_declaration(words, names)?;
    if out.len() < words.len() {
        let mut count = 0;
        visit_declaration(words, names, |_| count += 1)?;
        check_room(count, out)?;
    }
    let mut count = 0;
    visit_declaration(words, names, |at| {
        out[count] = at as u32;
        count += 1;
    })?;
    Ok(count)
}

fn check_room(count: usize, out: &[u32]) -> Result<(), Refusal> {
    if count > out.len() {
        return Err(Refusal::BufferTooShort);
    }
    Ok(())
}

fn visit_declaration(
    words: &[u32],
    names: u32,
    mut visit: impl FnMut(usize),
) -> Result<(), Refusal> {
    let mut walk = DeclarationWalk {
        words,
        at: 0,
        names,
        on_type: |at, of_struct_field| {
            Ok(if of_struct_field {
                skip_type(words, at)
            } else {
                visit_types(words, at, 1, &mut visit)
            })
        },
    };
    walk.declaration()
}

/// Visits so many types that stand one after the other, and gives where they end. The order is that
/// of the words, with the bases of synonyms left out.
fn visit_types(
    words: &[u32],
    mut at: usize,
    mut types_left: u32,
    visit: &mut impl FnMut(usize),
) -> usize {
    while types_left > 0 {
        visit(at);
        if words[at] == kind::SYNONYM {
            at = visit_types(words, at + 1, 1, visit);
            at = skip_type(words, at);
            types_left -= 1;
            continue;
        }
        let (own, children) = super::rebuild::own_words_and_children(&words[at..]);
        at += own;
        types_left = types_left - 1 + children;
    }
    at
}

/// The words of a type that were checked, and their names.
#[derive(Clone, Copy)]
pub(super) struct Checked<'a> {
    pub words: &'a [u32],
    pub names: Names<'a>,
}

impl<'a> Checked<'a> {
    fn new(encoding: &Encoding<'a>) -> Result<Checked<'a>, Refusal> {
        check_tables(encoding, 0)?;
        let Encoding { words, pairs, text } = *encoding;
        check_whole_type(words, name_count(pairs))?;
        Ok(Checked {
            words,
            names: Names { pairs, text },
        })
    }

    #[inline]
    pub fn is_name(self, number: u32, fixed: u32) -> bool {
        number == fixed
            || (number >= FIRST_PAIR && self.names.bytes(number) == self.names.bytes(fixed))
    }

    /// Whether the type at `at` is `::dafny_runtime::name` of one argument.
    pub fn is_runtime_type(self, at: usize, name: u32) -> bool {
        match self.words[at..] {
            [kind::APP, 1, kind::FROM_PATH, root::GLOBAL, 2, module, of, ..] => {
                self.is_name(of, name) && self.is_name(module, name::DAFNY_RUNTIME)
            }
            _ => false,
        }
    }

    /// Where the type at `at` is, wrappers opened.
    pub fn expanded(self, mut at: usize) -> usize {
        loop {
            match self.words[at] {
                kind::SYNONYM => at = skip_type(self.words, at + 1),
                kind::META_DATA => at += 2,
                _ => return at,
            }
        }
    }
}

pub fn is_rc(encoding: &Encoding<'_>) -> Result<bool, Refusal> {
    let checked = Checked::new(encoding)?;
    Ok(match *checked.words {
        [kind::APP, 1, kind::FROM_PATH, root::GLOBAL, 3, std, module, name, ..] => {
            let is = |number, fixed| checked.is_name(number, fixed);
            is(std, name::STD)
                && (is(module, name::RC_MODULE) && is(name, name::RC)
                    || is(module, name::SYNC) && is(name, name::ARC))
        }
        _ => false,
    })
}

pub fn can_read_without_clone(encoding: &Encoding<'_>) -> Result<bool, Refusal> {
    let checked = Checked::new(encoding)?;
    let mut at = 0;
    loop {
        match checked.words[at..] {
            [kind::U8..=kind::BOOL, ..] => return Ok(true),
            [kind::META_DATA, flag::COPY_SEMANTICS | flag::ALL, ..] => return Ok(true),
            [kind::SYNONYM, ..] => at = skip_type(checked.words, at + 1),
            [kind::META_DATA, ..] => at += 2,
            _ => return Ok(checked.is_runtime_type(at, name::PTR)),
        }
    }
}

pub fn is_object_or_pointer(encoding: &Encoding<'_>) -> Result<bool, Refusal> {
    let checked = Checked::new(encoding)?;
    let at = checked.expanded(0);
    Ok(checked.is_runtime_type(at, name::PTR) || checked.is_runtime_type(at, name::OBJECT))
}

pub fn expand(encoding: &Encoding<'_>) -> Result<Range<usize>, Refusal> {
    let checked = Checked::new(encoding)?;
    let at = checked.expanded(0);
    Ok(at..skip_type(checked.words, at))
}

pub fn object_or_pointer_underlying(encoding: &Encoding<'_>) -> Result<Range<usize>, Refusal> {
    let checked = Checked::new(encoding)?;
    let at = checked.expanded(0);
    if !checked.is_runtime_type(at, name::PTR) && !checked.is_runtime_type(at, name::OBJECT) {
        return Err(Refusal::NoSuchPart);
    }
    let argument = at + 7;
    Ok(argument..skip_type(checked.words, argument))
}

#[cfg(test)]
mod tests {
    use super::*;
    use crate::generate::{
        damage, random_declaration, random_shaped_type, random_type, Names, Random, Shape,
    };
    use crate::reference::{self, PARTS, SHAPES};
    use crate::{cases, EncodingBuf};

    type VisitCall = fn(&Encoding<'_>, &mut [u32]) -> Result<usize, Refusal>;

    /// Both calls on buffers around the length of the list.
    fn check_visits(calls: [VisitCall; 2], sample: &EncodingBuf) -> Result<usize, Refusal> {
        let encoding = sample.as_encoding();
        let whole = calls[1](&encoding, &mut vec![0; sample.words.len()]);
        let exact = whole.unwrap_or(3);
        for length in [
            exact,
            exact.saturating_sub(1),
            exact + 2,
            sample.words.len() + 1,
        ] {
            let before: Vec<u32> = (900..).take(length).collect();
            let [tuned, wanted] = calls.map(|call| {
                let mut buffer = before.clone();
                (call(&encoding, &mut buffer), buffer)
            });
            assert_eq!(tuned, wanted, "buffer of {length}: {sample:?}");
        }
        whole
    }

    fn check_answers(sample: &EncodingBuf) {
        type Question = fn(&Encoding<'_>) -> Result<bool, Refusal>;
        type PartCall = fn(&Encoding<'_>) -> Result<Range<usize>, Refusal>;
        let encoding = sample.as_encoding();
        let questions: [(&str, Question); 3] = [
            ("CanReadWithoutClone", can_read_without_clone),
            ("IsObjectOrPointer", is_object_or_pointer),
            ("IsRc", is_rc),
        ];
        for (name, call) in questions {
            let shape = SHAPES.iter().find(|shape| shape.name == name).unwrap();
            let wanted = shape.answer(&encoding);
            assert_eq!(call(&encoding), wanted, "{name} {sample:?}");
        }
        let parts: [(&str, PartCall); 2] = [
            ("Expand", expand),
            ("ObjectOrPointerUnderlying", object_or_pointer_underlying),
        ];
        for (name, call) in parts {
            let part = PARTS.iter().find(|part| part.name == name).unwrap();
            let wanted = part.answer(&encoding);
            assert_eq!(call(&encoding), wanted, "{name} {sample:?}");
        }
    }

    #[test]
    fn by_hand() {
        let types: [VisitCall; 2] = [type_visit, reference::type_visit];
        for case in cases::type_visits() {
            let _ = check_visits(types, &cases::encoded(&case.words));
        }
        let declarations: [VisitCall; 2] = [declaration_visit, reference::declaration_visit];
        for case in cases::declaration_visits() {
            let _ = check_visits(declarations, &cases::encoded(&case.words));
        }
        for case in cases::shapes() {
            check_answers(&cases::encoded(&case.words));
        }
    }

    #[test]
    fn as_the_reference_has_them() {
        let random = &mut Random::new(75);
        let mut accepted = [0; 2];
        for round in 0..6_000 {
            let names = Names::random_for_shapes(random);
            let shape = Shape {
                depth: 1 + random.below(20),
                chain: round % 3 == 0,
                children: 4,
                words: 100,
                careless: 100,
            };
            let mut samples = [
                random_shaped_type(random, &names, 8),
                random_type(random, &names, shape),
                random_declaration(random, &names, shape),
            ];
            for sample in &mut samples {
                if random.percent(20) {
                    damage(random, sample);
                }
            }
            let [shaped, plain, declaration] = &samples;
            check_answers(shaped);
            let types: [VisitCall; 2] = [type_visit, reference::type_visit];
            accepted[0] += usize::from(check_visits(types, plain).is_ok());
            let declarations: [VisitCall; 2] = [declaration_visit, reference::declaration_visit];
            accepted[1] += usize::from(check_visits(declarations, declaration).is_ok());
        }
        assert!(accepted.iter().all(|&count| count > 4_000), "{accepted:?}");
    }
}
