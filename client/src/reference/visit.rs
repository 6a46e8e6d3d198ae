//! Visit lists: the positions of the types that `Fold` and `RASTTopDownVisitor` come by.

use super::places::{types_of, Role};
use super::{read_declaration, read_type};
use crate::tree::{Declaration, Type};
use crate::{Encoding, Refusal};

pub fn type_visit(encoding: &Encoding<'_>, out: &mut [u32]) -> Result<usize, Refusal> {
    deliver(&read_type(encoding)?.reference_visits(), out)
}

pub fn declaration_visit(encoding: &Encoding<'_>, out: &mut [u32]) -> Result<usize, Refusal> {
    deliver(&read_declaration(encoding)?.reference_visits(), out)
}

fn deliver(visits: &[u32], out: &mut [u32]) -> Result<usize, Refusal> {
    let Some(front) = out.get_mut(..visits.len()) else {
        return Err(Refusal::BufferTooShort);
    };
    front.copy_from_slice(visits);
    Ok(visits.len())
}

#[doc(hidden)]
impl Type {
    /// The positions of the types visited when the type starts at word 0.
    pub fn reference_visits(&self) -> Vec<u32> {
        let mut visits = Vec::new();
        self.fold_from(0, &mut visits);
        visits
    }

    /// `Fold`: the type itself, then its children in order, of a synonym only the display.
    fn fold_from(&self, start: usize, visits: &mut Vec<u32>) {
        visits.push(start as u32);
        let mut at = start + self.own_word_count();
        let visited = match self {
            Type::Synonym { .. } => 1, // the display stands first
            _ => usize::MAX,
        };
        for child in self.children().into_iter().take(visited) {
            child.fold_from(at, visits);
            at += child.word_count();
        }
    }
}

#[doc(hidden)]
impl Declaration {
    /// The positions of the types visited. The bodies go through parameters, cases and the target
    /// in the order of the words; `VisitStructMapping` leaves the fields out, and `VisitUse` has
    /// nothing to visit.
    pub fn reference_visits(&self) -> Vec<u32> {
        let mut visits = Vec::new();
        for found in types_of(self) {
            match found.role {
                Role::StructField => {}
                Role::Constraint | Role::CaseField | Role::SynonymTarget => {
                    found.tree.fold_from(found.start, &mut visits);
                }
            }
        }
        visits
    }
}

#[cfg(test)]
mod tests {
    use super::*;
    use crate::cases::{self, WordCase};

    type WordCall = fn(&Encoding<'_>, &mut [u32]) -> Result<usize, Refusal>;

    fn check(call: WordCall, cases: &[WordCase]) {
        for case in cases {
            let before: Vec<u32> = (900..).take(case.buffer).collect();
            let mut buffer = before.clone();
            let answer = call(&cases::encoded(&case.words).as_encoding(), &mut buffer);
            let wanted = case.wanted.as_ref().map(Vec::len).map_err(|number| *number);
            assert_eq!(answer.map_err(Refusal::number), wanted, "{case:?}");
            assert_eq!(buffer, case.buffer_after(&before, false), "{case:?}");
        }
    }

    #[test]
    fn types_by_hand() {
        check(type_visit, &cases::type_visits());
    }

    #[test]
    fn declarations_by_hand() {
        check(declaration_visit, &cases::declaration_visits());
    }
}
