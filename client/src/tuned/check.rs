//! Checks of the words where their text is of no interest.

use super::{next, Words, MORE_THAN_WORDS};
use crate::limits::DEPTH_LIMIT;
use crate::words::{fields, flag, head, kind, root, visibility, FIRST_PAIR};
use crate::Refusal;

/// How many names there are, the fixed ones included.
pub(super) fn name_count(pairs: &[u32]) -> u32 {
    FIRST_PAIR + (pairs.len() / 2) as u32
}

/// How many children the types around the innermost open one still wait for; lent, as with
/// measuring.
pub(super) type ChildrenLeft = [u32; DEPTH_LIMIT];

pub(super) const NONE_LEFT: ChildrenLeft = [0; DEPTH_LIMIT];

type Checked = Result<(), Refusal>;

#[inline]
pub(super) fn check_below(word: u32, bound: u32) -> Checked {
    if word < bound {
        Ok(())
    } else {
        Err(Refusal::UnknownWord)
    }
}

fn check_path(rest: &mut Words<'_>, names: u32) -> Checked {
    check_below(next(rest)?, root::END)?;
    for _ in 0..next(rest)? {
        check_below(next(rest)?, names)?;
    }
    Ok(())
}

/// Checks the type that the words begin with; its words are taken. Put in place of its calls it
/// comes out slower.
#[inline(never)]
pub(super) fn check_type(rest: &mut Words<'_>, names: u32, outer: &mut ChildrenLeft) -> Checked {
    check_type_inside(rest, names, outer, 0)
}

/// The same for a type that stands inside so many others, what `outer` has about these stays, and
/// that reaches no deeper than `outer` is long.
#[inline(always)]
pub(super) fn check_type_inside<const DEPTH: usize>(
    rest: &mut Words<'_>,
    names: u32,
    outer: &mut [u32; DEPTH],
    inside: usize,
) -> Checked {
    let mut depth = inside;
    let mut children_left = 1;
    loop {
        let children = check_own_words(rest, names)?;
        if children > 0 {
            depth += 1;
            *outer.get_mut(depth).ok_or(Refusal::TooDeep)? = children_left;
            children_left = children;
            continue;
        }
        // A type has ended, and with it each type around it whose last child it is.
        loop {
            children_left -= 1;
            if children_left > 0 {
                break;
            }
            if depth == inside {
                return Ok(());
            }
            children_left = outer[depth];
            depth -= 1;
        }
    }
}

/// Takes the words before the first child, and gives how many children there are.
#[inline(always)]
fn check_own_words(rest: &mut Words<'_>, names: u32) -> Result<u32, Refusal> {
    Ok(match next(rest)? {
        kind::U8..=kind::BOOL => 0,
        kind::IDENTIFIER => {
            check_below(next(rest)?, names)?;
            0
        }
        kind::FROM_PATH => {
            check_path(rest, names)?;
            0
        }
        kind::APP | kind::FN => next(rest)?.min(MORE_THAN_WORDS) + 1,
        kind::BORROWED..=kind::DYN => 1,
        kind::TUPLE => next(rest)?.min(MORE_THAN_WORDS),
        kind::INTERSECTION | kind::SYNONYM => 2,
        kind::ARRAY => {
            // No size, or the number of a name plus 1.
            check_below(next(rest)?, names + 1)?;
            1
        }
        kind::META_DATA => {
            check_below(next(rest)?, flag::END)?;
            1
        }
        _ => return Err(Refusal::UnknownWord),
    })
}

/// Goes through the words of a declaration and checks all of them but those of its types: for each
/// type `on_type` is told where it begins and whether it is that of a struct's field, and says
/// where it ends.
pub(super) struct DeclarationWalk<'a, F> {
    pub words: &'a [u32],
    pub at: usize,
    pub names: u32,
    pub on_type: F,
}

impl<F: FnMut(usize, bool) -> Result<usize, Refusal>> DeclarationWalk<'_, F> {
    #[inline(always)]
    fn next(&mut self) -> Result<u32, Refusal> {
        let word = *self.words.get(self.at).ok_or(Refusal::EndsEarly)?;
        self.at += 1;
        Ok(word)
    }

    #[inline(always)]
    fn next_below(&mut self, bound: u32) -> Result<u32, Refusal> {
        let word = self.next()?;
        check_below(word, bound)?;
        Ok(word)
    }

    #[inline(always)]
    fn name(&mut self) -> Result<u32, Refusal> {
        self.next_below(self.names)
    }

    #[inline(always)]
    fn type_(&mut self, of_struct_field: bool) -> Checked {
        self.at = (self.on_type)(self.at, of_struct_field)?;
        Ok(())
    }

    pub fn declaration(&mut self) -> Checked {
        match self.next()? {
            head::STRUCT => {
                self.front()?;
                self.fields(true)
            }
            head::ENUM => {
                self.front()?;
                for _ in 0..self.next()? {
                    self.name()?;
                    self.name()?;
                    self.fields(false)?;
                }
                Ok(())
            }
            head::TYPE => {
                self.front()?;
                self.type_(false)
            }
            head::USE => {
                self.next_below(visibility::END)?;
                let mut rest = self.words[self.at..].iter();
                check_path(&mut rest, self.names)?;
                self.at = self.words.len() - rest.len();
                Ok(())
            }
            _ => Err(Refusal::UnknownWord),
        }
    }

    /// Doc, attributes, name and parameters.
    fn front(&mut self) -> Checked {
        self.name()?;
        for _ in 0..self.next()? {
            self.name()?;
            for _ in 0..self.next()? {
                self.name()?;
            }
        }
        self.name()?;
        for _ in 0..self.next()? {
            self.name()?;
            for _ in 0..self.next()? {
                self.type_(false)?;
            }
        }
        Ok(())
    }

    fn fields(&mut self, of_struct: bool) -> Checked {
        let nameless = self.next_below(fields::END)? == fields::NAMELESS;
        for _ in 0..self.next()? {
            self.next_below(visibility::END)?;
            if !nameless {
                self.name()?;
            }
            self.type_(of_struct)?;
        }
        Ok(())
    }
}

/// Checks a whole declaration and that no words are left over.
pub(super) fn check_declaration(words: &[u32], names: u32) -> Checked {
    let mut outer = NONE_LEFT;
    let mut walk = DeclarationWalk {
        words,
        at: 0,
        names,
        on_type: |at: usize, _| {
            let mut rest = words[at..].iter();
            check_type(&mut rest, names, &mut outer)?;
            Ok(words.len() - rest.len())
        },
    };
    walk.declaration()?;
    if walk.at < words.len() {
        return Err(Refusal::LeftOver);
    }
    Ok(())
}

/// Checks a whole type and that no words are left over.
#[inline]
pub(super) fn check_whole_type(words: &[u32], names: u32) -> Checked {
    let mut rest = words.iter();
    check_type(&mut rest, names, &mut { NONE_LEFT })?;
    super::check_no_rest(&rest)
}
