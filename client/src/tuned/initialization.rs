//! `TypeAtInitialization`.
//!
//! An argument, an element, a base of a synonym and a display of metadata all come last among their
//! type's words. So the element of the array reaches to the end of all words, and the result is a
//! few words that are known at once and then a copy.

use super::check::{check_type_inside, check_whole_type, name_count};
use super::declaration::Names;
use super::rebuild::{cleared, copied};
use super::walks::Checked;
use super::{check_no_rest, check_tables};
use crate::limits::{DEPTH_LIMIT, WORD_LIMIT};
use crate::words::kind::{APP, ARRAY, FROM_PATH};
use crate::words::name::{DAFNY_RUNTIME, MAYBE_UNINIT, MEM, OBJECT, PTR, STD};
use crate::words::root::GLOBAL;
use crate::words::{FIRST_PAIR, NO_SIZE};
use crate::{Encoding, Refusal};

pub fn type_at_initialization(encoding: &Encoding<'_>, out: &mut [u32]) -> Result<usize, Refusal> {
    check_tables(encoding, 0)?;
    let Encoding { words, pairs, text } = *encoding;
    let name_count = name_count(pairs);
    let is_deepest = check_and_compare_depth(words, name_count)?;
    let checked = Checked {
        words,
        names: Names { pairs, text },
    };
    let Some((outside, array)) = checked.array_to_initialize() else {
        return copied(words, out);
    };
    let element = &words[array.element()..];
    let too_deep = is_deepest && is_too_deep(element, name_count);
    match array {
        Array::Plain { .. } => {
            #[rustfmt::skip]
            let front = [
                APP, 1, FROM_PATH, GLOBAL, 2, DAFNY_RUNTIME, outside,
                ARRAY, NO_SIZE,
                APP, 1, FROM_PATH, GLOBAL, 3, STD, MEM, MAYBE_UNINIT,
            ];
            deliver(&front, element, too_deep, out)
        }
        Array::Multi { module, name, .. } => {
            #[rustfmt::skip]
            let front = [
                APP, 1, FROM_PATH, GLOBAL, 2, DAFNY_RUNTIME, outside,
                APP, 1, FROM_PATH, GLOBAL, 2, module, name,
                APP, 1, FROM_PATH, GLOBAL, 3, STD, MEM, MAYBE_UNINIT,
            ];
            deliver(&front, element, too_deep, out)
        }
    }
}

/// Checks a whole type, and says whether it is as deep as it may be. A type that is less deep is
/// not too deep with one `MaybeUninit` more, and is not gone through again.
fn check_and_compare_depth(words: &[u32], names: u32) -> Result<bool, Refusal> {
    let mut rest = words.iter();
    if check_type_inside(&mut rest, names, &mut [0; DEPTH_LIMIT - 1], 0).is_ok() {
        return check_no_rest(&rest).map(|()| false);
    }
    check_whole_type(words, names).map(|()| true)
}

/// Whether an element is too deep inside `MaybeUninit`, inside an array, inside Object or Ptr.
#[cold]
fn is_too_deep(element: &[u32], names: u32) -> bool {
    check_type_inside(&mut element.iter(), names, &mut [0; DEPTH_LIMIT], 3).is_err()
}

/// The front has a length of its own in each case, so that copying it takes a few moves.
fn deliver<const N: usize>(
    front: &[u32; N],
    element: &[u32],
    too_deep: bool,
    out: &mut [u32],
) -> Result<usize, Refusal> {
    let length = N + element.len();
    let room = out.get_mut(..length).filter(|_| length <= WORD_LIMIT);
    let Some((for_front, for_element)) = room.and_then(|room| room.split_first_chunk_mut()) else {
        return cleared(Refusal::BufferTooShort, out);
    };
    if too_deep {
        return cleared(Refusal::TooDeep, out);
    }
    *for_front = *front;
    for_element.copy_from_slice(element);
    Ok(length)
}

/// An array that becomes another one, and where its element begins.
enum Array {
    /// Without size, and not in a wrapper.
    Plain { element: usize },
    /// One of the runtime's, with the names of its path.
    Multi {
        module: u32,
        name: u32,
        element: usize,
    },
}

impl Array {
    fn element(&self) -> usize {
        match *self {
            Array::Plain { element } | Array::Multi { element, .. } => element,
        }
    }
}

impl Checked<'_> {
    /// The array, and whether it is in an Object or in a Ptr in the end.
    fn array_to_initialize(self) -> Option<(u32, Array)> {
        let at = self.expanded(0);
        let outside = if self.is_runtime_type(at, PTR) {
            PTR
        } else if self.is_runtime_type(at, OBJECT) {
            // Inside a wrapper it becomes a Ptr.
            if at == 0 {
                OBJECT
            } else {
                PTR
            }
        } else {
            return None;
        };
        Some((outside, self.array(at + 7)?))
    }

    fn array(self, at: usize) -> Option<Array> {
        if let [ARRAY, NO_SIZE, ..] = self.words[at..] {
            return Some(Array::Plain { element: at + 2 });
        }
        let at = self.expanded(at);
        match self.words[at..] {
            [APP, 1, FROM_PATH, GLOBAL, 2, module, name, ..]
                if self.is_name(module, DAFNY_RUNTIME) && self.begins_with_array(name) =>
            {
                Some(Array::Multi {
                    module,
                    name,
                    element: at + 7,
                })
            }
            _ => None,
        }
    }

    /// No fixed name does.
    fn begins_with_array(self, number: u32) -> bool {
        number >= FIRST_PAIR && self.names.bytes(number).starts_with(b"Array")
    }
}
