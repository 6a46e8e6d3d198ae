//! Compares the fifteen answers about types of the library with those of the reference.

mod common;

use common::{gauge, shape};
use tillercoral::cases;
use tillercoral::generate::{damage, damage_names, random_shaped_type, random_type, Names, Random};
use tillercoral::reference::SHAPES;
use tillercoral::words::{kind, kind::*, root::*, FIRST_PAIR};
use tillercoral::{tuned, Encoding, Refusal};

type Question = fn(&Encoding<'_>) -> Result<bool, Refusal>;

/// In the order of the reference's.
const LIBRARY: [(&str, Question); 15] = [
    (
        "EndsWithNameThatCanAcceptGenerics",
        tillercoral::ends_with_name_that_can_accept_generics,
    ),
    ("IsAutoSize", tillercoral::is_auto_size),
    ("CanReadWithoutClone", tillercoral::can_read_without_clone),
    ("IsRcOrBorrowedRc", tillercoral::is_rc_or_borrowed_rc),
    ("IsMultiArray", tillercoral::is_multi_array),
    ("IsMaybeUninit", tillercoral::is_maybe_uninit),
    ("IsUninitArray", tillercoral::is_uninit_array),
    ("IsBox", tillercoral::is_box),
    ("NeedsAsRefForBorrow", tillercoral::needs_as_ref_for_borrow),
    ("IsObject", tillercoral::is_object),
    ("IsPointer", tillercoral::is_pointer),
    ("IsObjectOrPointer", tillercoral::is_object_or_pointer),
    ("IsBuiltinCollection", tillercoral::is_builtin_collection),
    ("IsRc", tillercoral::is_rc),
    ("IsBoxDyn", tillercoral::is_box_dyn),
];

const TUNED: [(&str, Question); 3] = [
    ("CanReadWithoutClone", tuned::can_read_without_clone),
    ("IsObjectOrPointer", tuned::is_object_or_pointer),
    ("IsRc", tuned::is_rc),
];

/// How often each shape was met and not met, and each refusal.
#[derive(Default, Debug)]
struct Tally {
    yes: [usize; 15],
    no: [usize; 15],
    refused: [usize; 12],
}

impl Tally {
    fn assert_met(&self, least: usize, refused: &[usize]) {
        println!("{self:?}");
        for (which, (name, _)) in LIBRARY.iter().enumerate() {
            let (yes, no) = (self.yes[which], self.no[which]);
            assert!(yes >= least && no >= least, "{name}: {yes} {no}");
        }
        for &number in refused {
            assert!(self.refused[number] >= least, "{number}: {self:?}");
        }
    }
}

fn check(encoding: &Encoding<'_>, tally: &mut Tally) {
    for (which, (name, call)) in LIBRARY.into_iter().enumerate() {
        let shape = &SHAPES[which];
        assert_eq!(shape.name, name);
        let wanted = shape.answer(encoding);
        assert_eq!(call(encoding), wanted, "{name} of {encoding:?}");
        for (_, tuned) in TUNED.iter().filter(|(tuned, _)| *tuned == name) {
            assert_eq!(tuned(encoding), wanted, "{name}, tuned, of {encoding:?}");
        }
        match wanted {
            Ok(true) => tally.yes[which] += 1,
            Ok(false) => tally.no[which] += 1,
            Err(refusal) => tally.refused[refusal.number() as usize] += 1,
        }
    }
}

#[test]
fn shaped_types() {
    let random = &mut Random::new(101);
    let mut tally = Tally::default();
    for round in 0..80_000 {
        let names = Names::random_for_shapes(random);
        let sample = random_shaped_type(random, &names, 2 + round % 7);
        check(&sample.as_encoding(), &mut tally);
    }
    tally.assert_met(300, &[]);
}

#[test]
fn random_types() {
    let random = &mut Random::new(102);
    let mut tally = Tally::default();
    for round in 0..20_000 {
        let names = Names::random(random, 12);
        let shape = shape(round, random);
        let sample = random_type(random, &names, shape);
        check(&sample.as_encoding(), &mut tally);
    }
    println!("{tally:?}");
    assert!(tally.yes[0] > 1_000 && tally.no[0] > 1_000 && tally.refused[5] > 1_000);
}

#[test]
fn damaged_types() {
    let random = &mut Random::new(103);
    let mut tally = Tally::default();
    for round in 0..40_000 {
        let names = Names::random_for_shapes(random);
        let mut sample = if round % 8 == 0 {
            let shape = shape(round / 8, random);
            random_type(random, &names, shape)
        } else {
            random_shaped_type(random, &names, 2 + round % 7)
        };
        match round % 4 {
            0 => damage_names(random, &mut sample),
            _ => damage(random, &mut sample),
        }
        check(&sample.as_encoding(), &mut tally);
    }
    tally.assert_met(10, &[2, 3, 4, 5, 6]);
}

/// Each byte of each name of the paths that shapes look for, changed.
#[test]
fn paths_that_differ_in_one_byte() {
    let paths: [&[&[u8]]; 12] = [
        &[b"std", b"rc", b"Rc"],
        &[b"std", b"sync", b"Arc"],
        &[b"std", b"boxed", b"Box"],
        &[b"std", b"mem", b"MaybeUninit"],
        &[b"dafny_runtime", b"Object"],
        &[b"dafny_runtime", b"Ptr"],
        &[b"dafny_runtime", b"Array"],
        &[b"dafny_runtime", b"Array2"],
        &[b"dafny_runtime", b"Set"],
        &[b"dafny_runtime", b"Sequence"],
        &[b"dafny_runtime", b"Multiset"],
        &[b"dafny_runtime", b"Map"],
    ];
    let mut tally = Tally::default();
    for path in paths {
        check_path(path, &mut tally);
        for which in 0..path.len() {
            for near in near_names(path[which]) {
                let mut other = path.to_vec();
                other[which] = &near;
                check_path(&other, &mut tally);
            }
        }
    }
    println!("{tally:?}");
    for shape in [4, 5, 7, 9, 10, 12, 13] {
        assert!(tally.yes[shape] > 0 && tally.no[shape] > 200, "{shape}");
    }
}

/// The path applied to each number of arguments up to three, as an encoding with no fixed names.
fn check_path(path: &[&[u8]], tally: &mut Tally) {
    let names = Names::of(path);
    for root in [GLOBAL, CRATE] {
        for count in 0..4 {
            let mut words = vec![APP, count, FROM_PATH, root, path.len() as u32];
            words.extend((FIRST_PAIR..).take(path.len()));
            words.extend((0..count).map(|_| BOOL));
            check(&names.with_words(&words).as_encoding(), tally);
        }
    }
}

/// A name with each byte changed in three ways, taken, or doubled.
fn near_names(name: &[u8]) -> Vec<Vec<u8>> {
    let mut near = Vec::new();
    for at in 0..name.len() {
        for byte in [name[at] ^ 32, name[at] + 1, 0] {
            let mut other = name.to_vec();
            other[at] = byte;
            near.push(other);
        }
        let mut shorter = name.to_vec();
        shorter.remove(at);
        near.push(shorter);
        let mut longer = name.to_vec();
        longer.insert(at, name[at]);
        near.push(longer);
    }
    near
}

/// All runs of up to four words that could mean something.
#[test]
fn all_short_types() {
    const WORDS: u32 = kind::END + 1;
    let mut tally = Tally::default();
    for length in 0..=4 {
        for number in 0..WORDS.pow(length) {
            let digits = (0..length).map(|place| number / WORDS.pow(place) % WORDS);
            let words: Vec<u32> = digits.collect();
            check(&gauge(&words), &mut tally);
        }
    }
    println!("{tally:?}");
    for shape in 0..3 {
        assert!(tally.yes[shape] > 500 && tally.no[shape] > 500, "{shape}");
    }
}

#[test]
fn by_hand() {
    for case in cases::shapes() {
        let sample = cases::encoded(&case.words);
        for (name, call) in LIBRARY {
            let wanted = Ok(case.shapes.contains(&name));
            assert_eq!(
                call(&sample.as_encoding()),
                wanted,
                "{name} of {:?}",
                case.words
            );
        }
    }
}
