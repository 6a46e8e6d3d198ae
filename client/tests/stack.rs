//! What a stack costs: each exported call runs on a stack that was filled with a pattern, on inputs
//! that lead it deepest, and what is left of the pattern tells how far down it wrote.
//!
//! `cargo test --release --test stack -- --nocapture` prints the bytes of each call. They follow
//! from the archive, and from `memmove` and `memset` of the C library, so each run gives the same.

use std::arch::asm;
use std::collections::BTreeSet;
use std::fs;

use tillercoral::generate::{
    damage, random_declaration, random_rules, random_shaped_type, random_type, Names, Random, Shape,
};
use tillercoral::limits::{DEPTH_LIMIT, LEVEL_LIMIT, RULE_LIMIT, TEXT_LIMIT, WORD_LIMIT};
use tillercoral::tree::{
    Attribute, Declaration, Enum, EnumCase, Field, Fields, NamelessField, Path, Struct, Type,
    TypeParameter, TypeSynonym, Use,
};
use tillercoral::EncodingBuf;

// The calls.

/// What a call takes behind the encoding.
#[derive(Clone, Copy)]
enum Takes {
    Nothing,
    LevelAndBytes,
    Words,
    RulesAndWords,
}

/// What the encoding is to hold.
#[derive(Clone, Copy)]
enum Of {
    Type,
    Path,
    Declaration,
}

struct Call {
    name: &'static str,
    /// Where it is. Its parameters are not those of this type, but what `of` and `takes` say.
    function: unsafe extern "C" fn(),
    of: Of,
    takes: Takes,
    /// What it took when the line was written, in whole KiB.
    kib: usize,
}

/// The most bytes that a call may take which took so many KiB: a quarter more.
fn bound(kib: usize) -> usize {
    1_280 * kib
}

macro_rules! calls {
    ($($of:ident $takes:ident $kib:literal KiB: $($name:ident)*;)*) => {
        unsafe extern "C" {
            $($(fn $name();)*)*
        }

        const CALLS: &[Call] = &[
            $($(Call {
                name: stringify!($name),
                function: $name,
                of: Of::$of,
                takes: Takes::$takes,
                kib: $kib,
            },)*)*
        ];
    };
}

calls! {
    Type LevelAndBytes 12 KiB: tillercoral_type_text;
    Path LevelAndBytes 1 KiB: tillercoral_path_text;
    Declaration LevelAndBytes 12 KiB: tillercoral_declaration_text;
    Type Nothing 1 KiB: tillercoral_type_is_sound;
    Type RulesAndWords 66 KiB: tillercoral_type_rebuild;
    Declaration RulesAndWords 66 KiB: tillercoral_declaration_rebuild;
    Type Words 9 KiB: tillercoral_type_at_initialization;
    Type Words 12 KiB: tillercoral_type_visit;
    Declaration Words 12 KiB: tillercoral_declaration_visit;
    Type Nothing 1 KiB:
        tillercoral_ends_with_name_that_can_accept_generics
        tillercoral_is_auto_size
        tillercoral_can_read_without_clone
        tillercoral_is_rc_or_borrowed_rc
        tillercoral_is_multi_array
        tillercoral_is_maybe_uninit
        tillercoral_is_uninit_array
        tillercoral_is_box
        tillercoral_needs_as_ref_for_borrow
        tillercoral_is_object
        tillercoral_is_pointer
        tillercoral_is_object_or_pointer
        tillercoral_is_builtin_collection
        tillercoral_is_rc
        tillercoral_is_box_dyn;
    Type Nothing 2 KiB:
        tillercoral_remove_synonyms
        tillercoral_expand
        tillercoral_to_owned
        tillercoral_multi_array_underlying
        tillercoral_box_underlying
        tillercoral_object_or_pointer_underlying
        tillercoral_rc_underlying
        tillercoral_box_dyn_underlying
        tillercoral_get_builtin_collection_element
        tillercoral_extract_maybe_placebo
        tillercoral_extract_maybe_uninit_array_element;
}

/// A tree and a buffer of at most so many words are rebuilt in less, with any rules.
const LITTLE: usize = 128;
const LITTLE_KIB: usize = 32;

// The stack.

/// More than any call may take.
const STACK_BYTES: usize = 320 * 1_024;

/// Eight bytes that are all different.
const UNTOUCHED: u64 = 0x9E37_79B9_7F4A_7C15;

/// The most parameters of a call that pass on the stack.
const PUSHED: usize = 4;

/// A stack for one call at a time, which grows towards the front.
struct Stack(Vec<u64>);

impl Stack {
    fn new() -> Stack {
        Stack(vec![UNTOUCHED; STACK_BYTES / 8])
    }

    /// Calls a function, with six parameters in registers and the others on the stack.
    ///
    /// Gives the answer, and how many bytes of stack the call took: the parameters there, the return
    /// address, and all down to the last eight bytes that were written to.
    ///
    /// # Safety
    ///
    /// The function takes these parameters, and may be called with them.
    unsafe fn call(
        &mut self,
        function: unsafe extern "C" fn(),
        registers: [usize; 6],
        pushed: &[usize],
    ) -> (u64, usize) {
        // The stack pointer is a multiple of 16 where a function is called.
        let top = self.0.len() - PUSHED;
        let top = top - address(&self.0[top..]) / 8 % 2;
        for (word, &parameter) in self.0[top..].iter_mut().zip(pushed) {
            *word = parameter as u64;
        }
        let answer: u64;
        // SAFETY: the caller vouches for the call. The stack that it runs on is borrowed exclusively
        // and longer than any bound; `clobber_abi` names the registers that it may change.
        unsafe {
            asm!(
                "xchg rsp, r12",
                "call r13",
                "mov rsp, r12",
                inout("r12") self.0.as_mut_ptr().add(top) => _,
                in("r13") function,
                in("rdi") registers[0],
                in("rsi") registers[1],
                in("rdx") registers[2],
                in("rcx") registers[3],
                in("r8") registers[4],
                in("r9") registers[5],
                lateout("rax") answer,
                clobber_abi("C"),
            );
        }
        let untouched = self.untouched();
        assert!(untouched > 0, "{STACK_BYTES} bytes of stack were too few");
        self.0[untouched..].fill(UNTOUCHED);
        (answer, 8 * (top - untouched + pushed.len()))
    }

    /// How many words stand before the first that was written to.
    fn untouched(&self) -> usize {
        // Whole rows are compared fast, also in a program that is not optimized.
        const ROW: [u64; 512] = [UNTOUCHED; 512];
        let rows = self.0.chunks_exact(ROW.len());
        let whole = ROW.len() * rows.take_while(|&row| row == ROW).count();
        let rest = self.0[whole..].iter();
        whole + rest.take_while(|&&word| word == UNTOUCHED).count()
    }
}

/// The address of a slice that a call is to use.
fn address<T>(slice: &[T]) -> usize {
    slice.as_ptr().expose_provenance()
}

fn address_mut<T>(slice: &mut [T]) -> usize {
    slice.as_mut_ptr().expose_provenance()
}

/// Its frame is a little larger than 40,000 bytes, and its last parameter passes on the stack.
extern "C" fn sample(a: u64, b: u64, c: u64, d: u64, e: u64, f: u64, g: u64) -> u64 {
    let numbers = [a + b + c + d + e + f + g; 5_000];
    std::hint::black_box(&numbers)[4_999]
}

#[test]
fn a_known_frame_is_measured() {
    let mut stack = Stack::new();
    let function: extern "C" fn(u64, u64, u64, u64, u64, u64, u64) -> u64 = sample;
    // SAFETY: `sample` takes seven numbers.
    let (answer, bytes) = unsafe {
        let function: unsafe extern "C" fn() = std::mem::transmute(function);
        stack.call(function, [1, 2, 3, 4, 5, 6], &[1_000])
    };
    assert_eq!(answer, 1_021);
    assert!((40_016..42_000).contains(&bytes), "{bytes}");
    assert!(stack.0.iter().all(|&word| word == UNTOUCHED));
}

// The inputs.

/// A tree, and lists of rules for it.
struct Input {
    what: String,
    tree: EncodingBuf,
    rules: Vec<Vec<u32>>,
}

impl Input {
    /// Lists of rules that have no room beside the tree are left out.
    fn new(what: &str, mut tree: EncodingBuf, rules: &[Vec<(Type, Type)>]) -> Input {
        let what = what.to_string();
        let rules = rules.iter().filter_map(|list| tree.encode_rules(list).ok());
        let rules = rules.collect();
        Input { what, tree, rules }
    }
}

type Nest = fn(Type) -> Type;

/// A type inside another, at each place that there is, and of each known path.
const NESTS: [(&str, Nest); 26] = [
    ("display", |of| Type::synonym(of, Type::U8)),
    ("base of a synonym", |of| Type::synonym(Type::U8, of)),
    ("metadata", |of| Type::meta_data(of, true, false)),
    ("borrowed", Type::borrowed),
    ("borrowed mut", Type::borrowed_mut),
    ("impl", Type::impl_trait),
    ("dyn", Type::dyn_trait),
    ("first of a tuple", |of| Type::tuple([of, Type::U8])),
    ("last of a tuple", |of| Type::tuple([Type::U8, of])),
    ("base", |of| of.apply([Type::U8])),
    ("first argument", |of| {
        Type::named("T").apply([of, Type::U8])
    }),
    ("last argument", |of| Type::named("T").apply([Type::U8, of])),
    ("Fn argument", |of| Type::function([of], Type::U8)),
    ("Fn result", |of| Type::function([Type::U8], of)),
    ("left", |of| Type::intersection(of, Type::U8)),
    ("right", |of| Type::intersection(Type::U8, of)),
    ("slice", Type::slice),
    ("array", |of| Type::array(of, "16")),
    ("Rc", Type::rc),
    ("Box", Type::boxed),
    ("Object", Type::object),
    ("Ptr", Type::ptr),
    ("MaybeUninit", Type::maybe_uninit),
    ("MaybePlacebo", Type::maybe_placebo),
    ("Array2", |of| Type::runtime("Array2", [of])),
    ("Map", |of| Type::runtime("Map", [Type::U8, of])),
];

/// How many of them, in front, are wrappers.
const WRAPPERS: usize = 3;

/// So many types deep, if `of` has no types inside.
fn nested(nest: Nest, depth: usize, of: Type) -> Type {
    (1..depth).fold(of, |of, _| nest(of))
}

fn long_name() -> String {
    "n".repeat(TEXT_LIMIT - 1_000)
}

/// Types without others inside, with names of each length that is copied in a way of its own.
fn leaves() -> Vec<Type> {
    let mut leaves = vec![Type::U8, Type::unit(), Type::self_type()];
    leaves.extend([1, 4, 8, 16, 32, 33].map(|length| Type::named("n".repeat(length))));
    leaves.push(Path::in_crate(vec!["name"; 500]).into_type());
    leaves.push(Type::named(long_name()));
    leaves.push(Path::global([long_name()]).into_type());
    leaves
}

/// Rules that match and that do not, with tos that are deep, and longer than each of the scratches
/// that trees are rebuilt in.
fn lists_of_rules(whole: Option<&Type>) -> Vec<Vec<(Type, Type)>> {
    let tuple = |count| Type::tuple(vec![Type::U16; count]);
    let others = (1..RULE_LIMIT).map(|i| (Type::named(format!("no{i}")), Type::U8));
    let others: Vec<(Type, Type)> = others.collect();
    let mut lists = vec![
        vec![],
        others.clone(),
        (0..RULE_LIMIT).map(|i| (tuple(i), Type::U8)).collect(),
        vec![(Type::U8, Type::U8), (Type::U8, Type::U16)],
    ];
    let mut add = |from: &Type, to| lists.push([&others[..], &[(from.clone(), to)]].concat());
    for from in [Type::U8, Type::named("n")] {
        // The shorter one still fits with a deep declaration into 128 words.
        for depth in [DEPTH_LIMIT, DEPTH_LIMIT - 4] {
            add(&from, nested(Type::borrowed, depth, Type::U32));
        }
        add(
            &from,
            nested(|of| Type::tuple([of]), DEPTH_LIMIT, Type::U32),
        );
        for count in [120, 500, 8_000] {
            add(&from, tuple(count));
        }
    }
    if let Some(whole) = whole {
        add(whole, Type::U8);
        add(whole, tuple(8_000));
    }
    lists
}

fn type_inputs() -> Vec<Input> {
    let mut types = Vec::new();
    for (what, nest) in NESTS {
        // As deep as a type may be.
        for leaf in leaves() {
            types.push((what, nested(nest, DEPTH_LIMIT, leaf)));
        }
        // As deep, under a pointer to an array.
        let element = nested(nest, DEPTH_LIMIT - 2, Type::U8);
        types.push((what, Type::object(Type::slice(element.clone()))));
        types.push((what, Type::ptr(Type::runtime("Array2", [element]))));
        // Inside as many wrappers as there may be.
        let inside = nest(Type::slice(Type::maybe_uninit(Type::U8)));
        for (_, wrapper) in &NESTS[..WRAPPERS] {
            types.push((what, nested(*wrapper, DEPTH_LIMIT - 3, inside.clone())));
        }
    }
    // As many words as there may be, and as many as a scratch has.
    let tuple = |count| Type::tuple(vec![Type::U8; count]);
    let deep = nested(Type::borrowed, DEPTH_LIMIT - 1, Type::U8);
    types.push(("wide", tuple(WORD_LIMIT - 2)));
    types.push(("wide", Type::function(vec![deep; 120], Type::U8)));
    types.push((
        "deep, then wide",
        nested(Type::borrowed, DEPTH_LIMIT - 1, tuple(8_000)),
    ));
    types.extend([126, 254, 510].map(|count| ("tuple", tuple(count))));

    let mut inputs = Vec::new();
    for (what, of) in types {
        let tree = of
            .encode()
            .unwrap_or_else(|refusal| panic!("{what}: {refusal}"));
        inputs.push(Input::new(what, tree, &lists_of_rules(Some(&of))));
    }
    let random = &mut Random::new(1);
    for round in 0..900 {
        let names = Names::random_for_shapes(random);
        let tree = match round % 3 {
            0 => random_type(random, &names, DEEP),
            1 => random_type(random, &names, BROAD),
            _ => random_shaped_type(random, &names, 8),
        };
        inputs.push(random_input(random, &names, tree));
    }
    inputs
}

const BROAD: Shape = Shape {
    depth: 4,
    chain: false,
    children: 4,
    words: 300,
    careless: 50,
};

const DEEP: Shape = Shape {
    depth: DEPTH_LIMIT,
    chain: true,
    ..BROAD
};

/// Rules for a random tree, which is damaged now and then.
fn random_input(random: &mut Random, names: &Names, mut tree: EncodingBuf) -> Input {
    let rules = vec![random_rules(random, names, &tree)];
    if random.percent(10) {
        damage(random, &mut tree);
    }
    let what = "random".to_string();
    Input { what, tree, rules }
}

const DOC: &str =
    "Offset in mm.\n    code\n```\ncode\n```\nand a line of more than thirty-two bytes";

/// Declarations in which a type stands at each place that there is.
fn declarations_with(of: &Type) -> Vec<Declaration> {
    let named = |name| {
        let fields = [
            Field::public(name, of.clone()),
            Field::private("id", Type::U8),
        ];
        Fields::named(fields)
    };
    let nameless = || Fields::nameless([1, 2].map(|_| NamelessField::public(of.clone())));
    let record = |fields| {
        Struct::new("Gauge")
            .doc(DOC)
            .derive(["Clone"])
            .fields(fields)
    };
    let case = |fields| EnumCase::new("Deep").doc(DOC).fields(fields);
    let choice = || Enum::new("Gauge").doc(DOC).derive(["Clone"]);
    let parameter = || {
        TypeParameter::new("T")
            .constraint(Type::U8)
            .constraint(of.clone())
    };
    let synonym = TypeSynonym::new("Gauge", of.clone())
        .doc(DOC)
        .derive(["Clone"]);
    vec![
        record(named("mm")).into(),
        record(named("self")).into(),
        record(nameless()).into(),
        record(Fields::named([])).parameter(parameter()).into(),
        choice()
            .case(case(named("mm")))
            .case(case(nameless()))
            .into(),
        choice().case(case(named("self"))).into(),
        choice().parameter(parameter()).into(),
        synonym.parameter(parameter()).into(),
        TypeSynonym::new("Gauge", of.clone()).into(),
    ]
}

/// Declarations of many items, and of long names and docs.
fn long_declarations() -> Vec<Declaration> {
    let long = &long_name();
    let (record, choice) = (|| Struct::new("Gauge"), || Enum::new("Gauge"));
    let docs = [
        long.clone(),
        "line\n".repeat(3_000),
        "`".repeat(15_000),
        " ".repeat(15_000),
    ];
    let mut declarations: Vec<Declaration> = Vec::new();
    for doc in docs {
        declarations.push(record().doc(&doc).into());
        declarations.push(choice().case(EnumCase::new("Deep").doc(&doc)).into());
    }
    let case = || {
        EnumCase::new("Deep")
            .doc(DOC)
            .field(Field::public("mm", Type::U8))
    };
    let attribute = |_| Attribute::new("derive").arguments(["Clone"]);
    let parameter = |_| {
        TypeParameter::new("T")
            .constraint(Type::U8)
            .constraint(Type::U8)
    };
    let field = |_| Field::private("mm", Type::rc(Type::U8));
    let many = record().fields(Fields::named((0..600).map(field)));
    let many = (0..100).map(attribute).fold(many, Struct::attribute);
    let many = (0..100).map(parameter).fold(many, Struct::parameter);
    declarations.push(many.into());
    declarations.push((0..1_000).fold(choice(), |of, _| of.case(case())).into());
    let of_long_names = [
        Struct::new(long),
        record().attribute(Attribute::new(long)),
        record().attribute(Attribute::new("derive").arguments([long])),
        record().parameter(TypeParameter::new(long)),
        record().field(Field::public(long, Type::U8)),
    ];
    declarations.extend(of_long_names.map(Declaration::from));
    declarations.push(choice().case(EnumCase::new(long)).into());
    declarations.push(Use::public(Path::in_crate([long])).into());
    declarations.push(Use::private(Path::global(vec!["name"; 8_000])).into());
    declarations
}

fn declaration_inputs() -> Vec<Input> {
    let rules = lists_of_rules(None);
    let mut inputs = Vec::new();
    for (what, nest) in NESTS {
        let path = Path::global([long_name()]).into_type();
        for leaf in [Type::U8, Type::self_type(), Type::named(long_name()), path] {
            for declaration in declarations_with(&nested(nest, DEPTH_LIMIT, leaf)) {
                let tree = declaration.encode().expect("there is room for all");
                inputs.push(Input::new(what, tree, &rules));
            }
        }
    }
    for declaration in long_declarations() {
        let tree = declaration.encode().expect("there is room for all");
        inputs.push(Input::new("long", tree, &rules));
    }
    let random = &mut Random::new(2);
    for round in 0..900 {
        let names = Names::random_with_docs(random, 30);
        let tree = random_declaration(random, &names, [BROAD, DEEP][round % 2]);
        inputs.push(random_input(random, &names, tree));
    }
    inputs
}

fn path_inputs() -> Vec<Input> {
    let mut paths = vec![Path::in_self(vec!["name"; WORD_LIMIT - 2])];
    for length in [0, 1, 4, 8, 16, 32, 33, 1_000, TEXT_LIMIT] {
        paths.push(Path::global(["n".repeat(length)]));
        paths.push(Path::in_crate(["n".repeat(length)]));
    }
    let input = |path: &Path| Input::new("path", path.encode().expect("there is room"), &[]);
    paths.iter().map(input).collect()
}

/// By what the encoding holds: `Of` numbers them.
fn all_inputs() -> [Vec<Input>; 3] {
    [type_inputs(), path_inputs(), declaration_inputs()]
}

// Measuring.

/// The most bytes that a call took, on what, and how often it gave a result.
#[derive(Default)]
struct Taken {
    bytes: usize,
    what: String,
    results: usize,
}

impl Taken {
    fn note(&mut self, what: &str, (answer, bytes): (u64, usize)) {
        if self.bytes < bytes {
            self.bytes = bytes;
            self.what = what.to_string();
        }
        self.results += usize::from(answer < 1 << 63);
    }
}

/// The call on all inputs of at most so many words, with each of these numbers of words to lay the
/// answer down in.
fn measure(call: &Call, inputs: &[Vec<Input>; 3], most: usize, rooms: &[usize]) -> Taken {
    let mut stack = Stack::new();
    let mut bytes = vec![0u8; 1 << 20];
    let mut words = vec![0u32; 2 * WORD_LIMIT];
    let mut taken = Taken::default();
    for Input { what, tree, rules } in &inputs[call.of as usize] {
        if tree.words.len() > most {
            continue;
        }
        let registers = [
            address(&tree.words),
            tree.words.len(),
            address(&tree.pairs),
            tree.pairs.len(),
            address(&tree.text),
            tree.text.len(),
        ];
        let mut run = |pushed: &[usize]| {
            // SAFETY: these are the parameters of the header, which `every_exported_call_is_measured`
            // compares with the table; no slice is longer than what it points into.
            taken.note(what, unsafe {
                stack.call(call.function, registers, pushed)
            });
        };
        match call.takes {
            Takes::Nothing => run(&[]),
            Takes::LevelAndBytes => {
                for level in [0, LEVEL_LIMIT as usize, LEVEL_LIMIT as usize + 1] {
                    for room in [0, bytes.len()] {
                        run(&[level, address_mut(&mut bytes), room]);
                    }
                }
            }
            Takes::Words => {
                for &room in rooms {
                    run(&[address_mut(&mut words), room]);
                }
            }
            Takes::RulesAndWords => {
                for rules in rules {
                    for &room in rooms {
                        run(&[address(rules), rules.len(), address_mut(&mut words), room]);
                    }
                }
            }
        }
    }
    taken
}

#[test]
fn each_call_stays_below_its_bound() {
    let inputs = all_inputs();
    let mut over = Vec::new();
    let mut judge = |name: String, taken: Taken, bound: usize| {
        println!(
            "{name:<52} {:>6} bytes, bound {bound:>6}, deepest on: {}",
            taken.bytes, taken.what
        );
        assert!(taken.results > 0, "{name} gave no result");
        if taken.bytes > bound {
            over.push(name);
        }
    };
    for call in CALLS {
        let taken = measure(call, &inputs, usize::MAX, &[0, 128, WORD_LIMIT + 1]);
        judge(call.name.to_string(), taken, bound(call.kib));
    }
    // Little is rebuilt in little: the large scratch is not touched.
    for call in CALLS {
        if matches!(call.takes, Takes::RulesAndWords) {
            let taken = measure(call, &inputs, LITTLE, &[0, LITTLE]);
            judge(
                format!("{}, {LITTLE} words", call.name),
                taken,
                bound(LITTLE_KIB),
            );
        }
    }
    assert!(over.is_empty(), "more stack than the bound: {over:?}");
}

#[test]
fn every_exported_call_is_measured() {
    let header = concat!(env!("CARGO_MANIFEST_DIR"), "/../include/tillercoral.h");
    let header = fs::read_to_string(header).expect("the header is there");
    let declared = header.split("\nuint64_t ").skip(1);
    let declared = declared.filter_map(|rest| rest.split_once(");")?.0.split_once('('));
    let declared: BTreeSet<(&str, usize)> = declared
        .map(|(name, parameters)| (name, parameters.split(',').count()))
        .collect();
    let measured = CALLS.iter().map(|call| {
        let behind_the_encoding = match call.takes {
            Takes::Nothing => 0,
            Takes::LevelAndBytes => 3,
            Takes::Words => 2,
            Takes::RulesAndWords => 4,
        };
        (call.name, 6 + behind_the_encoding)
    });
    assert_eq!(measured.collect::<BTreeSet<_>>(), declared);
}
