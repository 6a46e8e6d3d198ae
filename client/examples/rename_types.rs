//! Renames types in declarations, by rules.
//!
//! `cargo run --release --example rename_types`
//!
//! A rule is tried when everything inside a type is finished, so a rule sees what the others made:
//! `Gauge` becomes `Sensor` first, and it is `Rc<Sensor>` that becomes `Arc<Sensor>`. The names of
//! the declarations and of their fields are no types and stay.

use std::error::Error;

use tillercoral::tree::{
    Declaration, Enum, EnumCase, Field, Fields, NamelessField, Path, Struct, Type, TypeSynonym,
};
use tillercoral::type_rebuild;

/// From and to.
pub fn rules() -> Vec<(Type, Type)> {
    let named = |from, to| (Type::named(from), Type::named(to));
    let sensor = || Type::named("Sensor");
    vec![
        named("Depth", "Draught"),
        named("Fix", "Position"),
        named("Gauge", "Sensor"),
        (Type::rc(sensor()), Type::arc(sensor())),
    ]
}

/// What is to be changed.
pub fn declarations() -> Vec<Declaration> {
    let list = |of| Path::global(["std", "vec", "Vec"]).apply([of]);
    let (depth, fix) = (Type::named("Depth"), Type::named("Fix"));
    vec![
        Struct::new("Log")
            .doc("What was seen on the way.")
            .field(Field::public("last", depth.clone()))
            .field(Field::public("track", list(fix.clone())))
            .field(Field::private("gauge", Type::rc(Type::named("Gauge"))))
            .into(),
        Enum::new("Event")
            .case(EnumCase::new("Grounded").fields(Fields::nameless([
                NamelessField::private(depth.clone()),
                NamelessField::private(fix.clone()),
            ])))
            .case(EnumCase::new("Lost").field(Field::private("last_seen", fix.clone())))
            .into(),
        TypeSynonym::new("Fix", Type::tuple([Type::I64, Type::I64, depth])).into(),
    ]
}

fn main() -> Result<(), Box<dyn Error>> {
    for declaration in declarations() {
        println!("{}\n", declaration.rebuild(&rules())?.to_text(0)?);
    }

    // The same with words and a buffer, as the library has it.
    let mut borrowed = Type::borrowed(Type::slice(Type::named("Depth"))).encode()?;
    let rules = borrowed.encode_rules(&rules())?;
    let mut buffer = [0; 64];
    let length = type_rebuild(&borrowed.as_encoding(), &rules, &mut buffer)?;
    borrowed.words = buffer[..length].to_vec();
    let text = borrowed.as_encoding().type_text()?;
    println!("{}", String::from_utf8(text)?);
    Ok(())
}
