//! Asks types for their shapes, and takes them apart.
//!
//! `cargo run --release --example ask_shapes`

use tillercoral::tree::Type;
use tillercoral::{Part, Refusal, Shape, TextError};

/// The types that are asked.
pub fn types() -> Vec<Type> {
    let shared = Type::rc(Type::U16);
    let uninitialized = Type::slice(Type::maybe_uninit(Type::U8));
    let grid = Type::runtime("Array2", [Type::U8]);
    let depths = Type::runtime("Sequence", [Type::I32]);
    vec![
        Type::borrowed(shared.clone()),
        shared,
        Type::boxed(Type::dyn_trait(Type::named("Sounder"))),
        Type::synonym(Type::named("Depth"), Type::I32),
        Type::runtime("Map", [Type::U16, depths]),
        Type::object(uninitialized),
        Type::ptr(grid.clone()),
        grid,
        Type::maybe_placebo(Type::named("Gauge")),
        Type::maybe_uninit(Type::Bool),
    ]
}

fn main() -> Result<(), TextError> {
    for asked in types() {
        println!("{}", asked.to_text()?);
        let shapes = shapes(&asked)?;
        match shapes.as_slice() {
            [] => println!("    shapes: none"),
            shapes => println!("    shapes: {}", shapes.join(", ")),
        }
        for &part in Part::ALL {
            match asked.part(part) {
                // Of some parts a type is its own.
                Ok(taken) if taken == asked => {}
                Ok(taken) => println!("    {part}: {}", taken.to_text()?),
                Err(Refusal::NoSuchPart) => {}
                Err(refusal) => return Err(refusal.into()),
            }
        }
    }
    Ok(())
}

/// The names of the shapes that a type has.
fn shapes(asked: &Type) -> Result<Vec<&'static str>, Refusal> {
    let mut names = Vec::new();
    for &shape in Shape::ALL {
        if asked.has_shape(shape)? {
            names.push(shape.name());
        }
    }
    Ok(names)
}
