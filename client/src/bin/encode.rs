//! Writes the file that `printdecl` reads from a declaration in a readable form:
//!
//! ```text
//! cargo run --release --bin encode -- ../examples/gauge.txt ../examples/gauge.bin
//! ../crates/printdecl/out/printdecl < ../examples/gauge.bin
//! ```
//!
//! The form, in short (the module `tillercoral::source` has all of it):
//!
//! ```text
//! // a comment
//! struct Gauge
//!     doc "Offset in mm."
//!     attribute derive(Clone, Copy)
//!     parameter T: crate::Unit, ::std::clone::Clone
//!     field pub mm: i32
//!     field id: &u8
//! ```
//!
//! Other first lines are `enum NAME` with `case NAME` lines, `type NAME` with an `is TYPE` line,
//! `use PATH` and `pub use PATH`. A field without a name is `nameless pub TYPE`.

use std::path::Path;
use std::process::ExitCode;
use std::{env, fs};

use tillercoral::{source, EncodingBuf};

fn main() -> ExitCode {
    let arguments: Vec<_> = env::args_os().skip(1).collect();
    let [from, to] = &arguments[..] else {
        eprintln!("usage: encode SOURCE FILE");
        return ExitCode::from(2);
    };
    match encode(Path::new(from), Path::new(to)) {
        Ok(()) => ExitCode::SUCCESS,
        Err(message) => {
            eprintln!("{message}");
            ExitCode::FAILURE
        }
    }
}

fn encode(from: &Path, to: &Path) -> Result<(), String> {
    let text = fs::read_to_string(from).map_err(|error| format!("{}: {error}", from.display()))?;
    let declaration =
        source::parse(&text).map_err(|error| format!("{}: {error}", from.display()))?;
    let encoding = EncodingBuf::from_declaration(&declaration)
        .map_err(|refusal| format!("{}: {refusal}", from.display()))?;
    fs::write(to, encoding.to_file()).map_err(|error| format!("{}: {error}", to.display()))
}
