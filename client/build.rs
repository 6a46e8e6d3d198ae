//! Finds the static library with the proved calls and has it linked.

use std::env;
use std::io::ErrorKind;
use std::path::{Path, PathBuf};
use std::process::Command;

const ARCHIVE: &str = "libcapi.a";
const FOLDER_VARIABLE: &str = "TILLERCORAL_LIB_DIR";

fn main() {
    println!("cargo:rerun-if-env-changed={FOLDER_VARIABLE}");
    let folder = match env::var_os(FOLDER_VARIABLE) {
        Some(folder) => given_folder(PathBuf::from(folder)),
        None => repository_folder(),
    };
    println!("cargo:rerun-if-changed={}", folder.join(ARCHIVE).display());
    println!("cargo:rustc-link-search=native={}", folder.display());
    println!("cargo:rustc-link-lib=static=capi");
    // For the test that links a C program with the same archive.
    println!(
        "cargo:rustc-env=TILLERCORAL_ARCHIVE={}",
        folder.join(ARCHIVE).display()
    );
}

/// A folder named by the caller is taken as it is: `rt` would not write there.
fn given_folder(folder: PathBuf) -> PathBuf {
    // The linker runs in another folder than this script may suggest.
    let folder = folder.canonicalize().unwrap_or(folder);
    if !folder.join(ARCHIVE).is_file() {
        fail(&format!(
            "{FOLDER_VARIABLE} is {}, and there is no {ARCHIVE} in it",
            folder.display()
        ));
    }
    folder
}

/// The folder `rt lib` writes to, filled by running it when the archive is not there yet.
fn repository_folder() -> PathBuf {
    let manifest = env::var_os("CARGO_MANIFEST_DIR").expect("cargo sets CARGO_MANIFEST_DIR");
    let crate_folder = Path::new(&manifest)
        .parent()
        .expect("the package lies in the repository")
        .join("crates")
        .join("capi");
    let folder = crate_folder.join("out");
    if !folder.join(ARCHIVE).is_file() {
        build_archive(&crate_folder);
        if !folder.join(ARCHIVE).is_file() {
            fail(&format!(
                "`rt lib` ended well, but there is no {ARCHIVE} in {} after it",
                folder.display()
            ));
        }
    }
    folder
}

fn build_archive(crate_folder: &Path) {
    let at = crate_folder.display();
    match Command::new("rt")
        .arg("lib")
        .current_dir(crate_folder)
        .output()
    {
        Err(error) if error.kind() == ErrorKind::NotFound => fail(&format!(
            "there is no {ARCHIVE} in {at}/out, and `rt`, which would build it, is not on the path.\n\
             Put the Rattle toolchain on the path, or build the archive elsewhere with `rt lib` \
             in crates/capi and set {FOLDER_VARIABLE} to its folder."
        )),
        Err(error) => fail(&format!("cannot run `rt lib` in {at}: {error}")),
        Ok(output) if !output.status.success() => fail(&format!(
            "`rt lib` in {at} failed ({}):\n{}{}",
            output.status,
            String::from_utf8_lossy(&output.stdout),
            String::from_utf8_lossy(&output.stderr)
        )),
        Ok(_) => {}
    }
}

fn fail(message: &str) -> ! {
    eprintln!("tillercoral: {message}");
    std::process::exit(1)
}
