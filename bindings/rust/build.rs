//! Finds the static library: in the folder that ELEMENT_LIBRARY names, or where `make library` puts it.
//!
//! Where it is missing, a warning says what to do: `cargo check` and `cargo doc` go on without it, a build stops.
use std::env;
use std::path::{Path, PathBuf};

const VARIABLE: &str = "ELEMENT_LIBRARY";
const ARCHIVE: &str = "libfirmware.a";

fn main() {
    let folder = library_folder();
    println!("cargo:rerun-if-env-changed={VARIABLE}");
    println!("cargo:rerun-if-changed={}", folder.join(ARCHIVE).display());
    println!("cargo:rustc-link-search=native={}", folder.display());
    println!("cargo:rustc-link-lib=static=firmware");
    if let Some(wrong) = what_is_wrong(&folder) {
        println!("cargo:warning={wrong}");
    }
}

fn library_folder() -> PathBuf {
    match env::var_os(VARIABLE) {
        Some(folder) => PathBuf::from(folder),
        None => repository().join("target/staticlib"),
    }
}

/// The folder above bindings/rust.
fn repository() -> &'static Path {
    let package = Path::new(env!("CARGO_MANIFEST_DIR"));
    package.ancestors().nth(2).unwrap_or(package)
}

fn what_is_wrong(folder: &Path) -> Option<String> {
    let shown = folder.display();
    if folder.is_relative() {
        return Some(format!(
            "{VARIABLE} is \"{shown}\": expected the absolute path of the folder that holds {ARCHIVE}"
        ));
    }
    if folder.join(ARCHIVE).is_file() {
        return None;
    }
    Some(format!(
        "{shown}/{ARCHIVE} is not there: run `make library` in {}, or set {VARIABLE} to the absolute path of the folder that holds {ARCHIVE}",
        repository().display()
    ))
}
