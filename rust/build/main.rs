//! Links librefal5.a: the one in the folder that REFAL5_STATICLIB names, and otherwise target/staticlib/librefal5.a of the
//! repository, which `tools/staticlib` makes anew where it was not made from the sources as they are now.

mod library;
mod sources;
mod terminal;

use std::env;
use std::path::{Path, PathBuf};

fn main() {
    println!("cargo::rerun-if-env-changed=REFAL5_STATICLIB");
    println!("cargo::rerun-if-changed=build");
    let folder = match env::var_os("REFAL5_STATICLIB") {
        Some(name) if !name.is_empty() => named(name.into()),
        _ => library::current(&repository()),
    };
    println!("cargo::rustc-link-search=native={}", folder.display());
    println!("cargo::rustc-link-lib=static=refal5");
    note_the_original();
}

/// The folder that the variable names.
fn named(folder: PathBuf) -> PathBuf {
    let archive = folder.join(library::ARCHIVE);
    assert!(archive.is_file(), "{} is absent", archive.display());
    println!("cargo::rerun-if-changed={}", archive.display());
    folder
}

/// Sets `original` for the tests where the oracle finds the original's files too: in the folder that REFAL5_ORIGINAL names,
/// and otherwise in ../shared/docs/src beside the repository. A file that is absent is not named to cargo, which would run
/// this script at each build.
fn note_the_original() {
    println!("cargo::rustc-check-cfg=cfg(original)");
    println!("cargo::rerun-if-env-changed=REFAL5_ORIGINAL");
    let folder = match env::var_os("REFAL5_ORIGINAL") {
        Some(name) if !name.is_empty() => PathBuf::from(name),
        _ => repository().join("../shared/docs/src"),
    };
    let lexer = folder.join("crates/refal-syntax/src/lexer.rs");
    if lexer.is_file() {
        println!("cargo::rerun-if-changed={}", lexer.display());
        println!("cargo::rustc-cfg=original");
    }
}

fn repository() -> PathBuf {
    let here = env::var_os("CARGO_MANIFEST_DIR").expect("cargo sets CARGO_MANIFEST_DIR");
    let repository = Path::new(&here).parent();
    repository.expect("rust/ stands in the repository").into()
}
