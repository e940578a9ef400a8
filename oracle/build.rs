//! Finds the three original files and writes the module that includes them unchanged.
//!
//! They are looked for in the folder that REFAL5_ORIGINAL names, and otherwise in
//! ../shared/docs/src beside the repository. Where they are absent the crate builds without them.

use std::env;
use std::fs;
use std::path::{Path, PathBuf};

const AST: &str = "crates/refal-ast/src/lib.rs";
const LEXER: &str = "crates/refal-syntax/src/lexer.rs";
const PARSER: &str = "crates/refal-syntax/src/parser.rs";

fn main() {
    println!("cargo::rustc-check-cfg=cfg(original)");
    println!("cargo::rerun-if-env-changed=REFAL5_ORIGINAL");
    let folder = folder();
    // A file that is absent is not named: cargo would run this script at each build.
    println!("cargo::rerun-if-changed=build.rs");
    for file in [AST, LEXER, PARSER].map(|file| folder.join(file)) {
        if file.is_file() {
            println!("cargo::rerun-if-changed={}", file.display());
        }
    }
    let out = PathBuf::from(env::var_os("OUT_DIR").expect("cargo sets OUT_DIR"));
    if [AST, LEXER, PARSER]
        .iter()
        .all(|file| folder.join(file).is_file())
    {
        println!("cargo::rustc-cfg=original");
        let folder = folder.canonicalize().expect("the folder is there");
        fs::write(out.join("original.rs"), modules(&folder)).expect("OUT_DIR is writable");
    } else if env::var_os("REFAL5_ORIGINAL").is_some_and(|name| !name.is_empty()) {
        println!(
            "cargo::warning=REFAL5_ORIGINAL does not hold the original files: built without them"
        );
    }
}

fn folder() -> PathBuf {
    match env::var_os("REFAL5_ORIGINAL") {
        Some(name) if !name.is_empty() => PathBuf::from(name),
        _ => {
            let here = env::var_os("CARGO_MANIFEST_DIR").expect("cargo sets CARGO_MANIFEST_DIR");
            Path::new(&here).join("../../shared/docs/src")
        }
    }
}

/// `parser.rs` names `crate::lexer` and `refal_ast`, so the modules stand at the crate's root and
/// the crate is its own `refal_ast`.
fn modules(folder: &Path) -> String {
    let module = |name: &str, file: &str| {
        format!(
            "#[allow(dead_code, clippy::all)]\n#[path = {:?}]\npub mod {name};\n",
            folder.join(file)
        )
    };
    format!(
        "extern crate self as refal_ast;\n{}{}{}use ast::*;\n",
        module("ast", AST),
        module("lexer", LEXER),
        module("parser", PARSER)
    )
}
