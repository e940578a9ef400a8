//! Links target/staticlib/librefal5.a, or the archive in the folder that REFAL5_STATICLIB names.

use std::env;
use std::path::{Path, PathBuf};

fn main() {
    println!("cargo::rustc-check-cfg=cfg(library)");
    println!("cargo::rerun-if-env-changed=REFAL5_STATICLIB");
    let folder = match env::var_os("REFAL5_STATICLIB") {
        Some(name) if !name.is_empty() => PathBuf::from(name),
        _ => {
            let here = env::var_os("CARGO_MANIFEST_DIR").expect("cargo sets CARGO_MANIFEST_DIR");
            Path::new(&here).join("../target/staticlib")
        }
    };
    let archive = folder.join("librefal5.a");
    println!("cargo::rerun-if-changed={}", archive.display());
    if archive.is_file() {
        println!("cargo::rustc-cfg=library");
        println!("cargo::rustc-link-search=native={}", folder.display());
        println!("cargo::rustc-link-lib=static=refal5");
    } else {
        println!("cargo::warning=librefal5.a is absent: run `tools/staticlib` first");
    }
}
