//! Which files the build script holds the library against, and that their sum tells when one has changed.

#[path = "../build/sources.rs"]
#[allow(dead_code)]
mod sources;

use std::fs;
use std::path::{Path, PathBuf};

/// A repository of three crates, of which the last does not belong to the library.
fn repository() -> PathBuf {
    let folder = Path::new(env!("CARGO_TARGET_TMPDIR")).join("sources");
    // It is absent at the first run.
    let _ = fs::remove_dir_all(&folder);
    for (name, part) in [
        ("refal5", "src"),
        ("low", "src"),
        ("low", "proofs"),
        ("other", "src"),
    ] {
        let path = folder.join("crates").join(name).join(part);
        fs::create_dir_all(&path).expect("the target folder is writable");
        fs::write(path.join("lib.rt"), "fn f() {}\n").expect("the target folder is writable");
    }
    let list = "# a line for each crate\nlow:\nother: low\nrefal5: low io # and the kit's io\n";
    fs::write(folder.join("crates.txt"), list).expect("the target folder is writable");
    folder
}

#[test]
fn the_library_follows_its_crates() {
    let folder = repository();
    let crates = sources::crates(&folder, "refal5");
    assert_eq!(crates, ["low", "refal5"]);
    let folders = sources::folders(&folder, &crates);
    let named = ["low/src", "low/proofs", "refal5/src"];
    assert_eq!(
        folders,
        named.map(|name| folder.join("crates").join(name)),
        "folders that are absent are not named"
    );
    let sum = || sources::sum(&folder, &folders);
    let first = sum();
    // A file that is saved anew with the same text changes nothing; nor does a crate that is not needed.
    fs::write(folder.join("crates/low/src/lib.rt"), "fn f() {}\n").unwrap();
    fs::write(folder.join("crates/other/src/lib.rt"), "fn g() {}\n").unwrap();
    assert_eq!(sum(), first);
    for (file, text) in [
        ("crates/low/proofs/lib.rt", "fn f() { }\n"),
        ("crates/refal5/src/more.rt", ""),
        ("crates.txt", "low:\nrefal5: low\n"),
    ] {
        let before = sum();
        fs::write(folder.join(file), text).unwrap();
        assert_ne!(sum(), before, "{file}");
    }
    fs::remove_file(folder.join("crates/refal5/src/more.rt")).unwrap();
    assert_ne!(sum(), first);
}

#[test]
fn the_repositorys_own_crates() {
    let repository = Path::new(env!("CARGO_MANIFEST_DIR")).join("..");
    let crates = sources::crates(&repository, "refal5");
    assert_eq!(crates.last().map(String::as_str), Some("refal5"));
    for name in ["refal_lexer", "refal_parser", "refal_writer"] {
        assert!(crates.iter().any(|known| known == name), "{name}");
    }
    for name in ["vectors", "refal_demands"] {
        assert!(!crates.iter().any(|known| known == name), "{name}");
    }
}
