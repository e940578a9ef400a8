//! The fixed lists of tests/vectors: how they are made, written and read back.

pub mod format;
pub mod linking;
pub mod names;
pub mod parsing;
pub mod reading;
pub mod reals;
pub mod sample;
pub mod writing;

use crate::cases::{Case, Reference, original_agrees, run};

/// The seed of every list.
pub const SEED: u64 = 20_250_701;

/// A list: its file's name and its cases.
pub struct List {
    pub file: &'static str,
    pub title: &'static str,
    pub cases: fn() -> Vec<Case>,
}

pub const LISTS: [List; 6] = [
    List {
        file: "names.txt",
        title: "canonical names, canonical indices, equality of names",
        cases: names::cases,
    },
    List {
        file: "read.txt",
        title: "reading: bytes to token rows",
        cases: reading::cases,
    },
    List {
        file: "parse.txt",
        title: "parsing: token rows to node rows",
        cases: parsing::cases,
    },
    List {
        file: "write.txt",
        title: "writing: node rows and source to text",
        cases: writing::cases,
    },
    List {
        file: "link.txt",
        title: "linking: two files' node rows and sources to a number of calls",
        cases: linking::cases,
    },
    List {
        file: "real.txt",
        title: "reals: texts to normal forms, and pairs of texts of one value",
        cases: reals::cases,
    },
];

/// The file's contents: each case with the reference's outcome, which the original confirms where
/// it can be asked.
pub fn text(list: &List) -> String {
    let mut text = format!(
        "# {}\n# made by: cargo run --release -p oracle -- lists tests/vectors (seed {SEED})\n",
        list.title
    );
    for case in (list.cases)() {
        let outcome = run(&case, &Reference);
        assert!(
            original_agrees(&case, &outcome),
            "the original and the reference differ: {case:?}"
        );
        text.push_str(&format::line(&case, &outcome));
        text.push('\n');
    }
    text
}
