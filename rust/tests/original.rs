//! The crate's types hold what the original's do, on sources made at random: both print the same, but for what the crate
//! adds and for sources in which parsing meets a left-off `;`.

#![cfg(original)]

use std::fs;
use std::path::Path;

use oracle::generate::{Rng, delivery, sources};
use oracle::reference::read::signed_exponent;
use oracle::reference::{parse, read};
use oracle::{ast, lexer, messages, parser};

const SEED: u64 = 6;
const SOURCES: usize = 20_000;

/// Holds the tokens, or the error's place and number, against the original's; gives both lists. A source with a sign after a number's `E` is not held.
fn tokens(source: &str) -> Option<(Vec<lexer::Token>, Vec<refal5::lexer::Token>)> {
    if signed_exponent(source.as_bytes()).is_some() {
        return None;
    }
    let theirs = lexer::Lexer::new(source).tokenize();
    let ours = refal5::lexer::Lexer::new(source).tokenize();
    match (theirs, ours) {
        (Ok(theirs), Ok(ours)) => {
            assert_eq!(format!("{ours:?}"), format!("{theirs:?}"), "{source:?}");
            Some((theirs, ours))
        }
        (Err(theirs), Err(ours)) => {
            assert_eq!(
                format!("{:?}", ours.span),
                format!("{:?}", theirs.span),
                "{source:?}"
            );
            assert_eq!(
                Some(ours.refusal.number),
                messages::reading(&theirs.message),
                "{source:?}"
            );
            None
        }
        (theirs, ours) => panic!("{source:?}: {theirs:?}, {ours:?}"),
    }
}

/// Token rows whose spans hold their indices, so that a refusal's span says where parsing stops.
fn indexed(source: &str) -> Vec<[u32; 6]> {
    let mut rows = read::tokens(source.as_bytes()).expect("it is read");
    for (index, row) in (0..).zip(&mut rows) {
        row[4..].fill(index);
    }
    rows
}

/// Holds the program, or the error, of a call and of the calls after it against the original's, up to a call in which
/// parsing meets a left-off `;`, which the original wants.
fn programs(source: &str) {
    let Some((theirs, ours)) = tokens(source) else {
        return;
    };
    let rows = indexed(source);
    let mut at = 0;
    let mut theirs = parser::Parser::new(theirs);
    let mut ours = refal5::parser::Parser::new(ours);
    for _ in 0..3 {
        let rest = rows[at..].concat();
        if parse::first_left_off(&rest).is_some() {
            return;
        }
        at = parse::tree(&rest).map_or_else(|refusal| refusal.start as usize, |_| rows.len() - 1);
        match (theirs.parse_program(), ours.parse_program()) {
            // The depth limit is added.
            (_, Err(ours)) if ours.refusal.number == 37 => return,
            (Ok(theirs), Ok(ours)) => {
                let ours = format!("{ours:?}").replace(", left_off: false", "");
                assert_eq!(ours, format!("{theirs:?}"), "{source:?}");
            }
            (Err(theirs), Err(ours)) => {
                assert_eq!(
                    format!("{:?}", ours.span),
                    format!("{:?}", theirs.span),
                    "{source:?}"
                );
                let refusal = ours.refusal;
                let fields = (refusal.number, refusal.expected, refusal.found);
                assert_eq!(
                    Some(fields),
                    messages::parsing(&theirs.message),
                    "{source:?}"
                );
            }
            (theirs, ours) => panic!("{source:?}: {theirs:?}, {ours:?}"),
        }
    }
}

#[test]
fn small_sources() {
    let mut rng = Rng::new(SEED);
    for _ in 0..SOURCES {
        if let Ok(source) = String::from_utf8(sources::any(&mut rng)) {
            programs(&source);
        }
    }
}

#[test]
fn golden_sources() {
    let golden = Path::new(env!("CARGO_MANIFEST_DIR")).join("tests/golden");
    let mut count = 0;
    for folder in ["accepted", "refused", "fixed"] {
        for entry in fs::read_dir(golden.join(folder)).expect("the golden files are there") {
            let path = entry.expect("the folder can be listed").path();
            if path.extension().is_some_and(|extension| extension == "ref") {
                // The one that is not UTF-8 is not for the original.
                if let Ok(source) = fs::read_to_string(path) {
                    programs(&source);
                    count += 1;
                }
            }
        }
    }
    assert!(count > 100);
}

#[test]
fn a_delivery() {
    programs(&delivery::delivery(SEED, 1 << 18));
}

#[test]
fn names() {
    let mut rng = Rng::new(SEED);
    let mut last = String::new();
    for _ in 0..SOURCES {
        let Ok(name) = String::from_utf8(sources::any(&mut rng)) else {
            continue;
        };
        let folded = ast::canonical_identifier(&name);
        assert_eq!(refal5::canonical_identifier(&name), folded);
        assert_eq!(
            refal5::canonical_variable_index(&name),
            ast::canonical_variable_index(&name)
        );
        for other in [&last, &folded] {
            assert_eq!(
                refal5::identifiers_equal(&name, other),
                ast::identifiers_equal(&name, other)
            );
        }
        last = name;
    }
    assert_eq!(refal5::PROGRAM_ENTRY_POINT, ast::PROGRAM_ENTRY_POINT);
}
