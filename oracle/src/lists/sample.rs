//! A sample of the lists as the program crates/vectors takes and writes it.

use super::{LISTS, parsing, writing};
use crate::cases::{Case, Outcome, Reference, run};
use crate::generate::trees;
use crate::reference::{parse, read, write};
use crate::terms::NODE_WIDTH;

/// Bytes of a record.
const RECORD: usize = 64;
/// What stands before the input in a record, and the newline after it.
const AROUND: usize = 6;
/// Two digits hold this much.
const MOST_LENT: usize = 99;
/// Bytes of the block that holds a tree, behind its record, and the most words that fit.
const BLOCK: usize = 320;
const MOST_WORDS: usize = 79;

/// Standard input and standard output of the program.
pub fn sample() -> (Vec<u8>, String) {
    let mut input = Vec::new();
    let mut output = String::new();
    let mut put = |lines: Vec<(Vec<u8>, String)>| {
        let step = (lines.len() / 100).max(1);
        for (record, expected) in lines.iter().step_by(step) {
            input.extend(record);
            output.push_str(expected);
        }
    };
    for list in &LISTS {
        let cases = (list.cases)();
        put(cases
            .iter()
            .filter_map(|case| Some((record(case)?, expected(case))))
            .collect());
    }
    put(parsed());
    put(written());
    for number in [0, 40, 41, 42] {
        let mut cases = writing::cases();
        cases.retain(|case| refused(case) == number);
        put(trees(&cases));
    }
    put(trees(&left_off()));
    (input, output)
}

/// The trees of calls of writing that are small enough.
fn trees(cases: &[Case]) -> Vec<(Vec<u8>, String)> {
    let mut lines = Vec::new();
    for case in cases {
        let Case::Write { tree, src, lent } = case else {
            continue;
        };
        if let (Some(record), Some(block)) = (line(b't', src, *lent), block(tree)) {
            lines.push(([record, block].concat(), expected(case)));
        }
    }
    lines
}

/// Trees with sentences of every detail, all of them, with room for the text.
fn left_off() -> Vec<Case> {
    let trees = writing::left_off().into_iter();
    let lent = 30;
    trees
        .map(|(tree, src)| Case::Write { tree, src, lent })
        .collect()
}

/// The number of the case's refusal; 0 for none.
fn refused(case: &Case) -> u64 {
    run(case, &Reference).number()
}

/// A tree's words as they stand behind its record, if it is small enough.
fn block(tree: &[u32]) -> Option<Vec<u8>> {
    if tree.len() > MOST_WORDS {
        return None;
    }
    let mut block = format!("{:02}", tree.len()).into_bytes();
    block.extend(tree.iter().flat_map(|word| word.to_be_bytes()));
    block.resize(BLOCK - 1, b'.');
    block.push(b'\n');
    Some(block)
}

/// Sources that are read, parsed and then written.
fn written() -> Vec<(Vec<u8>, String)> {
    let mut lines = Vec::new();
    for src in writing::SOURCES {
        let src = src.as_bytes().to_vec();
        let (rows, src) = trees::of_source(src);
        let tree = trees::flat(&rows);
        let exact = write::text(&tree, &src).map_or(0, |text| text.len());
        for lent in [exact, exact + 3, exact.saturating_sub(1), 0] {
            if let Some(record) = line(b'w', &src, lent) {
                let (tree, src) = (tree.clone(), src.clone());
                lines.push((record, expected(&Case::Write { tree, src, lent })));
            }
        }
    }
    lines
}

/// Sources that are read and then parsed, since a record has no room for tokens' rows.
fn parsed() -> Vec<(Vec<u8>, String)> {
    let mut lines = Vec::new();
    for src in parsing::texts() {
        let Ok(tokens) = read::tokens(src.as_bytes()) else {
            continue;
        };
        let tokens = tokens.concat();
        let exact = parse::tree(&tokens).map_or(NODE_WIDTH, |rows| NODE_WIDTH * rows.len());
        for lent in [exact, exact + 1, exact.saturating_sub(1)] {
            let tokens = tokens.clone();
            if let Some(record) = line(b'p', src.as_bytes(), lent) {
                lines.push((record, expected(&Case::Parse { tokens, lent })));
            }
        }
    }
    lines
}

/// The case as a record, if its input is bytes and it is short enough.
fn record(case: &Case) -> Option<Vec<u8>> {
    match case {
        Case::Name { name, lent } => line(b'n', name, *lent),
        Case::Index { name, lent } => line(b'i', name, *lent),
        Case::Equal { a, b } => line(b'e', &[&a[..], b].concat(), a.len()),
        Case::Read { src, lent } => line(b'r', src, *lent),
        Case::Parse { .. } | Case::Write { .. } | Case::Link { .. } => None,
        Case::Real { .. } | Case::Reals { .. } => None,
    }
}

fn line(letter: u8, bytes: &[u8], lent: usize) -> Option<Vec<u8>> {
    if bytes.len() + AROUND > RECORD || lent > MOST_LENT {
        return None;
    }
    let mut record = vec![letter];
    record.extend(format!("{:02}{lent:02}", bytes.len()).bytes());
    record.extend(bytes);
    record.resize(RECORD - 1, b'.');
    record.push(b'\n');
    Some(record)
}

/// What the program writes for the case.
fn expected(case: &Case) -> String {
    let text = |answer: &[u64; 7], out: String| {
        let words: String = answer.iter().map(|word| format!("{word} ")).collect();
        format!("{words}{out}\n")
    };
    match run(case, &Reference) {
        Outcome::Truth(truth) => format!("{}\n", u8::from(truth)),
        Outcome::Bytes(answer, out) => text(
            &answer,
            out.iter().map(|byte| format!("{byte:02x}")).collect(),
        ),
        Outcome::Words(answer, out) => text(
            &answer,
            out.iter().map(|word| format!("{word:x} ")).collect(),
        ),
        Outcome::Form(answer, form, out) => {
            let form: String = form.iter().map(|word| format!("{word} ")).collect();
            let digits: String = out.iter().map(|byte| format!("{byte:02x}")).collect();
            text(&answer, form + &digits)
        }
    }
}
