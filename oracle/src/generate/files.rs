//! Files for linking: few names, spelled in several ways, defined, declared and called at every level.

use super::{Rng, trees};

/// Three names, each spelled in ways that are equal, and one that equals none of them.
const NAMES: [&[&str]; 4] = [
    &["Sort-it", "Sort_it", "SORT-IT", "SoRt_IT"],
    &["F", "F"],
    &["F-", "F_"],
    &["Prout", "PROUT", "ProuT"],
];

/// Variables, of which some are equal.
const VARIABLES: [&str; 8] = ["s.1", "s1", "t.1", "e.a", "e.A", "e.a-b", "e.a_b", "e.A_B"];

/// A source of that many items at most.
pub fn source(rng: &mut Rng, items: usize) -> String {
    let mut text = String::new();
    for _ in 0..rng.within(0, items) {
        if rng.once_in(3) {
            text.push_str("$EXTRN ");
            text.push_str(name(rng));
            while rng.once_in(2) {
                text.push(',');
                text.push_str(name(rng));
            }
            text.push_str("; ");
        } else {
            text.push_str(name(rng));
            text.push('{');
            for _ in 0..rng.within(0, 2) {
                sentence(rng, 2, &mut text);
            }
            text.push_str("} ");
        }
    }
    text
}

/// One of the names in one of its spellings.
fn name(rng: &mut Rng) -> &'static str {
    let spellings = NAMES[rng.below(NAMES.len())];
    spellings[rng.below(spellings.len())]
}

fn sentence(rng: &mut Rng, deep: usize, text: &mut String) {
    for _ in 0..rng.within(0, 6) {
        variable(rng, text);
    }
    terms(rng, deep, text);
    if rng.once_in(3) {
        text.push(',');
        terms(rng, deep, text);
        text.push(':');
        block_or_terms(rng, deep, text);
    }
    text.push('=');
    if deep > 0 && rng.once_in(3) {
        text.push(',');
        terms(rng, deep, text);
        text.push(':');
        block(rng, deep, text);
    } else {
        terms(rng, deep, text);
    }
    text.push(';');
}

fn variable(rng: &mut Rng, text: &mut String) {
    text.push_str(VARIABLES[rng.below(VARIABLES.len())]);
    text.push(' ');
}

fn block_or_terms(rng: &mut Rng, deep: usize, text: &mut String) {
    if deep > 0 && rng.once_in(2) {
        block(rng, deep, text);
    } else {
        terms(rng, deep, text);
    }
}

fn block(rng: &mut Rng, deep: usize, text: &mut String) {
    text.push('{');
    for _ in 0..rng.within(0, 2) {
        sentence(rng, deep - 1, text);
    }
    text.push('}');
}

fn terms(rng: &mut Rng, deep: usize, text: &mut String) {
    for _ in 0..rng.within(0, 2) {
        match rng.below(5) {
            0 if deep > 0 => {
                text.push('(');
                terms(rng, deep - 1, text);
                text.push(')');
            }
            1 | 2 if deep > 0 => {
                text.push('<');
                text.push_str(name(rng));
                text.push(' ');
                terms(rng, deep - 1, text);
                text.push('>');
            }
            3 => variable(rng, text),
            _ => text.push_str("Lost "),
        }
    }
}

/// A tree with its source, at times damaged.
pub fn any(rng: &mut Rng, items: usize) -> (Vec<u32>, Vec<u8>) {
    let src = source(rng, items).into_bytes();
    let (rows, src) = trees::of_source(src);
    if rng.once_in(8) {
        (trees::damaged(rng, &rows), src)
    } else {
        (trees::flat(&rows), src)
    }
}

/// A file that resolves every call of the names above.
pub fn declarations() -> (Vec<u32>, Vec<u8>) {
    let src = "$EXTRN Sort_it,F;$EXTERN F-,PROUT,Sort-it;";
    let (rows, src) = trees::of_source(src.as_bytes().to_vec());
    (trees::flat(&rows), src)
}
