//! Writing: trees of every kind of node, each word of each row changed, rows dropped, doubled and
//! swapped, semicolons left off, texts that are no spellings, outputs shorter, exact and longer.

use super::{SEED, reading};
use crate::cases::Case;
use crate::generate::nests::{self, Way};
use crate::generate::{Rng, tokens, trees};
use crate::reference::{parse, write};
use crate::terms::{MAX_DEPTH, NO_PARENT, NODE_WIDTH, NodeRow, node};

pub fn cases() -> Vec<Case> {
    let mut rng = Rng::new(SEED + 2);
    let mut cases = Vec::new();
    for src in SOURCES {
        let (rows, src) = trees::of_source(src.as_bytes().to_vec());
        put_around(&mut cases, trees::flat(&rows), src);
    }
    for small in [
        "$EXTRN Ab,C;",
        "F{A=1;}",
        "F{=;=1}",
        "F{s.ab,('a')<G>:{=}=,B:{};}",
    ] {
        for words in each_word_changed(small) {
            put(&mut cases, &mut rng, words, small.as_bytes().to_vec());
        }
    }
    for (words, src) in spellings() {
        put(&mut cases, &mut rng, words, src);
    }
    for (words, src) in left_off() {
        put(&mut cases, &mut rng, words, src);
    }
    for (words, src) in deep() {
        put(&mut cases, &mut rng, words, src);
    }
    for _ in 0..400 {
        let (words, src) = trees::any(&mut rng);
        if words.len() < 300 {
            put(&mut cases, &mut rng, words, src);
        }
    }
    for src in runs() {
        let (rows, bytes) = trees::of_source(src.as_bytes().to_vec());
        put_around(&mut cases, trees::flat(&rows), bytes);
    }
    for small in ["F{Ab Ab Ab=s.c s.c s.c;}", "F{((<G (A)>))=;}"] {
        let src = format!("{small}{}", " ".repeat(20));
        for words in each_word_changed(&src) {
            put(&mut cases, &mut rng, words, src.clone().into_bytes());
        }
    }
    for src in alone() {
        let (rows, bytes) = trees::of_source(src.as_bytes().to_vec());
        put_around(&mut cases, trees::flat(&rows), bytes);
    }
    for (words, mut src) in spellings() {
        src.extend([b' '; 20]);
        put(&mut cases, &mut rng, words, src);
    }
    let src = format!("F{{1 Ab 22=s.c -1.5;}}{}", " ".repeat(20));
    for words in each_word_changed(&src) {
        put(&mut cases, &mut rng, words, src.clone().into_bytes());
    }
    for text in reading::exponents() {
        let src = format!("F{text}").into_bytes();
        let tree = around(node::NUMBER, 0, (1, text.len() as u32));
        put(&mut cases, &mut rng, tree, src);
    }
    cases
}

/// Numbers of every length up to 17 bytes, and names and variables between them, with bytes of the source behind them and without.
fn alone() -> Vec<String> {
    let mut all = Vec::new();
    for length in 1..=17 {
        let mut numbers = vec![format!("{:0>length$}", "4294967295")];
        if length <= 10 {
            numbers = vec!["4294967295"[..length].to_string()];
        }
        if length >= 3 {
            numbers.push("1.2345678901234567"[..length].to_string());
        }
        if length >= 4 {
            numbers.push(format!("-{}E7", &"12345678901234567"[..length - 3]));
        }
        let name = &"Ab-cD_9xyzKLmn0"[..length.min(15)];
        for number in numbers {
            let text = format!("F{{{number} {name}=s.{name} {number};}}");
            all.push(format!("{text}{}", " ".repeat(20)));
            all.push(text);
        }
    }
    all
}

/// Names and variables of one length after each other, with bytes of the source behind them and without; brackets and calls that hold nothing but one
/// another.
fn runs() -> Vec<String> {
    let mut all = Vec::new();
    for length in 1..=15 {
        let name = &"Ab-cD_9xyzKLmn0"[..length];
        let index = &"a9_B-cdEfghijk1"[..length];
        let text = format!("F{{{name} {name} {name} {name}=s.{index} e.{index} t.{index};}}");
        all.push(format!("{text}{}", " ".repeat(20)));
        all.push(text);
    }
    for inner in ["", "A", "A()", "(A)B"] {
        all.push(format!(
            "F{{(<G ((<Ab {inner}>))>)=<G <Ab-9 (<C {inner}>)>>;}}{}",
            " ".repeat(20)
        ));
    }
    all
}

/// Sources with every kind of node.
pub const SOURCES: [&str; 17] = [
    "",
    "$ENTRY Go{=;}",
    "F{}",
    "$EXTRN A;",
    "$EXTERN A,B-1,C_d;;",
    "F{A,B:{=;}=;}",
    "F{=,A:{=;};}",
    "F{=,:{};}",
    "F{=A}",
    "F{=;=}",
    "F{=,A:{B=;=}}",
    "F{A,:{=}=;B,:{=;C=D}=,:{=}}",
    "F{A,B:C,:{},D:=E;}",
    "F{e.1 s2 tX 'ab''c' 1.5=(A(B)())<G <H>()>;}",
    "$EXTRN A;F{\"'é漢😀\"=;}$ENTRY G{=;=;}",
    "F{+1.5E10 -0.25 0004294967295 = s.abcdefghijklmno Abcdefghijklmno;}",
    "F{1E-5 = -0.25E+03 +1E-5;}",
];

fn put(cases: &mut Vec<Case>, rng: &mut Rng, tree: Vec<u32>, src: Vec<u8>) {
    let exact = write::text(&tree, &src).map_or(rng.below(20), |text| text.len());
    let some = [
        exact,
        exact,
        exact + 1,
        exact + 9,
        exact.saturating_sub(1),
        rng.below(exact + 1),
    ];
    let lent = some[rng.below(some.len())];
    cases.push(Case::Write { tree, src, lent });
}

fn put_around(cases: &mut Vec<Case>, tree: Vec<u32>, src: Vec<u8>) {
    let exact = write::text(&tree, &src).map_or(9, |text| text.len());
    let mut some = vec![
        0,
        exact / 2,
        exact.saturating_sub(1),
        exact,
        exact + 1,
        exact + 9,
    ];
    some.dedup();
    for lent in some {
        cases.push(Case::Write {
            tree: tree.clone(),
            src: src.clone(),
            lent,
        });
    }
}

fn each_word_changed(src: &str) -> Vec<Vec<u32>> {
    let (rows, _) = trees::of_source(src.as_bytes().to_vec());
    let mut all = Vec::new();
    for at in 0..rows.len() {
        for word in 0..NODE_WIDTH {
            let old = rows[at][word];
            let mut values = vec![old.wrapping_add(1), old.wrapping_sub(1), 0, 1, u32::MAX];
            if word == 0 {
                values = (0..=15).collect();
            }
            values.retain(|&value| value != old);
            values.dedup();
            for value in values {
                let mut rows = rows.clone();
                rows[at][word] = value;
                all.push(trees::flat(&rows));
            }
        }
        let mut dropped = rows.clone();
        dropped.remove(at);
        all.push(trees::flat(&dropped));
        let mut doubled = rows.clone();
        doubled.insert(at, rows[at]);
        all.push(trees::flat(&doubled));
        if at + 1 < rows.len() {
            let mut swapped = rows.clone();
            swapped.swap(at, at + 1);
            all.push(trees::flat(&swapped));
        }
    }
    let words = trees::flat(&rows);
    for cut in 1..=NODE_WIDTH {
        all.push(words[..words.len() - cut].to_vec());
        all.push([&words[..], &vec![0; cut][..]].concat());
    }
    all
}

/// Sentences of every detail: one to three in a function, a condition's block and an ending block, of
/// which all are 0 or 1, or one is 2 or more.
pub fn left_off() -> Vec<(Vec<u32>, Vec<u8>)> {
    let mut all = Vec::new();
    for count in 1..=3 {
        let mut details: Vec<Vec<u32>> = (0..1 << count)
            .map(|bits: u32| (0..count).map(|place| bits >> place & 1).collect())
            .collect();
        for (place, other) in (0..count).zip([2, 3, u32::MAX]) {
            let mut some = vec![0; count];
            some[place] = other;
            details.push(some);
        }
        let sentences = "=;".repeat(count);
        for (src, first) in [
            (format!("F{{{sentences}}}"), 1),
            (format!("F{{=,:{{{sentences}}};}}"), 5),
            (format!("F{{,:{{{sentences}}}=;}}"), 6),
        ] {
            let (rows, src) = trees::of_source(src.into_bytes());
            for details in &details {
                let mut rows = rows.clone();
                for (place, &detail) in details.iter().enumerate() {
                    assert_eq!(rows[first + 3 * place][0], node::SENTENCE);
                    rows[first + 3 * place][1] = detail;
                }
                all.push((trees::flat(&rows), src.clone()));
            }
        }
    }
    all
}

/// A function of one sentence whose result is one term of the kind, and the term's text.
fn around(kind: u32, detail: u32, text: (u32, u32)) -> Vec<u32> {
    let rows: [NodeRow; 5] = [
        [node::FUNCTION, 0, 0, 1, 0, 0, 5, NO_PARENT],
        [node::SENTENCE, 0, 0, 0, 0, 0, 5, 0],
        [node::TERMS, 0, 0, 0, 0, 0, 3, 1],
        [node::TERMS, 0, 0, 0, 0, 0, 5, 1],
        [kind, detail, text.0, text.1, 0, 0, 5, 3],
    ];
    trees::flat(&rows)
}

/// Texts that are spellings and that are none, for each kind that has a text; characters.
fn spellings() -> Vec<(Vec<u32>, Vec<u8>)> {
    let texts = [
        "",
        "A",
        "a",
        "Z9",
        "9",
        "_",
        "-",
        "A-",
        "A_b",
        "-A",
        "_A",
        "A.",
        "A b",
        "s",
        "s1",
        "é",
        "Aé",
        "Abcdefghijklmno",
        "Abcdefghijklmnop",
        "abcdefghijklmno",
        "abcdefghijklmnop",
        "0",
        "00",
        "4294967295",
        "4294967296",
        "0004294967295",
        "0004294967296",
        "42949672950",
        "00000000000000000000000000000000",
        "1.",
        ".5",
        "1.5",
        "1.5E",
        "1.5E5",
        "1E5",
        "1E",
        "1E5.2",
        "1e5",
        "+1",
        "-1",
        "+1.5",
        "-1E5",
        "+",
        "-",
        "+.5",
        "+-1",
        "1E+5",
        "1E-5",
        "4294967296.0",
        "99999999999E9",
        "1.5 ",
        " 1",
        "1A",
        "'a'",
        "$ENTRY",
    ];
    let mut all = Vec::new();
    for text in texts {
        let src = format!("F{text}").into_bytes();
        let place = (1, text.len() as u32);
        for (kind, detail) in [
            (node::IDENTIFIER, 0),
            (node::NUMBER, 0),
            (node::VARIABLE, u32::from(b's')),
            (node::CALL, 0),
        ] {
            all.push((around(kind, detail, place), src.clone()));
        }
        let declaration = [
            [node::DECLARATION, 0, 0, 0, 0, 0, 2, NO_PARENT],
            [node::NAME, 0, 1, place.1, 0, 0, 2, 0],
        ];
        all.push((trees::flat(&declaration), src.clone()));
        let function = [[node::FUNCTION, 1, 1, place.1, 0, 0, 1, NO_PARENT]];
        all.push((trees::flat(&function), src));
    }
    for (start, length) in [
        (0, 2),
        (1, 1),
        (2, 0),
        (2, 1),
        (u32::MAX, 1),
        (1, u32::MAX),
        (u32::MAX, u32::MAX),
    ] {
        all.push((around(node::IDENTIFIER, 0, (start, length)), b"FA".to_vec()));
    }
    // Ill-formed bytes in the source do not matter outside the texts.
    all.push((around(node::IDENTIFIER, 0, (1, 1)), b"FA\xff".to_vec()));
    all.push((around(node::IDENTIFIER, 0, (1, 2)), b"FA\xff".to_vec()));
    for value in [
        0,
        9,
        10,
        13,
        32,
        34,
        38,
        39,
        40,
        0x7f,
        0x80,
        0x7ff,
        0x800,
        0xd7ff,
        0xd800,
        0xdbff,
        0xdc00,
        0xdfff,
        0xe000,
        0xffff,
        0x1_0000,
        0x10_ffff,
        0x11_0000,
        u32::MAX,
    ] {
        all.push((around(node::CHAR, value, (0, 0)), b"F".to_vec()));
    }
    for letter in 0..=255 {
        let good = b"ste".contains(&letter);
        if good || letter % 16 == 3 {
            let words = around(node::VARIABLE, u32::from(letter), (0, 1));
            all.push((words, b"F".to_vec()));
        }
    }
    all
}

/// Trees of depth 64 and 65.
fn deep() -> Vec<(Vec<u32>, Vec<u8>)> {
    let mut nests: Vec<Vec<Way>> = Vec::new();
    for depth in [MAX_DEPTH, MAX_DEPTH + 1] {
        nests.extend(nests::WAYS.map(|way| vec![way; depth]));
        nests.push([vec![Way::Ending; depth - 1], vec![Way::Call]].concat());
        nests.push([vec![Way::Condition; depth - 1], vec![Way::Ending]].concat());
        // An argument stands beside its block, not inside.
        nests.push([vec![Way::Bracket; depth], vec![Way::Ending]].concat());
        nests.push([vec![Way::Call; depth], vec![Way::Condition]].concat());
    }
    nests
        .iter()
        .map(|ways| {
            let src = nests::nested(ways).0.into_bytes();
            let tokens = tokens::flat(&tokens::of_source(&src));
            let rows = parse::tree_to_depth(&tokens, MAX_DEPTH + 1).expect("a lawful tree");
            (trees::flat(&rows), src)
        })
        .collect()
}
