//! A case and its outcome as one line of text.
//!
//! Fields are parted by one space. Bytes are two hexadecimal digits each, words are hexadecimal
//! numbers parted by commas, none of either is `-`. The answer is its seven words. What follows it
//! is only what was put down: the rest of the lent output stays as it was before the call (each
//! byte a5), or is 0 after a refusal.

use crate::cases::{Case, FILL, FILL_WORD, Outcome};
use crate::terms::{Answer, NODE_WIDTH};

pub fn line(case: &Case, outcome: &Outcome) -> String {
    let input = match case {
        Case::Name { name, lent } => format!("name {} {lent:x}", bytes(name)),
        Case::Index { name, lent } => format!("index {} {lent:x}", bytes(name)),
        Case::Equal { a, b } => format!("equal {} {}", bytes(a), bytes(b)),
        Case::Read { src, lent } => format!("read {} {lent:x}", bytes(src)),
        Case::Parse { tokens, lent } => format!("parse {} {lent:x}", words(tokens)),
        Case::Write { tree, src, lent } => {
            format!("write {} {} {lent:x}", words(tree), bytes(src))
        }
        Case::Link {
            tree1,
            src1,
            tree2,
            src2,
            lent,
        } => format!(
            "link {} {} {} {} {lent:x}",
            words(tree1),
            bytes(src1),
            words(tree2),
            bytes(src2)
        ),
        Case::Real { text, lent } => format!("real {} {lent:x}", bytes(text)),
        Case::Reals { a, b } => format!("reals {} {}", bytes(a), bytes(b)),
    };
    let output = match outcome {
        Outcome::Truth(truth) => u8::from(*truth).to_string(),
        Outcome::Bytes(answer, out) => {
            format!("{} {}", words(answer), bytes(&out[..put(case, answer)]))
        }
        // The words lent are 0 after any answer.
        Outcome::Words(answer, _) if matches!(case, Case::Link { .. }) => words(answer),
        Outcome::Words(answer, out) => {
            format!("{} {}", words(answer), words(&out[..put(case, answer)]))
        }
        Outcome::Form(answer, form, out) => {
            let digits = bytes(&out[..put(case, answer)]);
            format!("{} {} {digits}", words(answer), words(form))
        }
    };
    format!("{input} {output}")
}

/// How many words or bytes were put down.
fn put(case: &Case, answer: &Answer) -> usize {
    let width = match case {
        Case::Read { .. } => 6,
        Case::Parse { .. } => NODE_WIDTH,
        _ => 1,
    };
    width * answer[1] as usize
}

fn bytes(bytes: &[u8]) -> String {
    if bytes.is_empty() {
        return "-".to_string();
    }
    bytes.iter().map(|byte| format!("{byte:02x}")).collect()
}

fn words<T: std::fmt::LowerHex>(words: &[T]) -> String {
    if words.is_empty() {
        return "-".to_string();
    }
    let words: Vec<String> = words.iter().map(|word| format!("{word:x}")).collect();
    words.join(",")
}

/// The cases of a list's text with their outcomes; lines that start with `#` are passed over.
pub fn read_back(text: &str) -> Option<Vec<(Case, Outcome)>> {
    text.lines()
        .filter(|line| !line.starts_with('#'))
        .map(case_of)
        .collect()
}

fn case_of(line: &str) -> Option<(Case, Outcome)> {
    let fields: Vec<&str> = line.split(' ').collect();
    Some(match fields[..] {
        ["equal", a, b, truth] => {
            let case = Case::Equal {
                a: bytes_of(a)?,
                b: bytes_of(b)?,
            };
            (case, Outcome::Truth(truth == "1"))
        }
        ["reals", a, b, truth] => {
            let case = Case::Reals {
                a: bytes_of(a)?,
                b: bytes_of(b)?,
            };
            (case, Outcome::Truth(truth == "1"))
        }
        ["real", text, lent, answer, form, out] => {
            let text = bytes_of(text)?;
            let lent = number_of(lent)?;
            let Outcome::Bytes(answer, out) = bytes_outcome(answer, out, lent)? else {
                return None;
            };
            let form = long_words_of(form)?.try_into().ok()?;
            (Case::Real { text, lent }, Outcome::Form(answer, form, out))
        }
        ["name", name, lent, answer, out] => {
            let name = bytes_of(name)?;
            let lent = number_of(lent)?;
            (Case::Name { name, lent }, bytes_outcome(answer, out, lent)?)
        }
        ["index", name, lent, answer, out] => {
            let name = bytes_of(name)?;
            let lent = number_of(lent)?;
            (
                Case::Index { name, lent },
                bytes_outcome(answer, out, lent)?,
            )
        }
        ["read", src, lent, answer, out] => {
            let src = bytes_of(src)?;
            let lent = number_of(lent)?;
            (Case::Read { src, lent }, words_outcome(answer, out, lent)?)
        }
        ["parse", tokens, lent, answer, out] => {
            let tokens = words_of(tokens)?;
            let lent = number_of(lent)?;
            (
                Case::Parse { tokens, lent },
                words_outcome(answer, out, lent)?,
            )
        }
        ["write", tree, src, lent, answer, out] => {
            let tree = words_of(tree)?;
            let src = bytes_of(src)?;
            let lent = number_of(lent)?;
            (
                Case::Write { tree, src, lent },
                bytes_outcome(answer, out, lent)?,
            )
        }
        ["link", tree1, src1, tree2, src2, lent, answer] => {
            let lent = number_of(lent)?;
            let case = Case::Link {
                tree1: words_of(tree1)?,
                src1: bytes_of(src1)?,
                tree2: words_of(tree2)?,
                src2: bytes_of(src2)?,
                lent,
            };
            (case, Outcome::Words(answer_of(answer)?, vec![0; lent]))
        }
        _ => return None,
    })
}

fn number_of(text: &str) -> Option<usize> {
    usize::from_str_radix(text, 16).ok()
}

fn bytes_of(text: &str) -> Option<Vec<u8>> {
    if text == "-" {
        return Some(Vec::new());
    }
    (0..text.len())
        .step_by(2)
        .map(|at| u8::from_str_radix(text.get(at..at + 2)?, 16).ok())
        .collect()
}

fn words_of(text: &str) -> Option<Vec<u32>> {
    if text == "-" {
        return Some(Vec::new());
    }
    text.split(',')
        .map(|word| u32::from_str_radix(word, 16).ok())
        .collect()
}

fn long_words_of(text: &str) -> Option<Vec<u64>> {
    text.split(',')
        .map(|word| u64::from_str_radix(word, 16).ok())
        .collect()
}

fn answer_of(text: &str) -> Option<Answer> {
    long_words_of(text)?.try_into().ok()
}

fn bytes_outcome(answer: &str, out: &str, lent: usize) -> Option<Outcome> {
    let answer = answer_of(answer)?;
    let rest = if answer[0] == 0 { FILL } else { 0 };
    let mut out = bytes_of(out)?;
    out.resize(lent, rest);
    Some(Outcome::Bytes(answer, out))
}

fn words_outcome(answer: &str, out: &str, lent: usize) -> Option<Outcome> {
    let answer = answer_of(answer)?;
    let rest = if answer[0] == 0 { FILL_WORD } else { 0 };
    let mut out = words_of(out)?;
    out.resize(lent, rest);
    Some(Outcome::Words(answer, out))
}
