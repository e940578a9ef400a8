//! Reals: every pair of short ones by their values, and texts of megabytes.

use compare::Library;
use oracle::cases::{Case, Functions, Reference, run};
use oracle::lists::reals::short_reals;
use oracle::reference::real::same_value;
use oracle::terms::MAX_SOURCE;

/// What the library says of a real: the form's words, and the digits.
fn form(text: &[u8]) -> ([u64; 3], Vec<u8>) {
    let mut digits = vec![0; text.len()];
    let mut form = [0; 3];
    let answer = Library.real(text, &mut digits, &mut form);
    assert_eq!(answer[0], 0);
    digits.truncate(answer[1] as usize);
    (form, digits)
}

/// Two reals have one form exactly when they have one value.
#[test]
fn every_pair_of_short_ones() {
    let texts = short_reals(5);
    assert!(texts.len() > 250);
    let forms: Vec<_> = texts.iter().map(|text| form(text)).collect();
    let mut same = 0;
    for (a, of_a) in texts.iter().zip(&forms) {
        for (b, of_b) in texts.iter().zip(&forms) {
            let one = same_value(a, b);
            assert_eq!(one, of_a == of_b, "{a:?} {b:?}");
            same += usize::from(one);
        }
    }
    assert!(same > 2 * texts.len());
}

/// A form written out has itself as its form, whether a plus is written or left out.
#[test]
fn every_short_one_written_out() {
    for text in short_reals(5) {
        let (words, digits) = form(&text);
        let shown = if digits.is_empty() { b"0" } else { &digits[..] };
        for sign in if words[0] == 1 {
            &["-"][..]
        } else {
            &["", "+"]
        } {
            for down in if words[1] == 1 {
                &["-"][..]
            } else {
                &["", "+"]
            } {
                let shown = String::from_utf8_lossy(shown);
                let written = format!("{sign}{shown}E{down}{}", words[2]);
                assert_eq!(
                    form(written.as_bytes()),
                    (words, digits.clone()),
                    "{written}"
                );
            }
        }
    }
}

/// The parts, one after the other, with so many of the middle one that the text has that length.
fn text(front: &str, middle: u8, back: &str, length: usize) -> Vec<u8> {
    let mut text = front.as_bytes().to_vec();
    text.resize(length - back.len(), middle);
    text.extend(back.bytes());
    text
}

/// Not stored: texts as long as a source may be, and one byte more.
#[test]
fn texts_of_megabytes() {
    for length in [3_000_000, MAX_SOURCE, MAX_SOURCE + 1] {
        let texts = [
            text("0.", b'0', "1", length),
            text("-1", b'0', ".0", length),
            text("1.", b'0', "E-999999999", length),
            text("0.", b'0', "E5", length),
            text("7", b'3', ".5E+12", length),
            text("12.", b'9', "", length),
            text("1E", b'0', "999999999", length),
            text("1E-", b'0', "1000000000", length),
            text("1", b'5', "", length),
            text("1.5", b' ', "", length),
        ];
        for (place, text) in texts.into_iter().enumerate() {
            let exact = oracle::reference::real::form(&text).map_or(3, |form| form.digits.len());
            for lent in [exact - usize::from(exact > 0), exact, exact + 2] {
                let text = text.clone();
                let case = Case::Real { text, lent };
                // `assert_eq` would print megabytes.
                let same = run(&case, &Library) == run(&case, &Reference);
                assert!(same, "text {place} of {length} bytes, {lent} lent");
            }
        }
    }
}
