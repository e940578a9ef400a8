//! Reals: short texts and their pairs, exponents around nine digits, bytes lent around the exact
//! number.

use super::SEED;
use crate::cases::Case;
use crate::generate::Rng;
use crate::reference::real::form;

const ALPHABET: &[u8] = b"01.E+-";

pub fn cases() -> Vec<Case> {
    let mut rng = Rng::new(SEED + 3);
    let mut cases = Vec::new();
    for text in short(4) {
        cases.push(Case::Real { text, lent: 4 });
    }
    let reals = short_reals(4);
    for (at, a) in reals.iter().enumerate() {
        for b in &reals[at..] {
            let (a, b) = (a.clone(), b.clone());
            cases.push(Case::Reals { a, b });
        }
    }
    for text in exponents() {
        lent(&mut cases, text);
    }
    for text in NONE {
        lent(&mut cases, text.to_vec());
    }
    for _ in 0..600 {
        let text = text(&mut rng);
        lent(&mut cases, text);
    }
    for _ in 0..600 {
        let a = random(&mut rng);
        let b = respelled(&mut rng, &a);
        cases.push(Case::Reals { a, b });
    }
    cases
}

/// Every text of at most so many bytes of the alphabet.
fn short(most: usize) -> Vec<Vec<u8>> {
    let mut texts = vec![Vec::new()];
    let mut start = 0;
    for _ in 0..most {
        let end = texts.len();
        for at in start..end {
            for &byte in ALPHABET {
                let mut text: Vec<u8> = texts[at].clone();
                text.push(byte);
                texts.push(text);
            }
        }
        start = end;
    }
    texts
}

/// Every real of at most so many bytes of the alphabet.
pub fn short_reals(most: usize) -> Vec<Vec<u8>> {
    let mut texts = short(most);
    texts.retain(|text| form(text).is_ok());
    texts
}

/// A call with one byte less than the digits need, as many, and more.
fn lent(cases: &mut Vec<Case>, text: Vec<u8>) {
    let exact = form(&text).map_or(2, |form| form.digits.len());
    for lent in [exact.saturating_sub(1), exact, exact + 3] {
        let text = text.clone();
        cases.push(Case::Real { text, lent });
    }
}

/// Exponents around nine digits, with and without zeros and signs.
fn exponents() -> Vec<Vec<u8>> {
    let mut texts = Vec::new();
    for mantissa in [
        "1", "10", "0", "-0.0", "0.01", "-1.50", "100.001", "+00900.0",
    ] {
        for sign in ["", "+", "-"] {
            for zeros in ["", "0", "0000000000"] {
                for digits in [
                    "0",
                    "9",
                    "99999999",
                    "999999999",
                    "1000000000",
                    "9999999999",
                ] {
                    texts.push(format!("{mantissa}E{sign}{zeros}{digits}").into_bytes());
                }
            }
        }
    }
    texts
}

/// Texts that are no reals, and some that are almost none.
const NONE: &[&[u8]] = &[
    b"",
    b" ",
    b"E",
    b".",
    b"E1",
    b".5",
    b"-.5",
    b"1",
    b"15",
    b"+1",
    b"-1",
    b"4294967296",
    b"1.",
    b"1E",
    b"1E+",
    b"1E-",
    b"1.E1",
    b"1.5E",
    b"1.5E+-1",
    b"1.5E--1",
    b"--1.5",
    b"+-1.5",
    b"1.5.5",
    b"1E1E1",
    b"1E1.5",
    b"1.5e1",
    b"1,5",
    b" 1.5",
    b"1.5 ",
    b"1.5\n",
    b"\t1.5",
    b"1.5 2.5",
    b"1.5A",
    b"A1.5",
    b"1.5;",
    b"*1.5\n2.5",
    b"/**/1.5",
    b"1.5/**/",
    b"'1.5'",
    b"s.1",
    b"1.5\x00",
    b"\xff1.5",
    b"1.5\xff",
    b"1.5\xc2\xa0",
    b"\xef\xbb\xbf1.5",
    b"1_5.0",
    b"0x1E1",
    b"1.5f",
    b"Infinity",
    b"1E1 ",
    b"1E1-",
];

fn digits(rng: &mut Rng, least: usize, most: usize) -> String {
    let length = rng.within(least, most);
    let zeros = rng.once_in(3);
    (0..length)
        .map(|_| match rng.below(if zeros { 3 } else { 12 }) {
            0 | 1 => '0',
            2 => '9',
            n => char::from(b'0' + (n - 2) as u8),
        })
        .collect()
}

/// A random real, or almost one.
pub fn text(rng: &mut Rng) -> Vec<u8> {
    let mut text = random(rng);
    if rng.once_in(4) {
        damage(rng, &mut text);
    }
    text
}

fn random(rng: &mut Rng) -> Vec<u8> {
    let sign = rng.pick(&["", "", "+", "-"]);
    let whole = digits(rng, 1, 12);
    let point = rng.once_in(2);
    let fraction = if point {
        format!(".{}", digits(rng, 1, 12))
    } else {
        String::new()
    };
    let exponent = if !point || rng.once_in(2) {
        format!("E{}{}", rng.pick(&["", "+", "-"]), digits(rng, 1, 11))
    } else {
        String::new()
    };
    format!("{sign}{whole}{fraction}{exponent}").into_bytes()
}

fn damage(rng: &mut Rng, text: &mut Vec<u8>) {
    let at = rng.below(text.len());
    match rng.below(3) {
        0 => {
            text.remove(at);
        }
        1 => text.insert(at, b".E+- 0"[rng.below(6)]),
        _ => text[at] = rng.bits() as u8,
    }
}

/// The same value spelled otherwise, or almost the same.
pub fn respelled(rng: &mut Rng, text: &[u8]) -> Vec<u8> {
    let Ok(form) = form(text) else {
        return text.to_vec();
    };
    let sign = match form.minus {
        true => "-",
        false => rng.pick(&["", "+"]),
    };
    let zeros = rng.below(4);
    let mut digits = form.digits;
    let mut power = form.power - zeros as i64;
    digits.resize(digits.len() + zeros, b'0');
    let leading = if digits.is_empty() { 1 } else { rng.below(3) };
    digits.splice(0..0, std::iter::repeat_n(b'0', leading));
    if rng.once_in(4) {
        power += 1;
    }
    let cut = rng.below(digits.len());
    if cut > 0 && rng.once_in(2) {
        power += (digits.len() - cut) as i64;
        digits.insert(cut, b'.');
    }
    let mut text = sign.as_bytes().to_vec();
    text.extend(digits);
    text.extend(format!("E{power}").bytes());
    text
}
