//! Reals as exact decimals, against whole numbers of any size.

use oracle::reference::real::{form, same_value};
use refal5::raw::MAX_BYTES;
use refal5::{Real, real};

const LETTERS: &[u8] = b"05.E+-";
const LENGTH: u32 = 6;

/// Every text of at most so many bytes over those of numbers.
fn texts() -> Vec<Vec<u8>> {
    let mut all = Vec::new();
    let mut last = vec![Vec::new()];
    for _ in 0..LENGTH {
        let longer = |text: &Vec<u8>| {
            let text = text.clone();
            LETTERS
                .iter()
                .map(move |letter| [&text[..], &[*letter]].concat())
        };
        last = last.iter().flat_map(longer).collect();
        all.extend_from_slice(&last);
    }
    all
}

fn hold(text: &[u8], found: &Result<Real, refal5::Refusal>) {
    match (found, form(text)) {
        (Ok(real), Ok(form)) => {
            assert_eq!(real.is_negative(), form.minus, "{text:?}");
            assert_eq!(real.digits().as_bytes(), form.digits, "{text:?}");
            assert_eq!(real.power(), form.power, "{text:?}");
        }
        (Err(refusal), Err(expected)) => assert_eq!(refusal.number, expected.number, "{text:?}"),
        _ => panic!("{text:?}"),
    }
}

#[test]
fn every_short_text() {
    let mut reals: Vec<(Vec<u8>, Real)> = Vec::new();
    for text in texts() {
        let found = real(&text);
        hold(&text, &found);
        reals.extend(found.map(|real| (text, real)));
    }
    // Every seventh against every fifth: equal exactly when the values are.
    let mut equal = 0;
    for (a, x) in reals.iter().step_by(7) {
        for (b, y) in reals.iter().step_by(5) {
            assert_eq!(x == y, same_value(a, b), "{a:?} {b:?}");
            equal += usize::from(x == y);
        }
    }
    assert!(reals.len() > 500 && equal > 500);
}

#[test]
fn what_is_printed_reads_back() {
    for text in texts() {
        if let Ok(number) = real(&text) {
            assert_eq!(number.to_string().parse(), Ok(number));
        }
    }
}

#[test]
fn long_texts() {
    let digits = "1".repeat(1_000_000) + ".5E-3";
    let number: Real = digits.parse().unwrap();
    assert_eq!((number.digits().len(), number.power()), (1_000_001, -4));
    let zeros = "0".repeat(MAX_BYTES - 2);
    assert!(real(zeros.clone() + ".0").unwrap().is_zero());
    assert_eq!(real(zeros + "0.0").unwrap_err().number, 64);
    let power = real("10E999999999").unwrap().power();
    assert_eq!(power, 1_000_000_000);
}
