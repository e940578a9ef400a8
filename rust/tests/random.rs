//! Random sources: every refusal is explained, and the token meant is the one that the tokens' indices give.

use oracle::generate::{Rng, sources};
use refal5::lexer::Lexer;
use refal5::parser::Parser;
use refal5::rows::{NodeRows, TokenRows};

const SEED: u64 = 66;
const SOURCES: usize = 20_000;

fn each(mut test: impl FnMut(&[u8])) {
    let mut rng = Rng::new(SEED);
    for _ in 0..SOURCES {
        test(&sources::any(&mut rng));
    }
}

#[test]
fn every_refusal_is_explained() {
    let mut numbers = [0; 51];
    each(|source| {
        let Err(diagnosis) = refal5::check(source) else {
            return;
        };
        numbers[diagnosis.refusal.number as usize] += 1;
        let (meant, shown) = (diagnosis.meant, diagnosis.shown);
        assert_eq!(shown.span, diagnosis.refusal.span);
        assert!(meant.span.end <= source.len() && meant.span.start <= shown.span.start);
        assert_eq!(diagnosis.shown_token.is_some(), diagnosis.differs());
        assert!(diagnosis.advice.ends_with('.'));
        if let Some(gap) = diagnosis.gap {
            let at = gap.place.span.start;
            assert_eq!(at, gap.place.span.end);
            assert!(0 < at && at <= meant.span.start);
        }
        assert!(!diagnosis.to_string().contains(char::is_control));
    });
    for number in [2].into_iter().chain(10..=24).chain(31..=35) {
        assert!(numbers[number] > 0, "no source is refused with {number}");
    }
}

#[test]
fn the_token_meant_is_found_from_the_span_shown() {
    each(|source| {
        let Ok(text) = std::str::from_utf8(source) else {
            return;
        };
        let Ok(tokens) = Lexer::new(text).tokenize() else {
            return;
        };
        let Err(error) = Parser::new(tokens).parse_program() else {
            return;
        };
        let diagnosis = refal5::check(source).expect_err("it is refused here too");
        assert_eq!(diagnosis.refusal, error.refusal, "{text:?}");
        assert_eq!(diagnosis.meant.span, error.meant.into(), "{text:?}");
    });
}

/// A written text reads and parses to the same tree, spans aside, and is written the same.
#[test]
fn round_trips() {
    let mut accepted = 0;
    each(|source| {
        let mut token_rows = TokenRows::new();
        let Ok(tokens) = token_rows.read(source) else {
            return;
        };
        let mut node_rows = NodeRows::new();
        let Ok(tree) = node_rows.parse(tokens) else {
            return;
        };
        accepted += 1;
        let text = tree.to_text().expect("the text is short");
        let mut token_rows = TokenRows::new();
        let mut node_rows = NodeRows::new();
        let tokens = token_rows.read(text.as_bytes()).expect("it is read");
        let again = node_rows.parse(tokens).expect("it is parsed");
        assert_eq!(again.len(), tree.len());
        for (left, right) in tree.nodes().zip(again.nodes()) {
            assert_eq!(left.kind(), right.kind());
            assert_eq!(left.is_entry(), right.is_entry());
            assert_eq!(left.is_left_off(), right.is_left_off());
            assert_eq!(left.character(), right.character());
            assert_eq!(left.letter(), right.letter());
            assert_eq!(left.text(), right.text());
            assert_eq!(left.next(), right.next());
        }
        assert_eq!(again.to_text().expect("the text is short"), text);
    });
    assert!(accepted > SOURCES / 20, "{accepted}");
}
