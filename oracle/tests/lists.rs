//! The lists in tests/vectors are those that the oracle makes, and the reference answers them.

use oracle::cases::{Case, Outcome, Reference, run};
use oracle::lists::{LISTS, format, sample, text};
use oracle::reference::parse;
use oracle::terms::NODE_WIDTH;
use std::collections::BTreeMap;
use std::path::Path;

fn stored(file: &str) -> String {
    let path = Path::new(env!("CARGO_MANIFEST_DIR"))
        .join("../tests/vectors")
        .join(file);
    std::fs::read_to_string(&path).unwrap_or_else(|error| panic!("{}: {error}", path.display()))
}

#[test]
fn are_those_that_the_oracle_makes() {
    for list in &LISTS {
        assert!(
            stored(list.file) == text(list),
            "{} is out of date",
            list.file
        );
    }
}

#[test]
fn the_sample_is_the_one_that_the_oracle_makes() {
    let folder = Path::new(env!("CARGO_MANIFEST_DIR")).join("../crates/vectors");
    let (input, output) = sample::sample();
    let stored = |file: &str| std::fs::read(folder.join(file)).expect(file);
    assert!(stored("stdin") == input, "stdin is out of date");
    assert!(
        stored("stdout") == output.into_bytes(),
        "stdout is out of date"
    );
}

#[test]
fn are_answered_by_the_reference() {
    for list in &LISTS {
        let cases = format::read_back(&stored(list.file)).expect("a well-formed list");
        assert!(cases.len() > 500);
        for (case, outcome) in cases {
            assert_eq!(run(&case, &Reference), outcome, "{case:?}");
        }
    }
}

#[test]
fn hold_each_refusal_ten_times() {
    let mut times: BTreeMap<u64, usize> = BTreeMap::new();
    for list in &LISTS {
        for (_, outcome) in format::read_back(&stored(list.file)).expect("a well-formed list") {
            *times.entry(outcome.number()).or_default() += 1;
        }
    }
    // 1 takes 16 MiB and more: the replay makes those inputs itself.
    let numbers = [2].into_iter().chain(10..=25).chain(30..=38).chain(40..=42);
    for number in numbers.chain([50, 60, 61, 62, 64, 65, 66]) {
        let times = times.get(&number).copied().unwrap_or(0);
        assert!(times >= 10, "{number} stands {times} times");
    }
}

/// Both parsing and writing meet sentences whose `;` is left off, and enough lists are left to ask the
/// original.
#[test]
fn hold_left_off_semicolons() {
    let left_off = |words: &[u32]| words.chunks_exact(NODE_WIDTH).any(|row| row[..2] == [4, 1]);
    let mut parsed = 0;
    let mut written = 0;
    let mut asked = 0;
    for list in &LISTS {
        for (case, outcome) in format::read_back(&stored(list.file)).expect("a well-formed list") {
            let done = outcome.number() == 0;
            match (&case, &outcome) {
                (Case::Parse { tokens, .. }, Outcome::Words(_, rows)) => {
                    parsed += usize::from(done && left_off(rows));
                    asked += usize::from(parse::first_left_off(tokens).is_none());
                }
                (Case::Write { tree, .. }, _) => {
                    written += usize::from(done && left_off(tree));
                }
                _ => (),
            }
        }
    }
    assert!(parsed > 50 && written > 50, "{parsed}, {written}");
    assert!(asked > 1000, "{asked}");
}

#[test]
fn lines_are_read_back() {
    let case = Case::Read {
        src: b"A".to_vec(),
        lent: 13,
    };
    let line = "read 41 d 0,2,0,0,0,0,0 3,0,0,1,0,1,11,0,0,0,1,1";
    let outcome = run(&case, &Reference);
    assert_eq!(format::line(&case, &outcome), line);
    assert_eq!(format::read_back(line), Some(vec![(case, outcome)]));
    let case = Case::Name {
        name: b"ab".to_vec(),
        lent: 1,
    };
    let outcome = Outcome::Bytes([50, 0, 0, 0, 0, 0, 0], vec![0]);
    assert_eq!(
        format::line(&case, &outcome),
        "name 6162 1 32,0,0,0,0,0,0 -"
    );
}
