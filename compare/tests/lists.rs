//! The fixed lists and the largest sources, replayed word for word.

use compare::{Library, has};
use oracle::cases::{Case, Reference, run};
use oracle::generate::delivery;
use oracle::lists::{LISTS, format};
use oracle::terms::MAX_SOURCE;
use std::path::Path;

#[test]
fn the_library_is_linked() {
    assert!(
        compare::is_linked(),
        "librefal5.a is absent: run `tools/staticlib` first"
    );
}

#[test]
fn lists_are_replayed() {
    for list in &LISTS {
        let path = Path::new(env!("CARGO_MANIFEST_DIR"))
            .join("../tests/vectors")
            .join(list.file);
        let text = std::fs::read_to_string(&path).expect("the list is there");
        let cases = format::read_back(&text).expect("a well-formed list");
        assert!(cases.len() > 500, "{}", list.file);
        for (case, outcome) in cases.iter().filter(|(case, _)| has(case)) {
            assert_eq!(&run(case, &Library), outcome, "{case:?}");
        }
    }
}

/// Not stored: 16 MiB, and one byte more and further, of every sort of content.
#[test]
fn the_largest_sources() {
    let contents: [&[u8]; 11] = [
        b" ",
        b"\n",
        b"*",
        b"/*",
        b"A ",
        b"a",
        b"\xff",
        b"\xc2\xa0",
        b"\x00",
        b"1",
        b"\xe2\x80",
    ];
    for (place, content) in contents.iter().enumerate() {
        for size in [MAX_SOURCE, MAX_SOURCE + 1, MAX_SOURCE + 1 + place * 97] {
            if size == MAX_SOURCE && place > 3 {
                continue;
            }
            let src: Vec<u8> = content.iter().copied().cycle().take(size).collect();
            check(Case::Read { src, lent: 6 });
        }
    }
    let src = delivery::delivery(1, MAX_SOURCE).into_bytes();
    check(Case::Read {
        src,
        lent: 6 * 6_000_000,
    });
}

fn check(case: Case) {
    if !has(&case) {
        return;
    }
    // `assert_eq` would print 16 MiB.
    assert!(run(&case, &Library) == run(&case, &Reference));
}
