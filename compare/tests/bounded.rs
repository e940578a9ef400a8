//! The bounded comparison: the same run as the command's, of a size for the gate.

use compare::round_trip::round_trip;
use compare::runs::{Size, compare};
use compare::{Library, has};
use oracle::generate::{Rng, delivery, sources};

#[test]
fn no_difference() {
    let seed = 1;
    let size = Size {
        source_parts: 3,
        tokens: 2,
        random: 60_000,
    };
    let count = compare(&Library, has, seed, size, |_| ())
        .unwrap_or_else(|found| panic!("seed {seed}: {found}"));
    println!("seed {seed}: {count:?}");
    assert!(count.round_trips > 1000);
}

#[test]
fn programs_go_round() {
    let mut rng = Rng::new(7);
    for _ in 0..500 {
        let src = sources::program(&mut rng, 4);
        for src in [sources::signed_exponents(&src), src] {
            assert_eq!(round_trip(src.as_bytes(), &Library), Some(Ok(())), "{src}");
        }
    }
    let src = delivery::delivery(7, 65_536);
    assert_eq!(round_trip(src.as_bytes(), &Library), Some(Ok(())));
}
