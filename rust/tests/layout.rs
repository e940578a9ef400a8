//! Layouts of programs made at random: each is the same program, and laid out again it stays as it is.

use oracle::generate::{Rng, delivery, sources};
use refal5::rows::{NodeRows, TokenRows};

/// Lays a source out where it is accepted.
fn laid_out(source: &[u8]) -> Option<String> {
    let mut rows = TokenRows::new();
    let tokens = rows.read(source).ok()?;
    NodeRows::new().parse(tokens).ok()?;
    // The library has held it against the source.
    Some(refal5::layout(tokens).expect("it is the same program"))
}

fn held(source: &[u8]) -> bool {
    let Some(text) = laid_out(source) else {
        return false;
    };
    assert_eq!(laid_out(text.as_bytes()).as_deref(), Some(text.as_str()));
    assert!(text.is_empty() || text.ends_with('\n'));
    true
}

#[test]
fn random_sources() {
    let mut rng = Rng::new(5);
    let held = (0..20_000)
        .filter(|_| held(&sources::any(&mut rng)))
        .count();
    assert!(held > 1_000, "{held}");
}

#[test]
fn a_delivery() {
    assert!(held(delivery::delivery(3, 200_000).as_bytes()));
}
