//! Runs of comparisons, bounded and not.

use crate::round_trip::round_trip;
use crate::shrink::shrink;
use crate::{exhaustive, inputs};
use oracle::cases::{Case, Functions, Outcome, Reference, original_agrees, run};
use oracle::generate::{Rng, sources};
use oracle::lists::format;
use std::panic::{AssertUnwindSafe, catch_unwind};

/// How much a run compares.
#[derive(Debug, Clone, Copy)]
pub struct Size {
    /// Parts of the longest source, of which all are tried.
    pub source_parts: usize,
    /// Tokens after each beginning, of which all are tried.
    pub tokens: usize,
    /// Random calls.
    pub random: usize,
}

/// What a run compared.
#[derive(Debug, Clone, Copy, Default)]
pub struct Count {
    pub sources: usize,
    pub token_lists: usize,
    pub random: usize,
    pub round_trips: usize,
    /// Calls that only the reference and the original answered, the library not having them.
    pub without_library: usize,
}

/// Whether library, reference and original differ on a call, or the call touches what it must not.
fn differs(case: &Case, library: &impl Functions, has: fn(&Case) -> bool) -> bool {
    let expected = run(case, &Reference);
    if !original_agrees(case, &expected) {
        return true;
    }
    has(case)
        && catch_unwind(AssertUnwindSafe(|| run(case, library)))
            .map_or(true, |outcome| outcome != expected)
}

/// The smallest call like this one on which they differ, with each one's outcome.
fn report(case: Case, library: &impl Functions, has: fn(&Case) -> bool) -> String {
    let quiet = std::panic::take_hook();
    std::panic::set_hook(Box::new(|_| ()));
    let case = shrink(case, |case| differs(case, library, has));
    let expected = run(&case, &Reference);
    let ours = catch_unwind(AssertUnwindSafe(|| run(&case, library)));
    std::panic::set_hook(quiet);
    let ours = match ours {
        Ok(outcome) => describe(&case, &outcome, &expected),
        Err(_) => "it touches what it must not".to_string(),
    };
    format!(
        "{case:?}\nreference: {}\nlibrary:   {ours}\noriginal and reference agree: {}",
        format::line(&case, &expected),
        original_agrees(&case, &expected)
    )
}

/// The outcome as a list's line, and the first place of the lent output that differs.
fn describe(case: &Case, outcome: &Outcome, expected: &Outcome) -> String {
    let line = format::line(case, outcome);
    let place = match (outcome, expected) {
        (Outcome::Words(_, ours), Outcome::Words(_, theirs)) => {
            (0..ours.len()).find(|&at| ours[at] != theirs[at])
        }
        (Outcome::Bytes(_, ours), Outcome::Bytes(_, theirs)) => {
            (0..ours.len()).find(|&at| ours[at] != theirs[at])
        }
        _ => None,
    };
    match place {
        Some(at) => format!("{line} (the output differs first at {at})"),
        None => line,
    }
}

/// Compares all short inputs, then random ones from the seed. `has` says which calls the library
/// can answer; `progress` hears of each thousand.
pub fn compare(
    library: &impl Functions,
    has: fn(&Case) -> bool,
    seed: u64,
    size: Size,
    mut progress: impl FnMut(&Count),
) -> Result<Count, String> {
    let mut count = Count::default();
    let mut failed = None;
    let check = |case: Case, failed: &mut Option<Case>| {
        if differs(&case, library, has) {
            *failed = Some(case);
        }
        failed.is_none()
    };
    exhaustive::sources(size.source_parts, |case| {
        count.sources += 1;
        check(case, &mut failed)
    });
    progress(&count);
    if failed.is_none() {
        exhaustive::token_lists(size.tokens, |case| {
            count.token_lists += 1;
            check(case, &mut failed)
        });
    }
    progress(&count);
    let mut rng = Rng::new(seed);
    while failed.is_none() && count.random < size.random {
        let case = inputs::any(&mut rng);
        count.random += 1;
        count.without_library += usize::from(!has(&case));
        check(case, &mut failed);
        if count.random.is_multiple_of(8) {
            count.round_trips += trip(&mut rng, library)?;
        }
        if count.random.is_multiple_of(1000) {
            progress(&count);
        }
    }
    match failed {
        Some(case) => Err(report(case, library, has)),
        None => Ok(count),
    }
}

/// A round trip of a program; gives how many were made.
fn trip(rng: &mut Rng, library: &impl Functions) -> Result<usize, String> {
    let src = if rng.once_in(4) {
        sources::any(rng)
    } else {
        let program = sources::program(rng, 2);
        if rng.once_in(2) {
            sources::signed_exponents(&program).into_bytes()
        } else {
            program.into_bytes()
        }
    };
    let fails = |src: &[u8]| round_trip(src, library).and_then(Result::err);
    match round_trip(&src, library) {
        None => Ok(0),
        Some(Ok(())) => Ok(1),
        Some(Err(_)) => {
            let case = shrink(
                Case::Read { src, lent: 0 },
                |case| matches!(case, Case::Read { src, .. } if fails(src).is_some()),
            );
            let Case::Read { src, .. } = case else {
                unreachable!("a smaller reading is a reading")
            };
            let found = fails(&src).unwrap_or_default();
            Err(format!("{found}: {:?}", String::from_utf8_lossy(&src)))
        }
    }
}
