//! Compares the proved library with the reference and the original, from a printed seed.

use compare::runs::{Count, Size, compare};
use compare::{Library, has};
use std::io::{IsTerminal, Write};
use std::process::ExitCode;
use std::time::{Instant, SystemTime, UNIX_EPOCH};

const HELP: &str = "\
compare: holds librefal5.a against the reference and, where it is present, the original

  compare [--seed N] [--random N] [--parts N] [--tokens N]

  --seed N     the seed of the random calls (default: from the clock); it is printed
  --random N   how many random calls (default 5000000)
  --parts N    all sources of at most N parts of a telling alphabet (default 4)
  --tokens N   all token lists of at most N tokens after seven beginnings (default 3)

A difference is printed as the smallest call that shows it; the exit status is then 1.
";

fn main() -> ExitCode {
    let mut seed = SystemTime::now()
        .duration_since(UNIX_EPOCH)
        .map_or(1, |time| time.as_secs());
    let mut size = Size {
        source_parts: 4,
        tokens: 3,
        random: 5_000_000,
    };
    let words: Vec<String> = std::env::args().skip(1).collect();
    if words.first().is_some_and(|word| word == "--help") {
        print!("{HELP}");
        return ExitCode::SUCCESS;
    }
    for pair in words.chunks(2) {
        let number = pair.get(1).and_then(|word| word.parse::<usize>().ok());
        match (pair[0].as_str(), number) {
            ("--seed", Some(number)) => seed = number as u64,
            ("--random", Some(number)) => size.random = number,
            ("--parts", Some(number)) => size.source_parts = number,
            ("--tokens", Some(number)) => size.tokens = number,
            _ => {
                eprint!("{HELP}");
                return ExitCode::from(2);
            }
        }
    }
    println!(
        "seed {seed}; library {}; original {}",
        presence(compare::is_linked()),
        presence(oracle::original::PRESENT)
    );
    let started = Instant::now();
    let terminal = std::io::stderr().is_terminal();
    let progress = |count: &Count| {
        if terminal {
            let random = count.random;
            eprint!("\r{random} random calls, {:.0?} ", started.elapsed());
            let _ = std::io::stderr().flush();
        }
    };
    match compare(&Library, has, seed, size, progress) {
        Ok(count) => {
            if terminal {
                eprintln!();
            }
            println!(
                "no difference: {} short sources, {} short token lists, {} random calls, \
                 {} round trips, in {:.0?}",
                count.sources,
                count.token_lists,
                count.random,
                count.round_trips,
                started.elapsed()
            );
            if count.without_library > 0 {
                println!(
                    "{} random calls were of functions that the library does not have yet",
                    count.without_library
                );
            }
            ExitCode::SUCCESS
        }
        Err(found) => {
            println!("a difference, made small:\n{found}");
            ExitCode::from(1)
        }
    }
}

fn presence(present: bool) -> &'static str {
    if present { "present" } else { "absent" }
}
