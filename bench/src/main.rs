//! Times the original, the proved library and the mark in one run, and prints tables.

use bench::measure::{Effort, Measured, Written, measure, reading, whole, written};
use bench::memory::{Counting, original_peak};
use bench::{linking, plot, table};
use oracle::generate::delivery::{HOSTILE, delivery, hostile};
use oracle::generate::rules::rules;
use oracle::terms::MAX_SOURCE;
use std::process::ExitCode;
use std::time::Duration;

#[global_allocator]
static ALLOCATOR: Counting = Counting;

const HELP: &str = "\
bench: times the original, the proved library and an unverified mark in one run

  bench [--quick] [--deliveries] [--seed N] [--svg FILE]
  bench --growth
  bench --linking

  --quick      deliveries of 64 KiB and 1 MiB, hostile files of 1 MiB, few repetitions
  --deliveries no hostile files
  --seed N     the seed of the deliveries (default 1)
  --growth     only the library's reading of hostile files of 1, 4 and 16 MiB, and its writing of trees of
               hostile files whose texts have 1, 2, 4, 8 and 16 MiB
  --linking    only linking of rules of 1 to 16 MiB against parsing, and of small ones without work words
  --svg FILE   writes a plot of the time over the size of a delivery

Everything lent is made and touched before it is timed, and each is called once untimed before each
timed call, so that none pays for what another left in the caches. The three are timed in turn, in processor
time of one thread, and medians are given. The copy of the tokens that the original's parser takes
is not timed; giving back what the original allocates is timed apart, and a second ratio has it.
";

fn main() -> ExitCode {
    let mut quick = false;
    let mut short = false;
    let mut seed = 1;
    let mut svg = None;
    let mut words = std::env::args().skip(1);
    while let Some(word) = words.next() {
        match word.as_str() {
            "--quick" => quick = true,
            "--deliveries" => short = true,
            "--seed" => match words.next().and_then(|word| word.parse().ok()) {
                Some(number) => seed = number,
                None => return usage(),
            },
            "--growth" => {
                print!("{}", table::growth_of_reading(&growth_of_reading()));
                print!("{}", table::growth_of_writing(&growth_of_writing()));
                return ExitCode::SUCCESS;
            }
            "--linking" => {
                print!("{}", linking::tables(seed));
                return ExitCode::SUCCESS;
            }
            "--svg" => svg = words.next(),
            "--help" => {
                print!("{HELP}");
                return ExitCode::SUCCESS;
            }
            _ => return usage(),
        }
    }
    let effort = if quick {
        Effort {
            times: 5,
            long: Duration::from_millis(100),
        }
    } else {
        Effort {
            times: 9,
            long: Duration::from_secs(1),
        }
    };
    let mut sizes = vec![64 << 10, 1 << 20];
    if !quick {
        sizes.extend([4 << 20, MAX_SOURCE]);
    }
    // Few patterns of sentences over and over, as a rule generator writes; and random sentences, which no branch predictor
    // can follow.
    let few = sizes.iter().map(|&size| ("rules", rules(seed, size)));
    let many = sizes.iter().map(|&size| ("delivery", delivery(seed, size)));
    let deliveries: Vec<(&str, String)> = few.chain(many).collect();
    let measured: Vec<Measured> = deliveries
        .iter()
        .map(|(name, src)| measure(name, src, effort))
        .collect();
    let size = if quick { 1 << 20 } else { 4 << 20 };
    let hostiles: Vec<Measured> = HOSTILE
        .iter()
        .filter(|_| !short)
        .map(|name| measure(name, &hostile(name, size), effort))
        .collect();
    println!(
        "Seed {seed}. The mark is unverified Rust tuned by hand that puts down the same rows.\n"
    );
    let all = [&measured[..], &hostiles[..]].concat();
    print!("{}", table::step("Reading", &all, |m| m.reading));
    let parsed: Vec<Measured> = all
        .iter()
        .filter(|input| input.tokens >= table::FEW)
        .cloned()
        .collect();
    print!("{}", table::step("Parsing", &parsed, |m| m.parsing));
    let both = |m: &Measured| m.reading.plus(m.parsing);
    print!("{}", table::step("Reading and parsing", &all, both));
    let ends: Vec<_> = measured
        .iter()
        .zip(&deliveries)
        .map(|(input, (_, src))| (input, whole(src, effort)))
        .collect();
    print!("{}", table::whole(&ends));
    print!("{}", table::writing(&parsed));
    let peaks: Vec<_> = measured
        .iter()
        .zip(&deliveries)
        .map(|(input, (_, src))| (input, original_peak(src)))
        .collect();
    print!("{}", table::memory(&peaks));
    if let Some(file) = svg {
        let Some(text) = plot::svg(&measured) else {
            eprintln!("bench: nothing to plot");
            return ExitCode::from(1);
        };
        if let Err(error) = std::fs::write(&file, text) {
            eprintln!("bench: {file}: {error}");
            return ExitCode::from(2);
        }
    }
    ExitCode::SUCCESS
}

/// The library's seconds of reading each hostile file, and comments that are opened and never closed, by size.
fn growth_of_reading() -> Vec<(String, Vec<(usize, f64)>)> {
    let sizes = [1 << 20, 4 << 20, MAX_SOURCE];
    let names = HOSTILE.iter().copied().chain(["open-comments"]);
    let timed = names.map(|name| {
        let times = sizes.iter().map(|&size| {
            let src = match name {
                "open-comments" => "/*".repeat(size / 2),
                _ => hostile(name, size),
            };
            (src.len(), reading(src.as_bytes()))
        });
        (name.to_string(), times.collect())
    });
    timed.collect()
}

/// The library's writing of the tree of each hostile file that has tokens, and of one number, by the size of the text.
fn growth_of_writing() -> Vec<(String, Vec<Written>)> {
    let names = HOSTILE.iter().copied().chain(["one-number"]);
    let timed = names.filter_map(|name| {
        let source = |size: usize| match name {
            "one-number" => format!("F {{ {} = ; }}", "0".repeat(size - 16)),
            _ => hostile(name, size),
        };
        // How much longer than its source the text is, from a small one.
        let few = source(1 << 16);
        let bytes = written(&few).bytes;
        let times = (20..=24).map(|n| {
            let size = (few.len() << n) / bytes;
            written(&source((size - size / 256).min(MAX_SOURCE)))
        });
        (bytes >= table::FEW).then(|| (name.to_string(), times.collect()))
    });
    timed.collect()
}

fn usage() -> ExitCode {
    eprint!("{HELP}");
    ExitCode::from(2)
}
