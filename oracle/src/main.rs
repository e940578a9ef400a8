//! The command: answers on standard input's bytes, and generated files.

use oracle::generate::delivery::{HOSTILE, delivery, hostile};
use oracle::generate::rules::rules;
use oracle::lists::{self, LISTS};
use oracle::reference::{parse, read, write};
use oracle::terms::{NodeRow, Refusal};
use std::io::{self, Read, Write};
use std::path::Path;
use std::process::ExitCode;

const HELP: &str = "\
oracle: the answers of documents 01 and 02

  oracle read  < SOURCE         token rows, or a refusal
  oracle parse < SOURCE         node rows, or a refusal
  oracle write < SOURCE         the written text, or a refusal
  oracle delivery SEED SIZE     a generated rule file of SIZE bytes, of random sentences
  oracle rules SEED SIZE        the same, of few patterns of sentences
  oracle hostile NAME SIZE      a hostile file of at most SIZE bytes
  oracle hostile                the names of the hostile files
  oracle lists FOLDER           the fixed lists of tests/vectors
  oracle sample FOLDER          a sample of them as stdin and stdout of crates/vectors

Where the original files are present its answer is compared with the reference's first, but for
token lists in which parsing meets a left-off `;`.
A refusal is printed as: refused number expected found start end need; the exit status is 1.
";

fn main() -> ExitCode {
    let words: Vec<String> = std::env::args().skip(1).collect();
    let words: Vec<&str> = words.iter().map(String::as_str).collect();
    match words[..] {
        ["read"] => show(tokens(&input())),
        ["parse"] => show(tree(&input())),
        ["write"] => {
            let src = input();
            let text = tree(&src).and_then(|rows| write::text(&rows.concat(), &src));
            match text {
                Ok(text) => print(&text),
                Err(refusal) => refused(refusal),
            }
        }
        ["delivery", seed, size] => match (seed.parse(), size.parse()) {
            (Ok(seed), Ok(size)) => print(delivery(seed, size).as_bytes()),
            _ => usage(),
        },
        ["rules", seed, size] => match (seed.parse(), size.parse()) {
            (Ok(seed), Ok(size)) => print(rules(seed, size).as_bytes()),
            _ => usage(),
        },
        ["hostile", name, size] if HOSTILE.contains(&name) => match size.parse() {
            Ok(size) => print(hostile(name, size).as_bytes()),
            Err(_) => usage(),
        },
        ["hostile"] => print(HOSTILE.map(|name| format!("{name}\n")).concat().as_bytes()),
        ["lists", folder] => lists(folder),
        ["sample", folder] => sample(folder),
        ["--help"] => print(HELP.as_bytes()),
        _ => usage(),
    }
}

/// Only where the original can confirm them.
fn lists(folder: &str) -> ExitCode {
    if !oracle::original::PRESENT {
        eprintln!("oracle: the original files are absent, no list is made");
        return ExitCode::from(1);
    }
    let texts = LISTS.iter().map(|list| (list.file, lists::text(list)));
    texts
        .map(|(file, text)| write_file(folder, file, text.as_bytes()))
        .find(|&code| code != ExitCode::SUCCESS)
        .unwrap_or(ExitCode::SUCCESS)
}

fn sample(folder: &str) -> ExitCode {
    let (input, output) = lists::sample::sample();
    match write_file(folder, "stdin", &input) {
        ExitCode::SUCCESS => write_file(folder, "stdout", output.as_bytes()),
        code => code,
    }
}

fn write_file(folder: &str, file: &str, bytes: &[u8]) -> ExitCode {
    let file = Path::new(folder).join(file);
    match std::fs::write(&file, bytes) {
        Ok(()) => ExitCode::SUCCESS,
        Err(error) => {
            eprintln!("oracle: {}: {error}", file.display());
            ExitCode::from(2)
        }
    }
}

fn usage() -> ExitCode {
    eprint!("{HELP}");
    ExitCode::from(2)
}

fn input() -> Vec<u8> {
    let mut bytes = Vec::new();
    io::stdin()
        .read_to_end(&mut bytes)
        .expect("standard input is readable");
    bytes
}

fn print(bytes: &[u8]) -> ExitCode {
    match io::stdout().write_all(bytes) {
        Ok(()) => ExitCode::SUCCESS,
        Err(_) => ExitCode::from(2),
    }
}

fn tokens(src: &[u8]) -> Result<Vec<[u32; 6]>, Refusal> {
    let ours = read::tokens(src);
    let added = matches!(&ours, Err(refusal) if refusal.number < 10);
    if let Ok(text) = std::str::from_utf8(src)
        && !added
        && let Some(theirs) = oracle::original::read(text)
    {
        assert_eq!(ours, theirs, "the original and the reference differ");
    }
    ours
}

fn tree(src: &[u8]) -> Result<Vec<NodeRow>, Refusal> {
    let tokens = tokens(src)?;
    let ours = parse::tree(&tokens.concat());
    let added = matches!(&ours, Err(refusal) if matches!(refusal.number, 30 | 37))
        || parse::first_left_off(&tokens.concat()).is_some();
    if !added && let Some(theirs) = oracle::original::parse(&tokens) {
        assert_eq!(ours, theirs, "the original and the reference differ");
    }
    ours
}

fn show<const W: usize>(rows: Result<Vec<[u32; W]>, Refusal>) -> ExitCode {
    match rows {
        Ok(rows) => {
            let lines: String = rows
                .iter()
                .map(|row| row.map(|word| word.to_string()).join(" ") + "\n")
                .collect();
            print(lines.as_bytes())
        }
        Err(refusal) => refused(refusal),
    }
}

fn refused(refusal: Refusal) -> ExitCode {
    let Refusal {
        number,
        expected,
        found,
        start,
        end,
        need,
    } = refusal;
    println!("refused {number} {expected} {found} {start} {end} {need}");
    ExitCode::from(1)
}
