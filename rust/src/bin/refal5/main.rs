//! The command `refal5`: checks, lists, writes and shows Refal-5 sources.

mod args;
mod check;
mod diff;
mod explain;
mod format;
mod input;
mod json;
mod link;
mod list;
mod listing;
mod lsp;
mod man;
mod output;
mod page;
mod progress;
mod real;
mod report;
mod walk;

use std::io;
use std::process::ExitCode;

use args::{Args, Command, Parsed};
use output::Output;

const HELP: &str = include_str!("help.txt");

/// How a run went, worst last: the exit status.
#[derive(Debug, Clone, Copy, PartialEq, Eq, PartialOrd, Ord)]
enum Status {
    Fine = 0,
    Refused = 1,
    Failed = 2,
}

fn main() -> ExitCode {
    let status = match args::parse(std::env::args_os().skip(1)) {
        Ok(Parsed::Help) => say(HELP),
        Ok(Parsed::Manual) => say(&man::page(HELP)),
        Ok(Parsed::Version) => say(concat!("refal5 ", env!("CARGO_PKG_VERSION"), "\n")),
        Ok(Parsed::Run(args)) => start(args),
        Err(message) => {
            eprintln!("refal5: {message}\nTry `refal5 --help`.");
            Status::Failed
        }
    };
    ExitCode::from(status as u8)
}

/// Runs a command, with the files of folders in place of these.
fn start(mut args: Args) -> Status {
    if args.command.takes_folders() {
        match input::files(&args.files) {
            Ok(files) => args.files = files,
            Err(message) => {
                eprintln!("refal5: {message}");
                return Status::Failed;
            }
        }
    }
    run(&args)
}

fn say(text: &str) -> Status {
    settle(output::print(text).map(|()| Status::Fine))
}

fn run(args: &Args) -> Status {
    let mut output = Output::new(args);
    let result = match args.command {
        Command::Check => check::run(args, &mut output),
        Command::Tokens => listing::run(args, &mut output, listing::tokens),
        Command::Tree => listing::run(args, &mut output, listing::tree),
        Command::Write => listing::run(args, &mut output, listing::write),
        Command::Page => page::run(args, &mut output),
        Command::Format => format::run(args, &mut output),
        Command::List => listing::run(args, &mut output, list::list),
        Command::Diff => diff::run(args, &mut output),
        Command::Link => link::run(args, &mut output),
        Command::Real => real::run(args, &output),
        Command::Explain => explain::run(args, &output),
        Command::Lsp => lsp::run(),
    };
    settle(result)
}

/// The status of a run whose output may have failed. A reader that stops early, as `head` does, is no failure.
fn settle(result: io::Result<Status>) -> Status {
    match result {
        Ok(status) => status,
        Err(error) if error.kind() == io::ErrorKind::BrokenPipe => Status::Fine,
        Err(error) => {
            eprintln!("refal5: standard output: {error}");
            Status::Failed
        }
    }
}
