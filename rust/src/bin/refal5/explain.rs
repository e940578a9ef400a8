//! `refal5 explain`: what a refusal's number means, with a wrong and a right example.

use std::ffi::OsString;
use std::io;

use refal5::{Example, Meaning, REFUSALS};

use crate::Status;
use crate::args::Args;
use crate::json::Object;
use crate::output::{Output, Style};

/// Characters of an example's line that are printed.
const WIDTH: usize = 100;

/// Explains the numbers that are given, or lists all.
pub fn run(args: &Args, output: &Output) -> io::Result<Status> {
    if args.files.is_empty() {
        for meaning in REFUSALS {
            output.print(&short(meaning, output))?;
        }
        return Ok(Status::Fine);
    }
    let mut status = Status::Fine;
    for word in &args.files {
        match known(word) {
            Some(meaning) => output.print(&long(meaning, output))?,
            None => {
                output.complain(&format!(
                    "refal5: there is no refusal `{}`; `refal5 explain` lists all\n",
                    word.display()
                ));
                status = Status::Failed;
            }
        }
    }
    Ok(status)
}

/// The refusal that a number, or the name of its constant, stands for.
fn known(word: &OsString) -> Option<&'static Meaning> {
    let word = word.to_str()?.trim_matches(['[', ']']);
    let named = |meaning: &&Meaning| meaning.name == word.trim_start_matches("REFAL5_");
    match word.parse() {
        Ok(number) => refal5::meaning(number),
        Err(_) => REFUSALS.iter().find(named),
    }
}

fn short(meaning: &Meaning, output: &Output) -> String {
    if output.options.json {
        return object(meaning);
    }
    let number = format!("{:>4}", meaning.number);
    let call = format!("{:<8}", meaning.call.name());
    format!(
        "{} {call} {}\n",
        output.styles().red(&number),
        meaning.title
    )
}

fn long(meaning: &Meaning, output: &Output) -> String {
    if output.options.json {
        return object(meaning);
    }
    let style = output.styles();
    let head = format!("[{}]", meaning.number);
    let mut out = format!("{} {}\n", style.red(&head), style.bold(meaning.title));
    out += &format!("  {}\n", meaning.meaning);
    out += &example("wrong", meaning.wrong, style);
    out += &example("right", meaning.right, style);
    out
}

fn example(word: &str, example: Example, style: Style) -> String {
    let mut out = format!("  {}\n", style.green(&format!("{word}:")));
    for line in example.text().lines() {
        let cut: String = line.chars().take(WIDTH).collect();
        let end = if cut.len() < line.len() { "…" } else { "" };
        out += &format!("    {cut}{end}\n");
    }
    out
}

fn object(meaning: &Meaning) -> String {
    let object = Object::new()
        .plain("number", meaning.number)
        .string("name", meaning.name)
        .string("call", meaning.call.name())
        .string("title", meaning.title)
        .string("meaning", meaning.meaning)
        .string("wrong", &meaning.wrong.text())
        .string("right", &meaning.right.text());
    object.end() + "\n"
}
