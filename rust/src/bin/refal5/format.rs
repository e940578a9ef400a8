//! `refal5 format`: a program laid out for people.

use std::io;

use refal5::rows::{TokenRows, Tokens};
use refal5::{Diagnosis, NoLayout};

use crate::args::Args;
use crate::check::{refused, unreadable};
use crate::json::Object;
use crate::output::Output;
use crate::{Status, input};

/// Prints each file laid out; with `--check` the names of those that are not.
pub fn run(args: &Args, output: &mut Output) -> io::Result<Status> {
    let mut status = Status::Fine;
    let headed = args.files.len() > 1 && !args.options.check;
    for name in &args.files {
        let file = input::shown(name);
        output.progress.begin(&file);
        let one = match input::read(name) {
            Ok(source) => one(&file, &source, headed, output)?,
            Err(error) => unreadable(&file, &error, output)?,
        };
        status = status.max(one);
    }
    Ok(status)
}

fn one(file: &str, source: &[u8], headed: bool, output: &Output) -> io::Result<Status> {
    let mut rows = TokenRows::new();
    let tokens = match rows.read(source) {
        Ok(tokens) => tokens,
        Err(refusal) => {
            return refused(
                file,
                source,
                &Diagnosis::of_reading(source, refusal),
                output,
            );
        }
    };
    match refal5::layout(tokens) {
        Ok(text) => put(file, tokens, &text, headed, output),
        Err(NoLayout::Refused(refusal)) => refused(
            file,
            source,
            &Diagnosis::of_parsing(tokens, refusal),
            output,
        ),
        Err(NoLayout::Differs) => {
            output.complain(&format!(
                "refal5: {file}: laid out it would not be the same program; it is left as it is\n"
            ));
            Ok(Status::Failed)
        }
    }
}

fn put(
    file: &str,
    tokens: Tokens<'_>,
    text: &str,
    headed: bool,
    output: &Output,
) -> io::Result<Status> {
    let laid_out = tokens.source() == text;
    if output.options.json {
        let object = Object::new()
            .string("file", file)
            .plain("formatted", laid_out);
        let object = if output.options.check {
            object
        } else {
            object.string("text", text)
        };
        output.print(&(object.end() + "\n"))?;
    } else if output.options.check {
        if !laid_out {
            output.print(&format!("{file}: is not laid out\n"))?;
        }
    } else {
        let heading = if headed {
            format!("* {file}\n")
        } else {
            String::new()
        };
        output.print(&format!("{heading}{text}"))?;
    }
    let failed = output.options.check && !laid_out;
    Ok(if failed {
        Status::Refused
    } else {
        Status::Fine
    })
}
