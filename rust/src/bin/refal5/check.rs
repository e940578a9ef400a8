//! `refal5 check` and what all commands do with a file that cannot be read or is refused.

use std::ffi::OsStr;
use std::io;

use refal5::rows::TokenRows;
use refal5::{Accepted, Diagnosis, LinkError, Note};

use crate::args::Args;
use crate::json::Object;
use crate::output::Output;
use crate::{Status, input, link, report};

pub fn run(args: &Args, output: &mut Output) -> io::Result<Status> {
    let mut reports = Reports::new(output);
    let mut status = Status::Fine;
    let with = match args.with.as_deref() {
        Some(name) => checked(name, &mut reports)?
            .map_err(|one| status = one)
            .ok(),
        None => None,
    };
    for name in &args.files {
        let one = match checked(name, &mut reports)? {
            Ok(file) => match with.as_ref().map(|with| (with, link::link(&file, with))) {
                Some((with, Err(problems))) => reports.unlinked([&file, with], &problems)?,
                Some((with, Ok(calls))) => fine(&file, Some((with, calls)), output)?,
                None => fine(&file, None, output)?,
            },
            Err(one) => one,
        };
        status = status.max(one);
    }
    Ok(status)
}

/// A file that reading and parsing accept.
pub struct Checked {
    pub file: String,
    pub source: Vec<u8>,
    accepted: Accepted,
}

/// Reads and checks a file, and prints what is wrong with it.
pub fn checked(name: &OsStr, reports: &mut Reports<'_>) -> io::Result<Result<Checked, Status>> {
    let file = input::shown(name);
    reports.output.progress.begin(&file);
    let source = match input::read(name) {
        Ok(source) => source,
        Err(error) => return unreadable(&file, &error, reports.output).map(Err),
    };
    match refal5::check(&source) {
        Ok(accepted) => Ok(Ok(Checked {
            file,
            source,
            accepted,
        })),
        Err(diagnosis) => reports.refused(&file, &source, &diagnosis).map(Err),
    }
}

/// Prints what is wrong, for people with an empty line between two files.
pub struct Reports<'a> {
    output: &'a Output,
    apart: &'static str,
}

impl<'a> Reports<'a> {
    pub fn new(output: &'a Output) -> Self {
        Self { output, apart: "" }
    }

    fn refused(&mut self, file: &str, source: &[u8], diagnosis: &Diagnosis) -> io::Result<Status> {
        if self.output.options.json {
            self.output.print(&report::json(file, source, diagnosis))?;
            return Ok(Status::Refused);
        }
        let styles = self.output.styles();
        self.text(&report::text(file, source, diagnosis, styles))
    }

    /// Two files that cannot be linked.
    pub fn unlinked(&mut self, files: [&Checked; 2], problems: &[LinkError]) -> io::Result<Status> {
        if self.output.options.json {
            self.output.print(&report::link::json(files, problems))?;
            return Ok(Status::Refused);
        }
        let styles = self.output.styles();
        self.text(&report::link::text(files, problems, styles))
    }

    fn text(&mut self, text: &str) -> io::Result<Status> {
        self.output.print(&format!("{}{text}", self.apart))?;
        self.apart = "\n";
        Ok(Status::Refused)
    }
}

/// A file that is accepted: its counts where they are wanted, with the calls where it is linked with another, and the notes
/// on it.
fn fine(file: &Checked, linked: Option<(&Checked, usize)>, output: &Output) -> io::Result<Status> {
    let Checked {
        file,
        source,
        accepted: Accepted { tokens, nodes },
    } = file;
    let (tokens, nodes) = (*tokens, *nodes);
    let notes = if output.options.notes {
        notes_on(source)
    } else {
        Vec::new()
    };
    if output.options.json {
        let object = Object::new()
            .string("file", file)
            .plain("ok", true)
            .plain("tokens", tokens)
            .plain("nodes", nodes);
        let object = match linked {
            Some((with, calls)) => object.string("with", &with.file).plain("calls", calls),
            None => object,
        };
        let object = if output.options.notes {
            object.plain("notes", report::json_notes(&notes))
        } else {
            object
        };
        output.print(&(object.end() + "\n"))?;
        return Ok(Status::Fine);
    }
    if output.options.verbose {
        let (tokens, nodes) = (counted(tokens, "token"), counted(nodes, "node"));
        let calls = linked.map_or(String::new(), |(with, calls)| {
            format!("; with {}: {}", with.file, counted(calls, "call"))
        });
        output.print(&format!("{file}: accepted, {tokens}, {nodes}{calls}\n"))?;
    }
    output.print(&report::notes(file, &notes, output.styles()))?;
    Ok(Status::Fine)
}

fn notes_on(source: &[u8]) -> Vec<Note> {
    let mut rows = TokenRows::new();
    rows.read(source).map_or(Vec::new(), refal5::notes)
}

/// A number of things.
pub fn counted(number: usize, thing: &str) -> String {
    let end = if number == 1 { "" } else { "s" };
    format!("{number} {thing}{end}")
}

/// A file that cannot be read.
pub fn unreadable(file: &str, error: &io::Error, output: &Output) -> io::Result<Status> {
    if output.options.json {
        let object = Object::new()
            .string("file", file)
            .plain("ok", false)
            .string("error", &error.to_string());
        output.print(&(object.end() + "\n"))?;
    } else {
        output.complain(&format!("refal5: {file}: {error}\n"));
    }
    Ok(Status::Failed)
}

/// A file that another command than check finds refused: it goes to standard error, or as an object among the others.
pub fn refused(
    file: &str,
    source: &[u8],
    diagnosis: &Diagnosis,
    output: &Output,
) -> io::Result<Status> {
    if output.options.json {
        output.print(&report::json(file, source, diagnosis))?;
    } else {
        output.complain(&report::text(
            file,
            source,
            diagnosis,
            output.error_styles(),
        ));
    }
    Ok(Status::Refused)
}
