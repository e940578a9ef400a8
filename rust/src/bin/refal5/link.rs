//! `refal5 link`: two files loaded together.

use std::io;

use refal5::LinkError;
use refal5::rows::{NodeRows, TokenRows, Tree};

use crate::Status;
use crate::args::Args;
use crate::check::{Checked, Reports, checked};
use crate::json::Object;
use crate::output::Output;

pub fn run(args: &Args, output: &mut Output) -> io::Result<Status> {
    let mut reports = Reports::new(output);
    let mut status = Status::Fine;
    let mut files = Vec::new();
    for name in &args.files {
        match checked(name, &mut reports)? {
            Ok(file) => files.push(file),
            Err(one) => status = status.max(one),
        }
    }
    let [one, two] = &files[..] else {
        return Ok(status);
    };
    match link(one, two) {
        Ok(calls) => {
            output.print(&linked(one, two, calls, output.options.json))?;
            Ok(Status::Fine)
        }
        Err(problems) => reports.unlinked([one, two], &problems),
    }
}

/// The number of calls of two files that can be linked, or all that is wrong with them.
pub fn link(one: &Checked, two: &Checked) -> Result<usize, Vec<LinkError>> {
    let (mut tokens, mut nodes) = (TokenRows::new(), NodeRows::new());
    let one = tree(one, &mut tokens, &mut nodes);
    let (mut tokens, mut nodes) = (TokenRows::new(), NodeRows::new());
    let two = tree(two, &mut tokens, &mut nodes);
    refal5::link(one, two).map_err(|_| refal5::link_problems(one, two))
}

fn tree<'a>(file: &'a Checked, tokens: &'a mut TokenRows, nodes: &'a mut NodeRows) -> Tree<'a> {
    let tokens = tokens.read(&file.source).expect("the file is accepted");
    nodes.parse(tokens).expect("the file is accepted")
}

fn linked(one: &Checked, two: &Checked, calls: usize, json: bool) -> String {
    if json {
        let object = Object::new()
            .string("file", &one.file)
            .string("with", &two.file)
            .plain("ok", true);
        return object.plain("calls", calls).end() + "\n";
    }
    let calls = match calls {
        0 => "there are no calls".into(),
        1 => "1 call, of a rule or a declared function".into(),
        _ => format!("{calls} calls, each of a rule or a declared function"),
    };
    format!("{} with {}: {calls}\n", one.file, two.file)
}
