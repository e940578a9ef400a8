//! `refal5 page`: a source and its tree side by side, in one HTML file that needs no other.

mod data;
mod units;

use std::ffi::OsStr;
use std::io;
use std::path::Path;

use crate::args::Args;
use crate::check::{refused, unreadable};
use crate::output::Output;
use crate::{Status, input};

const HTML: &str = include_str!("page.html");
const CSS: &str = include_str!("page.css");
/// The script's parts, which share their names.
const JS: &str = concat!(
    "'use strict';\n(() => {\n",
    include_str!("js/data.js"),
    include_str!("js/rows.js"),
    include_str!("js/source.js"),
    include_str!("js/tree.js"),
    include_str!("js/pane.js"),
    include_str!("js/path.js"),
    include_str!("js/light.js"),
    include_str!("js/pointer.js"),
    include_str!("js/keyboard.js"),
    include_str!("js/find.js"),
    include_str!("js/outline.js"),
    include_str!("js/problems.js"),
    "})();\n"
);

/// Makes the page of a source, refused or not, but for one that is too long to be read.
pub fn run(args: &Args, output: &mut Output) -> io::Result<Status> {
    let name = &args.files[0];
    let file = input::shown(name);
    output.progress.begin(&file);
    let source = match input::read(name) {
        Ok(source) => source,
        Err(error) => return unreadable(&file, &error, output),
    };
    let checked = refal5::check(&source);
    if !matches!(&checked, Err(diagnosis) if diagnosis.refusal.number == 1) {
        output.print(&fill(&title(name), &data::of(&source)))?;
    }
    match checked {
        Ok(_) => Ok(Status::Fine),
        Err(diagnosis) => refused(&file, &source, &diagnosis, output),
    }
}

/// A file's own name: the page may be mailed, and the folders say nothing there.
fn title(name: &OsStr) -> String {
    let own = Path::new(name).file_name();
    input::shown(own.unwrap_or(name))
}

/// The page with its parts put in. What is put in is not looked through again.
fn fill(file: &str, data: &str) -> String {
    let mut page = String::with_capacity(HTML.len() + CSS.len() + JS.len() + data.len());
    for (number, piece) in HTML.split('@').enumerate() {
        match piece {
            _ if number % 2 == 0 => page.push_str(piece),
            "FILE" => page.push_str(&escaped(file)),
            "CSS" => page.push_str(CSS),
            "JS" => page.push_str(JS),
            _ => page.push_str(data),
        }
    }
    page
}

fn escaped(text: &str) -> String {
    text.replace('&', "&amp;")
        .replace('<', "&lt;")
        .replace('>', "&gt;")
}
