//! A refusal as the command prints it, for people and for machines.

mod excerpt;
pub mod link;
mod marks;
mod notes;

use refal5::{Diagnosis, Gap, Place, Problem};

use crate::json::{Object, array};
use crate::output::Style;
use marks::{Ink, Mark};

pub use notes::{json as json_notes, text as notes};

/// All that is wrong with a source that is refused, for people.
pub fn text(file: &str, source: &[u8], diagnosis: &Diagnosis, style: Style) -> String {
    let Found { problems, stopped } = found(source, diagnosis);
    let texts: Vec<String> = problems
        .iter()
        .map(|problem| one(file, source, problem, style))
        .collect();
    let mut out = texts.join("\n");
    if stopped {
        let count = problems.len();
        out += &format!("\n{file}: these are the first {count}; there may be more.\n");
    }
    out
}

/// What is wrong with a source that is refused, in the order in which it stands.
struct Found {
    problems: Vec<Problem>,
    stopped: bool,
}

fn found(source: &[u8], diagnosis: &Diagnosis) -> Found {
    let recovered = refal5::recover(source);
    let (mut problems, stopped) = (recovered.problems, recovered.stopped);
    // 42 comes of writing, which is not tried again.
    if !problems
        .iter()
        .any(|problem| problem.diagnosis == *diagnosis)
    {
        problems.insert(
            0,
            Problem {
                diagnosis: diagnosis.clone(),
                possibly: false,
            },
        );
    }
    Found { problems, stopped }
}

/// A problem: its place, the source's lines with marks under them, and what to do.
fn one(file: &str, source: &[u8], problem: &Problem, style: Style) -> String {
    let diagnosis = &problem.diagnosis;
    let place = format!(
        "{file}:{}:{}:",
        diagnosis.meant.line, diagnosis.meant.column
    );
    let kind = if problem.possibly {
        "possibly an error"
    } else {
        "error"
    };
    let number = format!("{kind} [{}]:", diagnosis.refusal.number);
    let mut out = format!(
        "{} {} {}\n",
        style.bold(&place),
        style.red(&number),
        style.bold(&diagnosis.message)
    );
    if has_place(diagnosis) {
        marks::draw(&mut out, source, &marked(diagnosis), style);
    }
    out += &format!("  {} {}\n", style.green("what to do:"), diagnosis.advice);
    out
}

/// Whether the refusal is about a place of the source: 1 and 42 are about the whole.
fn has_place(diagnosis: &Diagnosis) -> bool {
    !matches!(diagnosis.refusal.number, 1 | 42)
}

/// The places of a refusal in the order in which they stand.
fn marked(diagnosis: &Diagnosis) -> Vec<Mark> {
    let mut marks = Vec::new();
    if let Some(Gap {
        place,
        write,
        guess,
    }) = diagnosis.gap
    {
        let possibly = if guess { "possibly " } else { "" };
        let label = format!("{possibly}`{write}` is missing here");
        marks.push(Mark::new(place, '+', label, Ink::Green));
    }
    let label = if diagnosis.differs() {
        "found here"
    } else {
        ""
    };
    marks.push(Mark::new(diagnosis.meant, '^', label.into(), Ink::Red));
    if let Some(token) = &diagnosis.shown_token {
        let label = format!("the place shown comes after it: {token}");
        marks.push(Mark::new(diagnosis.shown, '-', label, Ink::Blue));
    }
    marks
}

/// The refusal for machines, with the other problems of the source under `more`.
pub fn json(file: &str, source: &[u8], diagnosis: &Diagnosis) -> String {
    let object = Object::new().string("file", file).plain("ok", false);
    let object = fields(object, diagnosis);
    let Found { problems, stopped } = found(source, diagnosis);
    let more: Vec<String> = problems
        .iter()
        .filter(|problem| problem.diagnosis != *diagnosis)
        .map(|problem| {
            let object = Object::new().plain("possibly", problem.possibly);
            fields(object, &problem.diagnosis).end()
        })
        .collect();
    let object = if more.is_empty() {
        object
    } else {
        object.plain("more", array(&more)).plain("stopped", stopped)
    };
    object.end() + "\n"
}

fn fields(object: Object, diagnosis: &Diagnosis) -> Object {
    let refusal = &diagnosis.refusal;
    let object = object
        .plain("number", refusal.number)
        .plain("expected", refusal.expected)
        .plain("found", refusal.found)
        .plain("start", refusal.span.start)
        .plain("end", refusal.span.end)
        .plain("need", refusal.need)
        .plain("meant", json_place(&diagnosis.meant))
        .plain("shown", json_place(&diagnosis.shown));
    let object = match &diagnosis.gap {
        Some(gap) => object.plain("gap", json_gap(gap)),
        None => object,
    };
    object
        .string("message", &diagnosis.message)
        .string("advice", &diagnosis.advice)
}

fn json_place(place: &Place) -> String {
    place_object(place).end()
}

fn json_gap(gap: &Gap) -> String {
    place_object(&gap.place)
        .string("write", gap.write)
        .plain("guess", gap.guess)
        .end()
}

fn place_object(place: &Place) -> Object {
    Object::new()
        .plain("line", place.line)
        .plain("column", place.column)
        .plain("start", place.span.start)
        .plain("end", place.span.end)
}
