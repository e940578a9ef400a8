//! Why two files cannot be linked, for people and for machines.

use refal5::{LinkError, MOST_LINK_PROBLEMS, Named};

use super::marks::{self, Ink, Mark};
use super::place_object;
use crate::check::Checked;
use crate::json::{Object, array};
use crate::output::Style;

/// A problem after the other, with an empty line between two.
pub fn text(files: [&Checked; 2], problems: &[LinkError], style: Style) -> String {
    let texts: Vec<String> = problems
        .iter()
        .map(|problem| one(files, problem, style))
        .collect();
    let mut out = texts.join("\n");
    if stopped(problems) {
        let count = problems.len();
        out += &format!(
            "\n{}: these are the first {count}; there may be more.\n",
            files[0].file
        );
    }
    out
}

/// Whether more problems were not looked for.
fn stopped(problems: &[LinkError]) -> bool {
    problems.len() >= MOST_LINK_PROBLEMS
}

/// The file that a name stands in.
fn file<'a>(files: [&'a Checked; 2], named: &Named) -> &'a Checked {
    files[usize::from(named.file == 2)]
}

fn heading(files: [&Checked; 2], named: &Named) -> String {
    let place = &named.place;
    format!(
        "{}:{}:{}:",
        file(files, named).file,
        place.line,
        place.column
    )
}

fn one(files: [&Checked; 2], problem: &LinkError, style: Style) -> String {
    let LinkError { shown, other, .. } = problem;
    let number = format!("error [{}]:", problem.refusal.number);
    let mut out = format!(
        "{} {} {}\n",
        style.bold(&heading(files, shown)),
        style.red(&number),
        style.bold(&problem.message)
    );
    let (here, there) = labels(problem);
    let mut marks = vec![Mark::new(shown.place, '^', here, Ink::Red)];
    let apart = other.as_ref().filter(|other| other.file != shown.file);
    if let Some(other) = other.as_ref().filter(|_| apart.is_none()) {
        marks.push(Mark::new(other.place, '-', there.clone(), Ink::Blue));
        // In the order in which they stand.
        if other.place.span.start < shown.place.span.start {
            marks.reverse();
        }
    }
    marks::draw(&mut out, &file(files, shown).source, &marks, style);
    if let Some(other) = apart {
        out += &format!("  {}\n", style.bold(&heading(files, other)));
        let marks = [Mark::new(other.place, '-', there, Ink::Blue)];
        marks::draw(&mut out, &file(files, other).source, &marks, style);
    }
    out += &format!("  {} {}\n", style.green("what to do:"), problem.advice);
    out
}

/// What is said of the place shown and of the other.
fn labels(problem: &LinkError) -> (String, String) {
    match problem.refusal.number {
        60 => return ("again here".into(), "first here".into()),
        62 if problem.is_nearest => return ("used here".into(), "the nearest variable".into()),
        62 => return ("used here".into(), "matched here".into()),
        _ => (),
    }
    let here = match problem.calls {
        1 => "called here".into(),
        2 => "called here, and once more".into(),
        calls => format!("called here, and {} times more", calls - 1),
    };
    (here, "the nearest name".into())
}

/// The first problem for machines, with the others under `more`.
pub fn json(files: [&Checked; 2], problems: &[LinkError]) -> String {
    let object = Object::new()
        .string("file", &files[0].file)
        .string("with", &files[1].file)
        .plain("ok", false);
    let [first, more @ ..] = problems else {
        return object.end() + "\n";
    };
    let object = fields(object, files, first);
    let more: Vec<String> = more
        .iter()
        .map(|problem| fields(Object::new(), files, problem).end())
        .collect();
    let object = if more.is_empty() {
        object
    } else {
        object
            .plain("more", array(&more))
            .plain("stopped", stopped(problems))
    };
    object.end() + "\n"
}

fn fields(object: Object, files: [&Checked; 2], problem: &LinkError) -> Object {
    let refusal = &problem.refusal;
    let object = object
        .plain("number", refusal.number)
        .plain("expected", refusal.expected)
        .plain("found", refusal.found)
        .plain("start", refusal.span.start)
        .plain("end", refusal.span.end)
        .plain("need", refusal.need)
        .plain("shown", named(files, &problem.shown));
    let key = match refusal.number {
        60 => "first",
        _ if problem.is_nearest => "nearest",
        _ => "matched",
    };
    let object = match &problem.other {
        Some(other) => object.plain(key, named(files, other)),
        None => object,
    };
    let object = match problem.calls {
        0 => object,
        calls => object.plain("calls", calls),
    };
    object
        .string("message", &problem.message)
        .string("advice", &problem.advice)
}

fn named(files: [&Checked; 2], named: &Named) -> String {
    place_object(&named.place)
        .string("file", &file(files, named).file)
        .string("name", &named.name)
        .end()
}
