//! `refal5 diff`: the rules that differ between two files, and their sentences side by side.

use std::io;

use refal5::rows::{NodeRows, TokenRows, Tokens};
use refal5::{Change, Diagnosis, Difference, Span, one_line};

use crate::args::Args;
use crate::check::{refused, unreadable};
use crate::json::{Object, array};
use crate::output::{Output, Style};
use crate::{Status, input};

/// Characters of a sentence on each side.
const WIDTH: usize = 60;

/// Status 0 where nothing differs, 1 where something does, 2 where a file is refused.
pub fn run(args: &Args, output: &mut Output) -> io::Result<Status> {
    let mut sources = Vec::new();
    for name in &args.files {
        let file = input::shown(name);
        output.progress.begin(&file);
        match input::read(name) {
            Ok(source) => sources.push((file, source)),
            Err(error) => return unreadable(&file, &error, output),
        }
    }
    for (file, source) in &sources {
        if let Err(diagnosis) = refal5::check(source) {
            refused(file, source, &diagnosis, output)?;
            return Ok(Status::Failed);
        }
    }
    let (old, new) = (&sources[0].1, &sources[1].1);
    let (mut a, mut b) = (TokenRows::new(), TokenRows::new());
    let (mut c, mut d) = (NodeRows::new(), NodeRows::new());
    let explained = |refusal| io::Error::other(Diagnosis::of_reading(old, refusal));
    let (old, new) = (
        a.read(old).map_err(explained)?,
        b.read(new).map_err(explained)?,
    );
    let trees = (
        c.parse(old).map_err(explained)?,
        d.parse(new).map_err(explained)?,
    );
    let found = refal5::differences(trees.0, trees.1);
    for difference in &found {
        let text = if output.options.json {
            object(difference, old, new)
        } else {
            text(difference, old, new, output.styles())
        };
        output.print(&text)?;
    }
    Ok(if found.is_empty() {
        Status::Fine
    } else {
        Status::Refused
    })
}

fn word(change: &Change) -> &'static str {
    match change {
        Change::Added => "added",
        Change::Removed => "removed",
        Change::Changed { .. } => "changed",
    }
}

fn text(difference: &Difference<'_>, old: Tokens<'_>, new: Tokens<'_>, style: Style) -> String {
    let what = if difference.declared {
        "the declared name"
    } else {
        "the rule"
    };
    let head = format!("{}: {what} {}", word(&difference.change), difference.name);
    let (before, after) = difference.spans;
    let places: Vec<String> = [("old", before, old), ("new", after, new)]
        .into_iter()
        .filter_map(|(name, span, tokens)| Some(format!("{name} line {}", line(tokens, span?))))
        .collect();
    let mut out = style.bold(&head);
    if !places.is_empty() {
        out += &format!(" ({})", places.join(", "));
    }
    out.push('\n');
    if let Change::Changed { sentences, entry } = &difference.change {
        match entry {
            Some(true) => out += "  it is marked $ENTRY now\n",
            Some(false) => out += "  it is not marked $ENTRY any more\n",
            None => {}
        }
        for (before, after) in sentences {
            out += &beside(&side(old, *before), &side(new, *after), style);
        }
    }
    out
}

/// A sentence's line and text, or nothing.
fn side(tokens: Tokens<'_>, span: Option<Span>) -> String {
    span.map_or(String::new(), |span| {
        format!("{}: {}", line(tokens, span), one_line(tokens, span))
    })
}

fn line(tokens: Tokens<'_>, span: Span) -> usize {
    let before = &tokens.source()[..span.start];
    1 + before.bytes().filter(|&byte| byte == b'\n').count()
}

/// Two texts in columns, cut into lines.
fn beside(old: &str, new: &str, style: Style) -> String {
    let (old, new) = (cut(old), cut(new));
    let mut out = String::new();
    for at in 0..old.len().max(new.len()) {
        let left = old.get(at).map_or("", String::as_str);
        let right = new.get(at).map_or("", String::as_str);
        let pad = " ".repeat(WIDTH - left.chars().count());
        let sign = match (at, left.is_empty(), right.is_empty()) {
            (0, false, false) => "|",
            (0, false, true) => "<",
            (0, true, _) => ">",
            _ => "|",
        };
        let line = format!("  {}{pad} {sign} {}", style.red(left), style.green(right));
        out += line.trim_end();
        out.push('\n');
    }
    out
}

/// Lines of at most so many characters, broken at spaces where there are some.
fn cut(text: &str) -> Vec<String> {
    let mut lines = vec![String::new()];
    for word in text.split_inclusive(' ') {
        let last = lines.last_mut().expect("there is a line");
        if last.chars().count() + word.trim_end().chars().count() <= WIDTH {
            last.push_str(word);
            continue;
        }
        let characters: Vec<char> = word.chars().collect();
        lines.extend(characters.chunks(WIDTH).map(String::from_iter));
    }
    let trimmed = lines.iter().map(|line| line.trim_end().to_owned());
    trimmed.filter(|line| !line.is_empty()).collect()
}

fn object(difference: &Difference<'_>, old: Tokens<'_>, new: Tokens<'_>) -> String {
    let object = Object::new()
        .string("change", word(&difference.change))
        .string("name", difference.name)
        .plain("declared", difference.declared);
    let (before, after) = difference.spans;
    let mut object = object;
    for (name, span, tokens) in [("old", before, old), ("new", after, new)] {
        if let Some(span) = span {
            object = object.plain(name, place(tokens, span).end());
        }
    }
    if let Change::Changed { sentences, entry } = &difference.change {
        if let Some(entry) = entry {
            object = object.plain("entry", entry);
        }
        let pair = |(before, after): &(Option<Span>, Option<Span>)| {
            let mut object = Object::new();
            for (name, span, tokens) in [("old", before, old), ("new", after, new)] {
                if let Some(span) = span {
                    let text = one_line(tokens, *span);
                    object = object.plain(name, place(tokens, *span).string("text", &text).end());
                }
            }
            object.end()
        };
        let pairs: Vec<String> = sentences.iter().map(pair).collect();
        object = object.plain("sentences", array(&pairs));
    }
    object.end() + "\n"
}

fn place(tokens: Tokens<'_>, span: Span) -> Object {
    Object::new()
        .plain("line", line(tokens, span))
        .plain("start", span.start)
        .plain("end", span.end)
}
