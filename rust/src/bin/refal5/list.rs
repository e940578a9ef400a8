//! `refal5 list`: the rules of each file, with what they call.

use std::io;

use refal5::Rule;

use crate::json::{Object, array, quoted};
use crate::listing::{Listing, Sink, Trouble};

pub fn list(listing: &Listing<'_>, out: &mut Sink<'_>) -> Result<(), Trouble> {
    listing.with_tree(|_, tree| {
        let rules = refal5::outline(tree);
        if listing.json {
            for rule in &rules {
                out.line(&object(listing.file, rule))?;
            }
            return Ok(());
        }
        Ok(lines(&rules, out)?)
    })
}

/// A line for each rule, in columns.
fn lines(rules: &[Rule<'_>], out: &mut Sink<'_>) -> io::Result<()> {
    if rules.is_empty() {
        return Ok(());
    }
    let places: Vec<String> = rules
        .iter()
        .map(|rule| match rule.lines {
            (first, last) if first == last => first.to_string(),
            (first, last) => format!("{first}-{last}"),
        })
        .collect();
    let longest = |lengths: &mut dyn Iterator<Item = usize>| lengths.max().unwrap_or(0);
    let place = longest(&mut places.iter().map(String::len)).max("lines".len());
    let name = longest(&mut rules.iter().map(|rule| rule.name.len())).max("rule".len());
    out.line(&format!(
        "{:<place$}  {:<name$}  {:<5}  sentences  calls",
        "lines", "rule", "entry"
    ))?;
    for (rule, lines) in rules.iter().zip(&places) {
        let entry = if rule.entry { "entry" } else { "" };
        let calls = rule.calls.join(", ");
        out.line(&format!(
            "{lines:<place$}  {:<name$}  {entry:<5}  {:>9}  {calls}",
            rule.name, rule.sentences
        ))?;
    }
    Ok(())
}

fn object(file: &str, rule: &Rule<'_>) -> String {
    let calls: Vec<String> = rule.calls.iter().map(|name| quoted(name)).collect();
    Object::new()
        .string("file", file)
        .string("name", rule.name)
        .plain("entry", rule.entry)
        .plain("sentences", rule.sentences)
        .plain("calls", array(&calls))
        .plain("first", rule.lines.0)
        .plain("last", rule.lines.1)
        .plain("start", rule.span.start)
        .plain("end", rule.span.end)
        .end()
}
