//! The measurements as tables in Markdown.

use crate::measure::{Measured, Times, Whole, Written};

/// An input of fewer tokens says nothing on the time of one.
pub const FEW: usize = 1000;

fn megabytes(bytes: usize, time: Option<f64>) -> String {
    time.map_or_else(
        || "-".into(),
        |time| format!("{:.0}", bytes as f64 / time / 1e6),
    )
}

/// Nothing for an input of hardly any tokens.
fn nanoseconds(tokens: usize, time: Option<f64>) -> String {
    time.filter(|_| tokens >= FEW).map_or_else(
        || "-".into(),
        |time| format!("{:.1}", time / tokens as f64 * 1e9),
    )
}

fn ratio(a: Option<f64>, b: Option<f64>) -> String {
    match (a, b) {
        (Some(a), Some(b)) => format!("{:.2}", a / b),
        _ => "-".into(),
    }
}

pub fn size(bytes: usize) -> String {
    match bytes {
        _ if bytes >= 1 << 20 => format!("{:.1} MiB", bytes as f64 / (1 << 20) as f64),
        _ => format!("{:.0} KiB", bytes as f64 / 1024.0),
    }
}

/// Speeds of one step, with ratios of medians. Two ratios for the original: of its call, and of its
/// call together with giving back what it allocated.
pub fn step(title: &str, measured: &[Measured], times: fn(&Measured) -> Times) -> String {
    let mut text = format!(
        "## {title}\n\n\
         | input | size | tokens | original MB/s | ours MB/s | mark MB/s \
         | original ns/token | ours ns/token | mark ns/token \
         | times as fast as the original | its release included | time against the mark |\n\
         |---|---|---|---|---|---|---|---|---|---|---|---|\n"
    );
    for input in measured {
        let Times {
            original,
            released,
            ours,
            mark,
        } = times(input);
        let cells = [
            input.name.clone(),
            size(input.bytes),
            input.tokens.to_string(),
            megabytes(input.bytes, original),
            megabytes(input.bytes, ours),
            megabytes(input.bytes, mark),
            nanoseconds(input.tokens, original),
            nanoseconds(input.tokens, ours),
            nanoseconds(input.tokens, mark),
            ratio(original, ours),
            ratio(released, ours),
            ratio(ours, mark),
        ];
        text.push_str(&format!("| {} |\n", cells.join(" | ")));
    }
    text.push('\n');
    text
}

pub fn writing(measured: &[Measured]) -> String {
    let mut text = String::from(
        "## Writing\n\n\
         | input | text | write MB/s | read that text MB/s | write against read, per byte |\n\
         |---|---|---|---|---|\n",
    );
    for input in measured {
        if let Some(writing) = input.writing {
            let cells = [
                input.name.clone(),
                size(writing.bytes),
                megabytes(writing.bytes, Some(writing.write)),
                megabytes(writing.bytes, Some(writing.read_it)),
                ratio(Some(writing.write), Some(writing.read_it)),
            ];
            text.push_str(&format!("| {} |\n", cells.join(" | ")));
        }
    }
    text.push('\n');
    text
}

/// From a source to its tree and back to nothing allocated.
pub fn whole(rows: &[(&Measured, Whole)]) -> String {
    let mut text = String::from(
        "## End to end\n\n\
         | input | size | original ms | crate, types ms | crate, rows ms | crate, rows used again ms \
         | original against types | against rows | against rows used again |\n\
         |---|---|---|---|---|---|---|---|---|\n",
    );
    let milliseconds =
        |time: Option<f64>| time.map_or_else(|| "-".into(), |time| format!("{:.2}", time * 1e3));
    for (input, whole) in rows {
        let cells = [
            input.name.clone(),
            size(input.bytes),
            milliseconds(whole.original),
            milliseconds(Some(whole.types)),
            milliseconds(Some(whole.rows)),
            milliseconds(Some(whole.again)),
            ratio(whole.original, Some(whole.types)),
            ratio(whole.original, Some(whole.rows)),
            ratio(whole.original, Some(whole.again)),
        ];
        text.push_str(&format!("| {} |\n", cells.join(" | ")));
    }
    text.push('\n');
    text
}

/// Nanoseconds a byte at each size: about the same where the time is linear. The bytes are the source's.
pub fn growth_of_reading(rows: &[(String, Vec<(usize, f64)>)]) -> String {
    let mut text = String::from(
        "## Growth of reading\n\n\
         | input | 1 MiB, ns a byte | 4 MiB, ns a byte | 16 MiB, ns a byte |\n\
         |---|---|---|---|\n",
    );
    for (name, times) in rows {
        let cells: Vec<String> = times
            .iter()
            .map(|&(bytes, time)| a_byte(bytes, time))
            .collect();
        text.push_str(&format!("| {name} | {} |\n", cells.join(" | ")));
    }
    text.push('\n');
    text
}

/// The same of writing. The bytes are the text's.
pub fn growth_of_writing(rows: &[(String, Vec<Written>)]) -> String {
    let mut text = String::from(
        "## Growth of writing\n\n\
         | input | text of 1 MiB, ns a byte | 2 MiB | 4 MiB | 8 MiB | 16 MiB \
         | 16 MiB, nothing lent |\n\
         |---|---|---|---|---|---|---|\n",
    );
    for (name, times) in rows {
        let written = times.iter().map(|w| a_byte(w.bytes, w.write));
        let asked = times.last().map(|w| a_byte(w.bytes, w.ask));
        let cells: Vec<String> = written.chain(asked).collect();
        text.push_str(&format!("| {name} | {} |\n", cells.join(" | ")));
    }
    text
}

fn a_byte(bytes: usize, time: f64) -> String {
    format!("{:.2}", time / bytes as f64 * 1e9)
}

/// Peak memory: what the original holds, and the rows lent to the library.
pub fn memory(rows: &[(&Measured, Option<usize>)]) -> String {
    let mut text = String::from(
        "## Peak memory\n\n\
         | input | size | original | ours: token and node rows | original against ours |\n\
         |---|---|---|---|---|\n",
    );
    for (input, peak) in rows {
        let ours = 24 * input.tokens + 32 * input.nodes;
        let cells = [
            input.name.clone(),
            size(input.bytes),
            peak.map_or_else(|| "-".into(), size),
            size(ours),
            ratio(peak.map(|peak| peak as f64), Some(ours as f64)),
        ];
        text.push_str(&format!("| {} |\n", cells.join(" | ")));
    }
    text.push('\n');
    text
}
