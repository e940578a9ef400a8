//! `refal5 man`: the manual page, made from the help.

/// The page as troff, from the text that `--help` prints: a line at the margin that ends with a colon, or starts a part, is a
/// heading; lines further in are kept as they are.
pub fn page(help: &str) -> String {
    let mut out = format!(
        ".TH REFAL5 1 \"\" \"refal5 {}\" \"User Commands\"\n.SH NAME\nrefal5 \\- {}\n",
        env!("CARGO_PKG_VERSION"),
        escaped(first_line(help))
    );
    let rest = help.split_once('\n').map_or("", |parts| parts.1);
    for part in rest.trim().split("\n\n") {
        put(part, &mut out);
    }
    out
}

/// What the command is, without its name.
fn first_line(help: &str) -> &str {
    let line = help.lines().next().unwrap_or("");
    line.strip_prefix("refal5: ").unwrap_or(line)
}

fn put(part: &str, out: &mut String) {
    let (first, rest) = part.split_once('\n').unwrap_or((part, ""));
    match first.split_once(": ").filter(|(word, _)| is_heading(word)) {
        Some((word, text)) => {
            heading(word, out);
            plain(text, out);
            plain(rest, out);
        }
        None => match first.strip_suffix(':') {
            Some(word) => {
                heading(word, out);
                out.push_str(".nf\n");
                plain(rest, out);
                out.push_str(".fi\n");
            }
            None => {
                out.push_str(".PP\n");
                plain(part, out);
            }
        },
    }
}

/// Whether a word before a colon names a part: "Usage", "Exit status", "Words".
fn is_heading(word: &str) -> bool {
    word.split(' ').count() <= 2 && word.starts_with(|c: char| c.is_ascii_uppercase())
}

fn heading(word: &str, out: &mut String) {
    out.push_str(&format!(".SH {}\n", escaped(&word.to_uppercase())));
}

fn plain(text: &str, out: &mut String) {
    for line in text.lines() {
        out.push_str(&escaped(line));
        out.push('\n');
    }
}

/// A line that troff prints as it is.
fn escaped(line: &str) -> String {
    let line = line
        .replace('\\', "\\e")
        .replace('-', "\\-")
        .replace('\'', "\\(aq")
        .replace('`', "\\(ga");
    if line.starts_with('.') {
        format!("\\&{line}")
    } else {
        line
    }
}
