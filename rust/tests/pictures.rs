//! docs/img/check.svg is what `refal5 check` prints on a terminal. With UPDATE_GOLDEN set it is drawn anew.

use std::env;
use std::fmt::Write;
use std::fs;
use std::path::Path;
use std::process::Command;

const FILES: [&str; 3] = [
    "34-condition-after-equals.ref",
    "14-variable-then-a-word.ref",
    "22-newline-in-literal.ref",
];

const LINE: usize = 19;
const CHARACTER: f64 = 8.43;

/// Text with the colours of a terminal as an SVG picture.
fn drawn(text: &str) -> String {
    let lines: Vec<&str> = text.lines().collect();
    let longest = lines.iter().map(|line| bare(line)).max().unwrap_or(0);
    let width = (longest as f64 * CHARACTER).ceil() as usize + 32;
    let height = lines.len() * LINE + 28;
    let mut svg = format!(
        "<svg xmlns=\"http://www.w3.org/2000/svg\" width=\"{width}\" height=\"{height}\" viewBox=\"0 0 {width} {height}\" \
         role=\"img\" aria-label=\"What refal5 check prints\">\n\
         <rect width=\"100%\" height=\"100%\" rx=\"8\" fill=\"#1c2128\"/>\n\
         <g font-family=\"ui-monospace, 'DejaVu Sans Mono', Menlo, Consolas, monospace\" font-size=\"14\" fill=\"#e4e8ee\">\n"
    );
    for (number, line) in lines.iter().enumerate() {
        let y = 26 + number * LINE;
        writeln!(svg, "<text x=\"16\" y=\"{y}\">{}</text>", spans(line))
            .expect("a string takes all");
    }
    svg + "</g>\n</svg>\n"
}

/// The number of characters without colours.
fn bare(line: &str) -> usize {
    line.split('\u{1b}')
        .enumerate()
        .map(|(at, piece)| {
            let text = if at == 0 {
                piece
            } else {
                piece.split_once('m').map_or(piece, |parts| parts.1)
            };
            text.chars().count()
        })
        .sum()
}

/// A line with its colours as SVG spans.
fn spans(line: &str) -> String {
    let mut out = String::new();
    for (at, piece) in line.split('\u{1b}').enumerate() {
        let (code, text) = match piece.split_once('m').filter(|_| at > 0) {
            Some((code, text)) => (code, text),
            None => ("", piece),
        };
        // Spaces at a text's start are dropped by some viewers, others not.
        let text = text
            .replace('&', "&amp;")
            .replace('<', "&lt;")
            .replace(' ', "\u{a0}");
        let style = match code {
            "[1" => "font-weight=\"bold\"",
            "[1;31" => "font-weight=\"bold\" fill=\"#ff7b72\"",
            "[1;34" => "font-weight=\"bold\" fill=\"#79c0ff\"",
            "[1;32" => "font-weight=\"bold\" fill=\"#7ee787\"",
            _ => {
                out += &text;
                continue;
            }
        };
        write!(out, "<tspan {style}>{text}</tspan>").expect("a string takes all");
    }
    out
}

#[test]
fn what_check_prints() {
    let here = Path::new(env!("CARGO_MANIFEST_DIR"));
    let output = Command::new(env!("CARGO_BIN_EXE_refal5"))
        .args(["check", "--color=always"])
        .args(FILES)
        .current_dir(here.join("tests/golden/refused"))
        .output()
        .expect("the command runs");
    let printed = String::from_utf8(output.stdout).expect("the command prints UTF-8");
    let svg = drawn(&format!("$ refal5 check {}\n{printed}", FILES.join(" ")));
    let path = here.join("../docs/img/check.svg");
    if env::var_os("UPDATE_GOLDEN").is_some() {
        fs::create_dir_all(path.parent().expect("it is in a folder")).expect("docs is writable");
        fs::write(&path, &svg).expect("the picture can be written");
    }
    assert!(
        fs::read_to_string(&path).is_ok_and(|drawn| drawn == svg),
        "docs/img/check.svg is not what is printed"
    );
}
