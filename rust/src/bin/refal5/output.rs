//! Standard output and standard error, with colours where they are wanted.

use std::env;
use std::io::{self, IsTerminal, Write};

use crate::args::{Args, Options, When};
use crate::progress::Progress;

pub struct Output {
    pub options: Options,
    pub progress: Progress,
}

impl Output {
    pub fn new(args: &Args) -> Self {
        Self {
            options: args.options,
            progress: Progress::start(args.files.len() + usize::from(args.with.is_some())),
        }
    }

    /// Prints on standard output.
    pub fn print(&self, text: &str) -> io::Result<()> {
        self.progress.aside(|| print(text))
    }

    /// Prints on standard error.
    pub fn complain(&self, text: &str) {
        self.progress.aside(|| eprint!("{text}"));
    }

    pub fn styles(&self) -> Style {
        Style(self.wants_color(io::stdout().is_terminal()))
    }

    pub fn error_styles(&self) -> Style {
        Style(self.wants_color(io::stderr().is_terminal()))
    }

    fn wants_color(&self, terminal: bool) -> bool {
        match self.options.color {
            When::Always => true,
            When::Never => false,
            When::Auto => {
                terminal
                    && env::var_os("NO_COLOR").is_none_or(|value| value.is_empty())
                    && env::var_os("TERM").is_none_or(|term| term != "dumb")
            }
        }
    }
}

pub fn print(text: &str) -> io::Result<()> {
    let mut out = io::stdout().lock();
    out.write_all(text.as_bytes())?;
    out.flush()
}

/// Puts text in colours, or leaves it as it is.
#[derive(Debug, Clone, Copy)]
pub struct Style(pub bool);

impl Style {
    pub fn bold(self, text: &str) -> String {
        self.with("1", text)
    }

    pub fn red(self, text: &str) -> String {
        self.with("1;31", text)
    }

    pub fn blue(self, text: &str) -> String {
        self.with("1;34", text)
    }

    pub fn green(self, text: &str) -> String {
        self.with("1;32", text)
    }

    fn with(self, code: &str, text: &str) -> String {
        if self.0 && !text.is_empty() {
            format!("\u{1b}[{code}m{text}\u{1b}[0m")
        } else {
            text.into()
        }
    }
}
