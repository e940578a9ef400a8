//! The command line.

use std::ffi::{OsStr, OsString};

#[derive(Debug, Clone, Copy, PartialEq, Eq)]
pub enum Command {
    Check,
    Tokens,
    Tree,
    Write,
    Page,
    Format,
    List,
    Diff,
    Link,
    Real,
    Explain,
    Lsp,
}

impl Command {
    /// Whether its words are files.
    pub fn takes_files(self) -> bool {
        !matches!(self, Self::Real | Self::Explain | Self::Lsp)
    }

    /// Whether a folder stands for the files in it.
    pub fn takes_folders(self) -> bool {
        self.takes_files() && !matches!(self, Self::Page | Self::Diff | Self::Link)
    }
}

/// The commands by name.
const COMMANDS: [(&str, Command); 12] = [
    ("check", Command::Check),
    ("tokens", Command::Tokens),
    ("tree", Command::Tree),
    ("write", Command::Write),
    ("page", Command::Page),
    ("format", Command::Format),
    ("list", Command::List),
    ("diff", Command::Diff),
    ("link", Command::Link),
    ("real", Command::Real),
    ("explain", Command::Explain),
    ("lsp", Command::Lsp),
];

/// When colours are used.
#[derive(Debug, Clone, Copy, PartialEq, Eq)]
pub enum When {
    Auto,
    Always,
    Never,
}

#[derive(Debug)]
pub struct Args {
    pub command: Command,
    pub files: Vec<OsString>,
    /// The file that `check` links each with.
    pub with: Option<OsString>,
    pub options: Options,
}

#[derive(Debug, Clone, Copy)]
pub struct Options {
    pub json: bool,
    pub verbose: bool,
    pub notes: bool,
    /// Whether `format` only says which files are not laid out.
    pub check: bool,
    pub color: When,
}

#[derive(Debug)]
pub enum Parsed {
    Help,
    Manual,
    Version,
    Run(Args),
}

/// The arguments, or what is wrong with them.
pub fn parse(args: impl Iterator<Item = OsString>) -> Result<Parsed, String> {
    let mut words = Vec::new();
    let mut with = None;
    let mut options = Options {
        json: false,
        verbose: false,
        notes: true,
        check: false,
        color: When::Auto,
    };
    let mut args = args.into_iter();
    while let Some(arg) = args.next() {
        match arg.to_str() {
            Some("--") => {
                words.extend(args.by_ref());
            }
            Some("-h" | "--help") => return Ok(Parsed::Help),
            Some("-V" | "--version") => return Ok(Parsed::Version),
            Some("--json") => options.json = true,
            Some("-v" | "--verbose") => options.verbose = true,
            Some("--no-notes") => options.notes = false,
            Some("--check") => options.check = true,
            Some("--with") => with = Some(args.next().ok_or("--with takes a file")?),
            Some(option) if option.starts_with("--with=") => with = Some(option[7..].into()),
            Some("--color") => options.color = when(args.next().as_deref())?,
            Some(option) if option.starts_with("--color=") => {
                options.color = when(Some(OsStr::new(&option[8..])))?;
            }
            Some(option) if option.starts_with('-') && option != "-" && !is_number(option) => {
                return Err(format!("unknown option `{option}`"));
            }
            _ => words.push(arg),
        }
    }
    let mut words = words.into_iter();
    let Some(word) = words.next() else {
        return Err("no command is given".into());
    };
    if word == "help" {
        return Ok(Parsed::Help);
    }
    if word == "man" {
        return Ok(Parsed::Manual);
    }
    let args = Args {
        command: command(&word)?,
        files: words.collect(),
        with,
        options,
    };
    match wrong(&args) {
        Some(what) => Err(what),
        None => Ok(Parsed::Run(args)),
    }
}

/// Whether a word is a number with a minus, which no option is.
fn is_number(word: &str) -> bool {
    word[1..].starts_with(|c: char| c.is_ascii_digit())
}

fn when(word: Option<&OsStr>) -> Result<When, String> {
    match word.and_then(OsStr::to_str) {
        Some("auto") => Ok(When::Auto),
        Some("always") => Ok(When::Always),
        Some("never") => Ok(When::Never),
        _ => Err("--color takes auto, always or never".into()),
    }
}

fn command(word: &OsStr) -> Result<Command, String> {
    COMMANDS
        .iter()
        .find(|(name, _)| word == *name)
        .map(|(_, command)| *command)
        .ok_or_else(|| format!("unknown command `{}`", word.display()))
}

/// What a command does not take.
fn wrong(args: &Args) -> Option<String> {
    if args.command == Command::Lsp && !args.files.is_empty() {
        return Some("lsp takes no file: an editor sends them".into());
    }
    if args.command == Command::Real && args.files.is_empty() {
        return Some("real takes texts: numbers with a point or an E".into());
    }
    if !args.command.takes_files() {
        return None;
    }
    if args.files.is_empty() {
        return Some("no file is given; - is standard input".into());
    }
    let files = args.files.iter().chain(&args.with);
    if files.filter(|file| *file == "-").count() > 1 {
        return Some("standard input can be read once only".into());
    }
    if args.options.check && args.command != Command::Format {
        return Some("--check goes with format".into());
    }
    if args.with.is_some() && args.command != Command::Check {
        return Some("--with goes with check".into());
    }
    if args.command == Command::Link && args.files.len() != 2 {
        return Some("link takes two files, the rules and the declarations".into());
    }
    if args.command == Command::Diff && args.files.len() != 2 {
        return Some("diff takes two files, the old one and the new one".into());
    }
    if args.command == Command::Page && (args.files.len() > 1 || args.options.json) {
        return Some("page takes one file, and no --json".into());
    }
    None
}
