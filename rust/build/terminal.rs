//! Cargo hides what a build script prints. What takes minutes is said on the terminal itself, or in the file that REFAL5_SAY
//! names; where neither can be had, nothing is said.

use std::env;
use std::ffi::OsString;
use std::fs::{File, OpenOptions};
use std::io::Write;
use std::sync::mpsc::{self, Receiver, RecvTimeoutError, Sender};
use std::thread::{self, JoinHandle};
use std::time::{Duration, Instant};

/// So long nothing is said: crates that were proved before take no longer.
const QUIET: Duration = Duration::from_secs(3);
/// After so long without news, a line says that it goes on.
const STILL: Duration = Duration::from_secs(20);

/// Lines on the terminal while the library is proved.
pub struct Proving {
    crates: Vec<String>,
    news: Sender<String>,
    thread: JoinHandle<(Terminal, u64)>,
}

impl Proving {
    pub fn start(crates: &[String]) -> Self {
        let (news, receiver) = mpsc::channel();
        let count = crates.len();
        Self {
            crates: crates.to_vec(),
            news,
            thread: thread::spawn(move || tell(count, &receiver)),
        }
    }

    /// Takes a line that `rt` prints: once a crate was gone through, `crate NAME: ..`.
    pub fn line(&self, line: &str) {
        let name = line
            .strip_prefix("crate ")
            .and_then(|rest| rest.split_once(':'));
        if let Some((name, _)) = name
            && self.crates.iter().any(|known| known == name)
        {
            // The thread ends only after all senders have.
            let _ = self.news.send(name.into());
        }
    }

    pub fn end(self, well: bool) {
        drop(self.news);
        // A thread that failed has nothing more to say.
        if let Ok((mut terminal, seconds)) = self.thread.join() {
            let how = if well { "done" } else { "not made" };
            say(
                &mut terminal,
                &format!("refal5: the library is {how}, {seconds} s"),
            );
        }
    }
}

/// The terminal, once there is something to say on it; it may not be there.
type Terminal = Option<Option<File>>;

/// Says how far it is, at each piece of news and now and then. Gives the terminal and the seconds taken.
fn tell(count: usize, news: &Receiver<String>) -> (Terminal, u64) {
    let start = Instant::now();
    let mut terminal = None;
    let (mut done, mut last) = (0, String::new());
    loop {
        let wait = match terminal {
            Some(_) => STILL,
            None => QUIET.saturating_sub(start.elapsed()),
        };
        match news.recv_timeout(wait) {
            Ok(name) => {
                done += 1;
                last = format!(", the last {name}");
            }
            Err(RecvTimeoutError::Timeout) if terminal.is_none() => {
                terminal = Some(open());
                let line = "refal5: proving the library, once for these sources: minutes where all of it is to be proved";
                say(&mut terminal, line);
            }
            Err(RecvTimeoutError::Timeout) => {}
            Err(RecvTimeoutError::Disconnected) => break,
        }
        let seconds = start.elapsed().as_secs();
        let line = format!("refal5: {done} of {count} crates proved{last}, {seconds} s");
        say(&mut terminal, &line);
    }
    (terminal, start.elapsed().as_secs())
}

fn open() -> Option<File> {
    let named = env::var_os("REFAL5_SAY").filter(|name| !name.is_empty());
    let path = named.unwrap_or_else(|| OsString::from("/dev/tty"));
    OpenOptions::new().append(true).open(path).ok()
}

fn say(terminal: &mut Terminal, line: &str) {
    if let Some(Some(file)) = terminal {
        // A terminal that takes no more loses these lines only.
        let _ = writeln!(file, "{line}");
    }
}
