//! A progress line on standard error, on a terminal, when a run takes more than a second.

use std::io::{self, IsTerminal, Write};
use std::sync::mpsc::{self, RecvTimeoutError, Sender};
use std::sync::{Arc, Mutex, PoisonError};
use std::thread::{self, JoinHandle};
use std::time::{Duration, Instant};

const FIRST: Duration = Duration::from_secs(1);
/// Characters of a file's name that fit on the line: its last.
const NAME: usize = 40;
const AGAIN: Duration = Duration::from_millis(250);

#[derive(Default)]
struct State {
    /// Files begun.
    begun: usize,
    file: String,
    /// Whether the line stands on the terminal.
    drawn: bool,
}

/// Dropped, it takes its line away.
pub struct Progress {
    state: Arc<Mutex<State>>,
    thread: Option<(Sender<()>, JoinHandle<()>)>,
}

impl Progress {
    pub fn start(files: usize) -> Self {
        let state = Arc::new(Mutex::new(State::default()));
        let thread = (files > 0 && io::stderr().is_terminal()).then(|| {
            let state = Arc::clone(&state);
            let (stop, stopped) = mpsc::channel();
            let work = move || {
                let start = Instant::now();
                let mut wait = FIRST;
                while stopped.recv_timeout(wait) == Err(RecvTimeoutError::Timeout) {
                    draw(&state, files, start.elapsed());
                    wait = AGAIN;
                }
            };
            (stop, thread::spawn(work))
        });
        Self { state, thread }
    }

    /// Says which file is begun.
    pub fn begin(&self, file: &str) {
        let mut state = self.state.lock().unwrap_or_else(PoisonError::into_inner);
        state.begun += 1;
        let long = file.chars().count().saturating_sub(NAME);
        state.file = file.chars().skip(long).collect();
    }

    /// Takes the line away while something else is printed.
    pub fn aside<T>(&self, print: impl FnOnce() -> T) -> T {
        let mut state = self.state.lock().unwrap_or_else(PoisonError::into_inner);
        erase(&mut state);
        print()
    }
}

impl Drop for Progress {
    fn drop(&mut self) {
        if let Some((stop, thread)) = self.thread.take() {
            drop(stop);
            // A thread that failed has nothing more to draw.
            let _ = thread.join();
            self.aside(|| ());
        }
    }
}

// A terminal that takes no more output loses its progress line only.

fn draw(state: &Mutex<State>, files: usize, elapsed: Duration) {
    let mut state = state.lock().unwrap_or_else(PoisonError::into_inner);
    let (begun, file) = (state.begun, &state.file);
    let seconds = elapsed.as_secs();
    let line = format!("\r\u{1b}[Krefal5: {seconds} s, file {begun} of {files}: {file}");
    let _ = io::stderr().write_all(line.as_bytes());
    state.drawn = true;
}

fn erase(state: &mut State) {
    if state.drawn {
        let _ = io::stderr().write_all(b"\r\x1b[K");
        state.drawn = false;
    }
}
