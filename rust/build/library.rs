//! The archive of the repository, kept in step with its sources.

use std::fs;
use std::io::{BufRead, BufReader};
use std::path::{Path, PathBuf};
use std::process::{Command, Stdio};

use crate::sources;
use crate::terminal::Proving;

pub const ARCHIVE: &str = "librefal5.a";
/// Beside the archive: the sum of the sources it was made from, and its own.
const RECORD: &str = "librefal5.sources";

/// The repository's folder with the archive of the sources as they are now. Cargo is told of the sources only: a file that a
/// build script writes is newer than its run, and would have it run again.
pub fn current(repository: &Path) -> PathBuf {
    let folder = repository.join("target/staticlib");
    let crates = sources::crates(repository, "refal5_c");
    let folders = sources::folders(repository, &crates);
    println!(
        "cargo::rerun-if-changed={}",
        repository.join("crates.txt").display()
    );
    for folder in &folders {
        println!("cargo::rerun-if-changed={}", folder.display());
    }
    let sum = sources::sum(repository, &folders);
    let archive = folder.join(ARCHIVE);
    let record = |archive: &Path| format!("{sum} {}\n", sources::sum_of_file(archive));
    let known = fs::read_to_string(folder.join(RECORD)).unwrap_or_default();
    if known != record(&archive) {
        make(repository, &crates);
        // Without its record the archive is made again, which changes nothing but the time taken.
        let _ = fs::write(folder.join(RECORD), record(&archive));
    }
    folder
}

/// Runs `tools/staticlib`, and says on the terminal how far it is.
fn make(repository: &Path, crates: &[String]) {
    let started = Command::new(repository.join("tools/staticlib"))
        .current_dir(repository)
        .stderr(Stdio::piped())
        .spawn();
    let mut child = match started {
        Ok(child) => child,
        Err(error) => panic!(
            "{ARCHIVE} is not of these sources, and `tools/staticlib` could not be run ({error}): run it, or set \
             REFAL5_STATICLIB to a folder that holds the archive"
        ),
    };
    let proving = Proving::start(crates);
    // What is said of the crates below is said there.
    let said = child.stderr.take().expect("standard error is piped");
    for line in BufReader::new(said).lines().map_while(Result::ok) {
        eprintln!("{line}");
        proving.line(&line);
    }
    let status = child.wait().expect("the child is waited for once");
    proving.end(status.success());
    assert!(status.success(), "`tools/staticlib` failed: {status}");
}
