//! The files that the library is made from.

use std::fs;
use std::path::{Path, PathBuf};

/// The folders of a crate that the prover reads.
const PARTS: [&str; 3] = ["src", "specs", "proofs"];

/// The crates of the repository that `name` needs, itself the last, as crates.txt lists them.
pub fn crates(repository: &Path, name: &str) -> Vec<String> {
    let list = fs::read_to_string(repository.join("crates.txt")).expect("crates.txt is there");
    let mut found = Vec::new();
    add(&list, name, &mut found);
    found
}

fn add(list: &str, name: &str, found: &mut Vec<String>) {
    let line = list
        .lines()
        .filter_map(|line| line.split('#').next()?.split_once(':'))
        .find(|(crate_name, _)| crate_name.split_whitespace().next() == Some(name));
    // Libraries of the kit are not listed.
    let Some((_, needs)) = line else { return };
    for need in needs.split_whitespace() {
        if !found.iter().any(|known| known == need) {
            add(list, need, found);
        }
    }
    found.push(name.into());
}

/// The folders of the crates' files that are there.
pub fn folders(repository: &Path, crates: &[String]) -> Vec<PathBuf> {
    crates
        .iter()
        .flat_map(|name| PARTS.map(|part| repository.join("crates").join(name).join(part)))
        .filter(|folder| folder.is_dir())
        .collect()
}

/// A sum over crates.txt and the names and contents of all files in the folders.
pub fn sum(repository: &Path, folders: &[PathBuf]) -> String {
    let mut files = vec![repository.join("crates.txt")];
    for folder in folders {
        list(folder, &mut files);
    }
    files.sort();
    let mut sum = Sum::new();
    for file in files {
        let bytes = fs::read(&file).expect("a listed file can be read");
        let name = file.strip_prefix(repository).unwrap_or(&file);
        sum.add(name.as_os_str().as_encoded_bytes());
        sum.add(&bytes.len().to_le_bytes());
        sum.add(&bytes);
    }
    sum.text()
}

/// A sum over one file, or nothing where there is none.
pub fn sum_of_file(file: &Path) -> String {
    let Ok(bytes) = fs::read(file) else {
        return String::new();
    };
    let mut sum = Sum::new();
    sum.add(&bytes);
    sum.text()
}

fn list(folder: &Path, files: &mut Vec<PathBuf>) {
    for entry in fs::read_dir(folder).expect("a listed folder can be read") {
        let path = entry.expect("a listed folder can be read").path();
        if path.is_dir() {
            list(&path, files);
        } else {
            files.push(path);
        }
    }
}

/// FNV-1a of 128 bits: it tells files that differ by accident.
struct Sum(u128);

impl Sum {
    fn new() -> Self {
        Self(0x6c62272e07bb014262b821756295c58d)
    }

    fn add(&mut self, bytes: &[u8]) {
        for &byte in bytes {
            self.0 = (self.0 ^ u128::from(byte)).wrapping_mul(0x0000000001000000000000000000013b);
        }
    }

    fn text(&self) -> String {
        format!("{:032x}", self.0)
    }
}
