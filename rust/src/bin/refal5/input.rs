//! Files, folders and standard input.

use std::ffi::{OsStr, OsString};
use std::fs::{self, File};
use std::io::{self, Read};
use std::path::Path;

use refal5::raw::MAX_BYTES;

/// A file's bytes, or one more than reading takes if it has more, which reading then refuses.
pub fn read(name: &OsStr) -> io::Result<Vec<u8>> {
    if name == "-" {
        at_most(io::stdin().lock())
    } else {
        at_most(File::open(name)?)
    }
}

fn at_most(input: impl Read) -> io::Result<Vec<u8>> {
    let mut bytes = Vec::new();
    input.take(MAX_BYTES as u64 + 1).read_to_end(&mut bytes)?;
    Ok(bytes)
}

/// The files that are given, with those named `*.ref` in place of a folder, or what is wrong with one.
pub fn files(names: &[OsString]) -> Result<Vec<OsString>, String> {
    let mut files = Vec::new();
    for name in names {
        let path = Path::new(name);
        if name == "-" || !path.is_dir() {
            files.push(name.clone());
            continue;
        }
        let before = files.len();
        let walked = walk(path, &mut files);
        walked.map_err(|error| format!("{}: {error}", shown(name)))?;
        if files.len() == before {
            return Err(format!("{}: the folder has no file *.ref", shown(name)));
        }
    }
    Ok(files)
}

/// Adds the files named `*.ref` of a folder and those in it, by name. Folders that are links are not walked.
fn walk(folder: &Path, files: &mut Vec<OsString>) -> io::Result<()> {
    let mut entries = fs::read_dir(folder)?.collect::<io::Result<Vec<_>>>()?;
    entries.sort_by_key(fs::DirEntry::file_name);
    for entry in entries {
        let path = entry.path();
        if entry.file_type()?.is_dir() {
            walk(&path, files)?;
        } else if path.extension().is_some_and(|end| end == "ref") && path.is_file() {
            files.push(path.into());
        }
    }
    Ok(())
}

/// What messages call a file.
pub fn shown(name: &OsStr) -> String {
    if name == "-" {
        "<standard input>".into()
    } else {
        name.to_string_lossy().replace(char::is_control, "\u{fffd}")
    }
}
