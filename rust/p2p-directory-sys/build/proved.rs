//! Parses files named `PROVED`, and computes the hash of the present sources: that of what
//! `tools/sources.sh` prints.

use crate::sha256;
use std::fs;
use std::io;
use std::path::Path;

/// The crates from which the archive is built.
const CRATES: [&str; 5] = [
    "p2p_discovery",
    "p2p_tracker",
    "p2p_directory",
    "p2p_session",
    "p2p_session_c",
];

/// The heap in C, which is a part of the archive.
pub const HEAP: &str = "tools/heap.c";

/// The folders of the repository with the sources of the archive. Proofs and specs change no code.
pub fn folders() -> [String; 5] {
    CRATES.map(|name| format!("crates/{name}/src"))
}

/// Whether the sources of a repository are those of a file `PROVED`.
pub fn fits(text: &str, repository: &Path) -> io::Result<bool> {
    let toolchain = text.lines().next().unwrap_or_default();
    let hash = sha256::hex(sources(repository, toolchain)?.as_bytes());
    Ok(told_hash(text, "sources") == Some(&hash))
}

/// The hash for a name in a file `PROVED`, which has the form of `sha256sum`.
pub fn told_hash<'a>(text: &'a str, name: &str) -> Option<&'a str> {
    let mut pairs = text.lines().filter_map(|line| line.split_once("  "));
    pairs
        .find(|(_, named)| *named == name)
        .map(|(hash, _)| hash)
}

/// What `tools/sources.sh` prints: the hash of each source and of the heap, the lines of the crates
/// in `crates.txt`, and the toolchain.
pub fn sources(repository: &Path, toolchain: &str) -> io::Result<String> {
    let mut paths = Vec::new();
    for folder in folders() {
        add_files(repository, &folder, &mut paths)?;
    }
    paths.sort();
    paths.push(HEAP.to_owned());
    let mut text = String::new();
    for path in paths {
        let hash = sha256::hex(&fs::read(repository.join(&path))?);
        text += &format!("{hash}  {path}\n");
    }
    let lines = fs::read_to_string(repository.join("crates.txt"))?;
    for name in CRATES {
        for line in lines.lines().filter(|line| is_of(name, line)) {
            text += &format!("{line}\n");
        }
    }
    Ok(text + toolchain + "\n")
}

/// Whether a line of `crates.txt` is that of a crate.
fn is_of(name: &str, line: &str) -> bool {
    let rest = line.strip_prefix(name);
    rest.is_some_and(|rest| rest.starts_with([' ', ':']))
}

/// Adds the paths of all files in a folder, relative to the repository.
fn add_files(repository: &Path, folder: &str, paths: &mut Vec<String>) -> io::Result<()> {
    for entry in fs::read_dir(repository.join(folder))? {
        let entry = entry?;
        let path = format!("{folder}/{}", entry.file_name().to_string_lossy());
        if entry.file_type()?.is_dir() {
            add_files(repository, &path, paths)?;
        } else {
            paths.push(path);
        }
    }
    Ok(())
}
