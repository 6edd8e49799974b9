//! The archives within this package.

use crate::proved;
use std::fs;
use std::path::Path;

/// The targets for which there is an archive.
pub fn targets(prebuilt: &Path) -> String {
    let entries = fs::read_dir(prebuilt).into_iter().flatten().flatten();
    let mut names: Vec<String> = entries
        .filter(|entry| entry.path().is_dir())
        .map(|entry| entry.file_name().to_string_lossy().into_owned())
        .collect();
    names.sort();
    if names.is_empty() {
        "no target".to_owned()
    } else {
        names.join(", ")
    }
}

/// Checks that the archive next to a file `PROVED` is the one that the file describes.
pub fn check_archive(text: &str, folder: &Path) -> Result<(), String> {
    let archive = folder.join("libp2p_session.a");
    let bytes = fs::read(&archive).map_err(|error| format!("{}: {error}", archive.display()))?;
    if proved::told_hash(text, "libp2p_session.a") == Some(&crate::sha256::hex(&bytes)) {
        return Ok(());
    }
    Err(format!(
        "{} is not the archive that PROVED beside it tells of",
        archive.display()
    ))
}
