//! The files of a folder that tests run on.

use std::path::{Path, PathBuf};
use std::{fs, io};

/// The files with an extension, by name; none is an error.
pub fn with_extension(folder: &Path, extension: &str) -> io::Result<Vec<PathBuf>> {
    let mut files = Vec::new();
    for entry in fs::read_dir(folder)? {
        let path = entry?.path();
        if path.extension().is_some_and(|own| own == extension) {
            files.push(path);
        }
    }
    files.sort();
    match files.is_empty() {
        true => Err(io::Error::other(format!("there is no .{extension} file"))),
        false => Ok(files),
    }
}
