//! Files that are read.

use crate::failure::{Failure, Outcome};
use printbox::FILE_BYTES;
use std::fs::{self, File};
use std::io::{self, Read};
use std::path::{Path, PathBuf};

/// The file name that stands for standard input, and for standard output.
pub const STANDARD_INPUT: &str = "-";

/// The load of a sheet for which none is named: the count 0 alone.
pub const EMPTY_LOAD: [u8; 4] = [0; 4];

/// A file's name in a message, on one line.
pub fn name(path: &Path) -> String {
    if path.as_os_str() == STANDARD_INPUT {
        return "standard input".to_string();
    }
    let text = path.to_string_lossy();
    let mut name = String::new();
    for character in text.chars() {
        if character.is_control() {
            name.extend(character.escape_default());
        } else {
            name.push(character);
        }
    }
    name
}

/// Opens a file, or standard input.
pub fn open(path: &Path) -> Outcome<Box<dyn Read>> {
    if path.as_os_str() == STANDARD_INPUT {
        return Ok(Box::new(io::stdin()));
    }
    match File::open(path) {
        Ok(file) => Ok(Box::new(file)),
        Err(error) => Err(Failure::of_file(&name(path), &error)),
    }
}

/// The bytes of a sheet, a load or a job. Of a file over the limit it reads one byte more than the
/// limit: enough for the library to refuse it.
pub fn read(path: &Path) -> Outcome<Vec<u8>> {
    let mut bytes = Vec::new();
    match open(path)?
        .take(FILE_BYTES as u64 + 1)
        .read_to_end(&mut bytes)
    {
        Ok(_) => Ok(bytes),
        Err(error) => Err(Failure::of_file(&name(path), &error)),
    }
}

/// The load that was named, or the empty one.
pub fn read_load(path: Option<&Path>) -> Outcome<Vec<u8>> {
    match path {
        Some(path) => read(path),
        None => Ok(EMPTY_LOAD.to_vec()),
    }
}

/// The files of a folder in the order of their names. Names that start with a dot are passed over,
/// and so are folders in it, devices and pipes.
pub fn files_in(folder: &Path) -> Outcome<Vec<PathBuf>> {
    let unread = |error: io::Error| Failure::of_file(&name(folder), &error);
    let mut files = Vec::new();
    for entry in fs::read_dir(folder).map_err(unread)? {
        let entry = entry.map_err(unread)?;
        let hidden = entry.file_name().as_encoded_bytes().starts_with(b".");
        let path = entry.path();
        // A link that leads nowhere is kept: to read it says so.
        if !hidden && fs::metadata(&path).map_or(true, |found| found.is_file()) {
            files.push(path);
        }
    }
    files.sort();
    Ok(files)
}

/// Whether two names are of one file that is there.
pub fn same_file(one: &Path, other: &Path) -> bool {
    match (fs::canonicalize(one), fs::canonicalize(other)) {
        (Ok(one), Ok(other)) => one == other,
        _ => false,
    }
}

#[cfg(test)]
mod tests {
    use super::*;

    #[test]
    fn names_on_one_line() {
        assert_eq!(name(Path::new("a b.sheet")), "a b.sheet");
        assert_eq!(name(Path::new("a\nb\t")), "a\\nb\\t");
        assert_eq!(name(Path::new("-")), "standard input");
        assert_eq!(name(Path::new("Größe")), "Größe");
    }
}
