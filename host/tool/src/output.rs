//! What is written: standard output, files, and lines for standard error.

use crate::arguments::Arguments;
use crate::failure::{Failure, Outcome};
use crate::input::{name, same_file, STANDARD_INPUT};
use std::ffi::OsString;
use std::fs::{self, File, OpenOptions};
use std::io::{self, BufWriter, IsTerminal, Write};
use std::path::Path;

/// A line on standard error. Where it can't be written nobody can be told.
pub fn say(line: &str) {
    let _ = writeln!(io::stderr(), "printbox: {line}");
}

/// Writes to standard output and sees that all of it went out.
pub fn to_standard_output(write: impl FnOnce(&mut dyn Write) -> io::Result<()>) -> Outcome<()> {
    let mut output = BufWriter::new(io::stdout().lock());
    write(&mut output)
        .and_then(|()| output.flush())
        .map_err(|error| Failure::of_standard_output(&error))
}

/// Writes to the file of `-o`, else to standard output.
pub fn to_target(
    arguments: &Arguments,
    write: impl FnOnce(&mut dyn Write) -> io::Result<()>,
) -> Outcome<()> {
    match arguments.path("-o") {
        Some(path) if path.as_os_str() != STANDARD_INPUT => to_file(path, write),
        _ => to_standard_output(write),
    }
}

/// Refuses, before any work is done, a target that is also read, and a terminal.
pub fn hold_target(arguments: &Arguments) -> Outcome<()> {
    match arguments.path("-o") {
        Some(path) if path.as_os_str() != STANDARD_INPUT => {
            if arguments.inputs().any(|input| same_file(input, path)) {
                let name = name(path);
                return Err(Failure::trouble(format!("{name} is read, so not written")));
            }
        }
        _ => {
            if io::stdout().is_terminal() {
                let what = "the output is not for a terminal: give -o FILE, or a pipe";
                return Err(Failure::trouble(what));
            }
        }
    }
    Ok(())
}

/// Writes a file whole or not at all: where a write fails, what stood there stays.
pub fn to_file(path: &Path, write: impl FnOnce(&mut dyn Write) -> io::Result<()>) -> Outcome<()> {
    let written = match fs::metadata(path) {
        // A device or a pipe can't be replaced, and a folder is refused by the system.
        Ok(found) if !found.is_file() => OpenOptions::new()
            .write(true)
            .open(path)
            .and_then(|file| write_all(file, write)),
        Ok(_) => fs::canonicalize(path).and_then(|path| replace(&path, write)),
        Err(_) => replace(path, write),
    };
    written.map_err(|error| Failure::of_file(&name(path), &error))
}

fn write_all(file: File, write: impl FnOnce(&mut dyn Write) -> io::Result<()>) -> io::Result<()> {
    let mut output = BufWriter::new(file);
    write(&mut output)?;
    output.flush()
}

/// Writes a file beside the path and gives it the path's name when it is whole.
fn replace(path: &Path, write: impl FnOnce(&mut dyn Write) -> io::Result<()>) -> io::Result<()> {
    let Some(file_name) = path.file_name() else {
        return Err(io::Error::other("no name of a file"));
    };
    let mut part = OsString::from(".");
    part.push(file_name);
    part.push(format!(".{}.part", std::process::id()));
    let part = path.with_file_name(part);
    let file = File::create_new(&part)?;
    let done = write_all(file, write).and_then(|()| {
        if let Ok(there) = fs::metadata(path) {
            fs::set_permissions(&part, there.permissions())?;
        }
        fs::rename(&part, path)
    });
    if done.is_err() {
        let _ = fs::remove_file(&part);
    }
    done
}

/// Progress on standard error, where that is a terminal: one line, written over.
pub struct Progress {
    is_shown: bool,
}

impl Progress {
    pub fn new() -> Progress {
        Progress {
            is_shown: io::stderr().is_terminal(),
        }
    }

    pub fn show(&self, text: impl FnOnce() -> String) {
        if self.is_shown {
            let _ = write!(io::stderr(), "\r{}\x1b[K", text());
        }
    }
}

impl Drop for Progress {
    /// Clears the line.
    fn drop(&mut self) {
        self.show(String::new);
    }
}
