//! How a command ends.

use std::io;

/// The exit status of a command that has said all it has to say.
#[derive(Clone, Copy, Debug, PartialEq, Eq, PartialOrd, Ord)]
pub enum Status {
    /// Everything was done.
    Done = 0,
    /// A file was refused.
    Refused = 1,
    /// Bad arguments, a file that can't be read, or output that can't be written.
    Trouble = 2,
}

/// Why a command stops before its end: an exit status and a line for standard error.
#[derive(Debug, PartialEq, Eq)]
pub struct Failure {
    pub status: Status,
    /// None where nobody is left to read it.
    pub line: Option<String>,
}

pub type Outcome<T> = Result<T, Failure>;

impl Failure {
    pub fn trouble(line: impl Into<String>) -> Failure {
        Failure {
            status: Status::Trouble,
            line: Some(line.into()),
        }
    }

    pub fn refused(line: impl Into<String>) -> Failure {
        Failure {
            status: Status::Refused,
            line: Some(line.into()),
        }
    }

    /// A file, named as it is shown, that the system would not read or write.
    pub fn of_file(name: &str, error: &io::Error) -> Failure {
        Failure::trouble(format!("{name}: {}", cause(error)))
    }

    /// Standard output that can't be written. Where its reader has gone away, as `head` does, there
    /// is nothing to say.
    pub fn of_standard_output(error: &io::Error) -> Failure {
        match error.kind() {
            io::ErrorKind::BrokenPipe => Failure {
                status: Status::Trouble,
                line: None,
            },
            _ => Failure::of_file("standard output", error),
        }
    }
}

/// The system's words for an error, without its number.
fn cause(error: &io::Error) -> String {
    let text = error.to_string();
    match text.find(" (os error") {
        Some(end) => text[..end].to_string(),
        None => text,
    }
}

#[cfg(test)]
mod tests {
    use super::*;

    #[test]
    fn errors_without_their_number() {
        let error = io::Error::from_raw_os_error(28);
        assert_eq!(cause(&error), "No space left on device");
        assert_eq!(cause(&io::Error::other("short")), "short");
    }
}
