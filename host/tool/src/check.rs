//! `check` and `job check`: many files, a line for each and a total.

use crate::arguments::Arguments;
use crate::english::{count, pages_of_bands};
use crate::failure::{Failure, Outcome, Status};
use crate::input::{files_in, name, read, read_load, same_file};
use crate::output::say;
use crate::sheet::Herald;
use crate::{job_faults, sheet_faults};
use printbox::{film, gdi};
use std::io::{self, Write};
use std::path::{Path, PathBuf};

/// What a check says of a file: a line, and whether it passed.
struct Verdict {
    passed: bool,
    line: String,
}

impl Verdict {
    /// From what the check answers, in words.
    fn of(answer: Result<String, String>) -> Verdict {
        match answer {
            Ok(content) => Verdict {
                passed: true,
                line: format!("passed, {content}"),
            },
            Err(line) => Verdict {
                passed: false,
                line,
            },
        }
    }
}

pub fn run(arguments: &Arguments) -> Outcome<Status> {
    let load = read_load(arguments.path("--load"))?;
    check_files(arguments, "sheet", |sheet| {
        Verdict::of(match film::check(sheet, &load) {
            Ok(pages) => {
                let bands = Herald::of(sheet).map_or(0, Herald::bands);
                Ok(pages_of_bands(pages, bands))
            }
            Err(refusal) => Err(sheet_faults::line(&refusal, sheet, &load)),
        })
    })
}

pub fn run_job(arguments: &Arguments) -> Outcome<Status> {
    check_files(arguments, "job", |job| {
        Verdict::of(match gdi::check(job) {
            Ok(pages) => Ok(count(pages, "page")),
            Err(refusal) => Err(job_faults::line(&refusal, job)),
        })
    })
}

/// Checks files and folders of them. A file alone gets its line without name or total.
fn check_files(
    arguments: &Arguments,
    noun: &str,
    check: impl Fn(&[u8]) -> Verdict,
) -> Outcome<Status> {
    let mut output = io::stdout().lock();
    let mut print = |line: String| {
        writeln!(output, "{line}").map_err(|error| Failure::of_standard_output(&error))
    };
    if let [path] = &arguments.files[..] {
        if !path.is_dir() {
            let verdict = check(&read(path)?);
            print(verdict.line)?;
            return Ok(if verdict.passed {
                Status::Done
            } else {
                Status::Refused
            });
        }
    }

    let (mut passed, mut refused, mut unread) = (0, 0, 0);
    for given in &arguments.files {
        let files = expand(given, arguments.path("--load")).unwrap_or_else(|failure| {
            unread += 1;
            say(&failure.line.unwrap_or_default());
            Vec::new()
        });
        for path in files {
            match read(&path) {
                Ok(file) => {
                    let verdict = check(&file);
                    match verdict.passed {
                        true => passed += 1,
                        false => refused += 1,
                    }
                    print(format!("{}: {}", name(&path), verdict.line))?;
                }
                Err(failure) => {
                    unread += 1;
                    say(&failure.line.unwrap_or_default());
                }
            }
        }
    }
    let files = count(passed + refused + unread, noun);
    let mut total = format!("{files}: {passed} passed, {refused} refused");
    if unread > 0 {
        total += &format!(", {unread} can't be read");
    }
    print(total)?;
    Ok(match (unread, refused) {
        (0, 0) => Status::Done,
        (0, _) => Status::Refused,
        _ => Status::Trouble,
    })
}

/// The file itself, or the files of a folder but for the load.
fn expand(given: &Path, load: Option<&Path>) -> Outcome<Vec<PathBuf>> {
    if !given.is_dir() {
        return Ok(vec![given.to_path_buf()]);
    }
    let mut files = files_in(given)?;
    files.retain(|path| load.is_none_or(|load| !same_file(path, load)));
    if files.is_empty() {
        return Err(Failure::trouble(format!(
            "{}: no files in this folder",
            name(given)
        )));
    }
    Ok(files)
}
