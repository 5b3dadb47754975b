//! Times the compiled library beside its second implementation, a plain pass over memory, and peers
//! that do the like. `bench --help` names the options; docs/BENCHMARKS.md says what is compared.

#![deny(unsafe_code)]

mod arguments;
mod clock;
mod draws;
mod ffi;
mod filter;
mod inputs;
mod jobs;
mod memory;
mod peers;
#[path = "../../tests/common/raster.rs"]
mod raster;
mod report;
mod sheet;
mod subjects;
mod table;

#[cfg(test)]
mod tests;

use arguments::Asked;
use std::io::Write;
use std::process::ExitCode;
use subjects::Subject;

fn main() -> ExitCode {
    let asked = arguments::parse(std::env::args().skip(1));
    let text = match asked.and_then(answer) {
        Ok(text) => text,
        Err(fault) => {
            eprintln!("bench: {fault}");
            return ExitCode::from(2);
        }
    };
    if let Err(fault) = std::io::stdout().write_all(text.as_bytes()) {
        eprintln!("bench: standard output: {fault}");
        return ExitCode::FAILURE;
    }
    ExitCode::SUCCESS
}

/// What goes to standard output.
fn answer(asked: Asked) -> Result<String, String> {
    let (rounds, subject) = match asked {
        Asked::Help => return Ok(arguments::HELP.to_string()),
        Asked::Run { rounds, subject } => (rounds, subject),
    };
    let filter = filter::installed()?;
    let mut outcomes = Vec::new();
    for subject in subject.map_or(Subject::ALL.to_vec(), |one| vec![one]) {
        eprintln!("{}", subject.title());
        outcomes.extend(subjects::run(subject, rounds, filter.as_deref()));
    }
    Ok(report::report(&outcomes, rounds))
}
