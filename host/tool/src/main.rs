//! The print box's command line tool, over the proved library.
//!
//! Refusals, dots and the bytes of jobs are the library's. Not proved is what the tool does by itself:
//! it reads a herald's and a page head's numbers for the size of a picture (`sheet`, `job`), sees where
//! a packet begins in its stream (`strip`), says in words what is wrong and in which page, band,
//! command or line (`sheet_faults`, `job_faults`, `strip_faults`), reads and writes PBM and PGM
//! pictures (`netpbm`, `pbm`, `pgm`), and makes streams of packets (`strip_make`, `strip_coding`).

#![forbid(unsafe_code)]

mod arguments;
mod check;
mod draw;
mod english;
mod explain;
mod failure;
mod help;
mod input;
mod job;
mod job_faults;
mod job_lines;
mod job_make;
mod list;
mod netpbm;
mod output;
mod pbm;
mod pgm;
mod sheet;
mod sheet_faults;
mod strip;
mod strip_coding;
mod strip_faults;
mod strip_make;
mod strip_pages;

use arguments::{shown, Arguments, Form, Opt};
use failure::{Failure, Outcome, Status};
use output::{say, to_standard_output};
use std::env;
use std::ffi::OsString;
use std::process::ExitCode;

/// A command: its words and form, its help, and what it does.
struct Command {
    form: Form,
    help: &'static str,
    run: fn(&Arguments) -> Outcome<Status>,
}

const LOAD: Opt = Opt::Value("--load", "a file");
const PAGE: Opt = Opt::Value("--page", "a number");
const FILE: Opt = Opt::Value("-o", "a file");

// A command of two words stands before one of its first word.
const COMMANDS: [Command; 9] = [
    Command {
        form: Form {
            command: "check",
            file: "SHEET",
            files: 1..=usize::MAX,
            options: &[LOAD],
        },
        help: help::CHECK,
        run: check::run,
    },
    Command {
        form: Form {
            command: "draw",
            file: "SHEET",
            files: 1..=1,
            options: &[
                LOAD,
                PAGE,
                Opt::Value("--band", "a number"),
                FILE,
                Opt::Value("--all", "a folder"),
            ],
        },
        help: help::DRAW,
        run: draw::run,
    },
    Command {
        form: Form {
            command: "list",
            file: "SHEET",
            files: 1..=1,
            options: &[LOAD],
        },
        help: help::LIST,
        run: list::run,
    },
    Command {
        form: Form {
            command: "job check",
            file: "JOB",
            files: 1..=usize::MAX,
            options: &[],
        },
        help: help::JOB_CHECK,
        run: check::run_job,
    },
    Command {
        form: Form {
            command: "job lines",
            file: "JOB",
            files: 1..=1,
            options: &[PAGE, FILE],
        },
        help: help::JOB_LINES,
        run: job_lines::run,
    },
    Command {
        form: Form {
            command: "job make",
            file: "PBM",
            files: 1..=usize::MAX,
            options: &[
                Opt::Value("--paper", "a paper"),
                Opt::Value("--tray", "a number"),
                Opt::Value("--copies", "a number"),
                Opt::Flag("--toner-save"),
                FILE,
            ],
        },
        help: help::JOB_MAKE,
        run: job_make::run,
    },
    Command {
        form: Form {
            command: "strip make",
            file: "PICTURE",
            files: 1..=1,
            options: &[
                Opt::Flag("--plain"),
                Opt::Value("--palette", "two hexadecimal digits"),
                Opt::Value("--margins", "two numbers"),
                Opt::Value("--density", "a number"),
                FILE,
            ],
        },
        help: help::STRIP_MAKE,
        run: strip_make::run,
    },
    Command {
        form: Form {
            command: "strip",
            file: "FILE",
            files: 1..=usize::MAX,
            options: &[Opt::Value("-o", "a folder")],
        },
        help: help::STRIP,
        run: strip::run,
    },
    Command {
        form: Form {
            command: "explain",
            file: "NUMBER",
            files: 1..=1,
            options: &[],
        },
        help: help::EXPLAIN,
        run: explain::run,
    },
];

fn main() -> ExitCode {
    let given: Vec<OsString> = env::args_os().skip(1).collect();
    let status = run(&given).unwrap_or_else(|failure| {
        if let Some(line) = failure.line {
            say(&line);
        }
        failure.status
    });
    ExitCode::from(status as u8)
}

fn run(given: &[OsString]) -> Outcome<Status> {
    let words = given.iter().take(2).map(|word| word.to_str());
    let words: Vec<&str> = words.map_while(|word| word).collect();
    let found = COMMANDS.iter().find(|command| {
        let own = command.form.command.split(' ');
        words.iter().copied().take(own.clone().count()).eq(own)
    });
    if let Some(command) = found {
        let rest = &given[command.form.command.split(' ').count()..];
        if asks_for_help(rest) {
            return print(command.help);
        }
        return (command.run)(&Arguments::parse(&command.form, rest)?);
    }
    match &words[..] {
        ["--help" | "-h" | "help", ..] => print(help::ALL),
        ["--version" | "-V", ..] => print(concat!("printbox ", env!("CARGO_PKG_VERSION"), "\n")),
        ["job", "--help" | "-h"] => print(help::JOB),
        ["job"] => Err(unknown("job needs check, lines or make".to_string())),
        _ => Err(unknown(match given {
            [] => "no command".to_string(),
            [job, other, ..] if job == "job" => format!("no command job {}", shown(other)),
            [other, ..] => format!("no command {}", shown(other)),
        })),
    }
}

/// Whether help is asked for before `--`.
fn asks_for_help(given: &[OsString]) -> bool {
    let mut options = given.iter().take_while(|word| *word != "--");
    options.any(|word| word == "--help" || word == "-h")
}

fn unknown(what: String) -> Failure {
    Failure::trouble(format!("{what}; `printbox --help` lists the commands"))
}

fn print(text: &str) -> Outcome<Status> {
    to_standard_output(|output| output.write_all(text.as_bytes()))?;
    Ok(Status::Done)
}
