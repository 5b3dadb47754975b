//! The command line of one command: its files and options.

use crate::failure::{Failure, Outcome};
use crate::input::{name, STANDARD_INPUT};
use std::ffi::{OsStr, OsString};
use std::ops::RangeInclusive;
use std::path::{Path, PathBuf};

/// An option of a command.
#[derive(Clone, Copy)]
pub enum Opt {
    /// It stands alone.
    Flag(&'static str),
    /// A value follows it, which the text names.
    Value(&'static str, &'static str),
}

impl Opt {
    fn name(self) -> &'static str {
        match self {
            Opt::Flag(name) | Opt::Value(name, _) => name,
        }
    }
}

/// What a command line may hold.
pub struct Form {
    /// The command's words, as `job make`.
    pub command: &'static str,
    /// What it calls its files.
    pub file: &'static str,
    /// How many files it takes.
    pub files: RangeInclusive<usize>,
    pub options: &'static [Opt],
}

/// A command line that has the form of its command.
#[derive(Debug)]
pub struct Arguments {
    command: &'static str,
    pub files: Vec<PathBuf>,
    values: Vec<(&'static str, OsString)>,
}

impl Arguments {
    /// Reads what follows the command's words.
    pub fn parse(form: &Form, given: &[OsString]) -> Outcome<Arguments> {
        let mut arguments = Arguments {
            command: form.command,
            files: Vec::new(),
            values: Vec::new(),
        };
        let mut rest = given.iter();
        let mut only_files = false;
        while let Some(argument) = rest.next() {
            let is_option = argument.len() > 1 && argument.as_encoded_bytes()[0] == b'-';
            if only_files || !is_option {
                arguments.files.push(PathBuf::from(argument));
            } else if argument == "--" {
                only_files = true;
            } else {
                arguments.option(form, argument, &mut rest)?;
            }
        }
        arguments.hold_files(form)?;
        Ok(arguments)
    }

    fn option<'a>(
        &mut self,
        form: &Form,
        argument: &OsStr,
        rest: &mut impl Iterator<Item = &'a OsString>,
    ) -> Outcome<()> {
        let (wanted, attached) = split(argument);
        let Some(option) = form.options.iter().find(|option| wanted == option.name()) else {
            return Err(self.bad(format!("there is no option {}", shown(&wanted))));
        };
        let value = match (option, attached) {
            (Opt::Flag(_), None) => OsString::new(),
            (Opt::Flag(name), Some(_)) => {
                return Err(self.bad(format!("{name} takes no value")));
            }
            (Opt::Value(..), Some(value)) => value,
            (Opt::Value(name, kind), None) => match rest.next() {
                Some(value) if !value.as_encoded_bytes().starts_with(b"--") => value.clone(),
                _ => return Err(self.bad(format!("{name} needs {kind}"))),
            },
        };
        if self.value(option.name()).is_some() {
            return Err(self.bad(format!("{} is given twice", option.name())));
        }
        self.values.push((option.name(), value));
        Ok(())
    }

    /// Holds the number of files, and of uses of standard input, against the form.
    fn hold_files(&self, form: &Form) -> Outcome<()> {
        if self.files.len() < *form.files.start() {
            return Err(self.bad(format!("{} is missing", form.file)));
        }
        if let Some(file) = self.files.get(*form.files.end()) {
            return Err(self.bad(format!("{} is one file too many", name(file))));
        }
        let from_input = |path: &&Path| path.as_os_str() == STANDARD_INPUT;
        if self.inputs().filter(from_input).count() > 1 {
            return Err(self.bad("standard input can be read only once"));
        }
        Ok(())
    }

    /// What is wrong with the arguments, as a failure.
    pub fn bad(&self, what: impl AsRef<str>) -> Failure {
        let (what, command) = (what.as_ref(), self.command);
        Failure::trouble(format!("{what}; `printbox {command} --help` tells more"))
    }

    /// The files that the command reads.
    pub fn inputs(&self) -> impl Iterator<Item = &Path> {
        self.files
            .iter()
            .map(PathBuf::as_path)
            .chain(self.path("--load"))
    }

    fn value(&self, option: &str) -> Option<&OsStr> {
        let (_, value) = self.values.iter().find(|(name, _)| *name == option)?;
        Some(value)
    }

    pub fn has(&self, option: &str) -> bool {
        self.value(option).is_some()
    }

    pub fn path(&self, option: &str) -> Option<&Path> {
        self.value(option).map(Path::new)
    }

    /// The text of an option, or None where it is not given.
    pub fn text(&self, option: &str) -> Option<String> {
        self.value(option)
            .map(|value| value.to_string_lossy().into_owned())
    }

    /// The number of an option, or None where it is not given.
    pub fn number(&self, option: &str, range: RangeInclusive<u64>) -> Outcome<Option<u64>> {
        let Some(text) = self.text(option) else {
            return Ok(None);
        };
        let is_decimal = text.bytes().all(|byte| byte.is_ascii_digit());
        match text.parse() {
            Ok(number) if is_decimal && range.contains(&number) => Ok(Some(number)),
            _ => Err(Failure::trouble(format!(
                "{option} takes a number from {} to {}, and not {}",
                range.start(),
                range.end(),
                shown(OsStr::new(&text))
            ))),
        }
    }
}

/// Takes `--name=value` and `-ovalue` apart.
fn split(argument: &OsStr) -> (OsString, Option<OsString>) {
    let Some(text) = argument.to_str() else {
        return (argument.to_os_string(), None);
    };
    let parts = if text.starts_with("--") {
        text.split_once('=')
    } else {
        text.split_at_checked(2)
            .filter(|(_, value)| !value.is_empty())
    };
    match parts {
        Some((name, value)) => (name.into(), Some(value.into())),
        None => (text.into(), None),
    }
}

/// An argument as it is shown in a message.
pub fn shown(argument: &OsStr) -> String {
    format!("`{}`", name(Path::new(argument)))
}
