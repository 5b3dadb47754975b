//! The command line.

use crate::subjects::Subject;

pub const HELP: &str = "\
Times the compiled library beside its second implementation, a memory pass and peers, and prints
Markdown tables. Inputs are made here; answers are compared before they are timed.

usage: bench [--rounds N] [--subject NAME]

  --rounds N      rounds of each competitor, 1 to 1000; 7 where none is given
  --subject NAME  one subject alone: check, check-samples, rectangles, trapezoids, runs, samples,
                  gdi-write, gdi-read
  --help          this text

PRINTBOX_SAGEM_FILTER names another place of the filter rastertosag-gdi.
";

#[derive(Clone, Copy, Debug, PartialEq, Eq)]
pub enum Asked {
    Help,
    Run {
        rounds: usize,
        /// None for all.
        subject: Option<Subject>,
    },
}

/// What the arguments ask for, or a line that says what is wrong with them.
pub fn parse(arguments: impl IntoIterator<Item = String>) -> Result<Asked, String> {
    let mut arguments = arguments.into_iter();
    let (mut rounds, mut subject) = (7, None);
    while let Some(argument) = arguments.next() {
        let mut value = || {
            let value = arguments.next();
            value.ok_or(format!("{argument} needs a value after it"))
        };
        match argument.as_str() {
            "--help" => return Ok(Asked::Help),
            "--rounds" => rounds = parse_rounds(&value()?)?,
            "--subject" => subject = Some(parse_subject(&value()?)?),
            _ => {
                return Err(format!(
                    "unknown argument {argument:?}; --help names them all"
                ))
            }
        }
    }
    Ok(Asked::Run { rounds, subject })
}

fn parse_rounds(text: &str) -> Result<usize, String> {
    match text.parse() {
        Ok(rounds @ 1..=1000) => Ok(rounds),
        _ => Err(format!(
            "--rounds takes a number from 1 to 1000, not {text:?}"
        )),
    }
}

fn parse_subject(text: &str) -> Result<Subject, String> {
    let found = Subject::ALL.into_iter().find(|x| x.name() == text);
    found.ok_or_else(|| {
        let names = Subject::ALL.map(Subject::name).join(", ");
        format!("--subject takes one of {names}, not {text:?}")
    })
}

#[cfg(test)]
mod tests {
    use super::*;

    fn asked(line: &str) -> Result<Asked, String> {
        parse(line.split_whitespace().map(str::to_string))
    }

    #[test]
    fn right() {
        let run = |rounds, subject| Ok(Asked::Run { rounds, subject });
        assert_eq!(asked(""), run(7, None));
        assert_eq!(asked("--rounds 5"), run(5, None));
        assert_eq!(asked("--subject check"), run(7, Some(Subject::Check)));
        let both = asked("--subject gdi-read --rounds 1000");
        assert_eq!(both, run(1000, Some(Subject::GdiRead)));
        assert_eq!(asked("--rounds 5 --help"), Ok(Asked::Help));
    }

    #[test]
    fn wrong() {
        for line in [
            "--rounds",
            "--rounds 0",
            "--rounds 1001",
            "--rounds -3",
            "--rounds many",
            "--subject",
            "--subject checks",
            "--Help",
            "check",
        ] {
            let said = asked(line).expect_err(line);
            assert!(!said.is_empty() && !said.contains('\n'), "{said}");
        }
    }

    #[test]
    fn every_subject_is_named_in_the_help() {
        for subject in Subject::ALL {
            assert!(HELP.contains(subject.name()), "{}", subject.name());
            let line = format!("--subject {}", subject.name());
            assert!(asked(&line).is_ok());
        }
    }
}
