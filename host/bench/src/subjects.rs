//! The subjects: what is timed, on which inputs, beside whom.

use crate::clock::{race, Competitor, Times, Who};
use crate::sheet::{Film, Size};
use crate::{draws, inputs, jobs};
use std::path::Path;

#[derive(Clone, Copy, Debug, PartialEq, Eq)]
pub enum Subject {
    Check,
    CheckSamples,
    Rectangles,
    Trapezoids,
    Runs,
    Samples,
    GdiWrite,
    GdiRead,
}

impl Subject {
    pub const ALL: [Subject; 8] = [
        Subject::Check,
        Subject::CheckSamples,
        Subject::Rectangles,
        Subject::Trapezoids,
        Subject::Runs,
        Subject::Samples,
        Subject::GdiWrite,
        Subject::GdiRead,
    ];

    /// The name on the command line.
    pub fn name(self) -> &'static str {
        match self {
            Subject::Check => "check",
            Subject::CheckSamples => "check-samples",
            Subject::Rectangles => "rectangles",
            Subject::Trapezoids => "trapezoids",
            Subject::Runs => "runs",
            Subject::Samples => "samples",
            Subject::GdiWrite => "gdi-write",
            Subject::GdiRead => "gdi-read",
        }
    }

    /// The name in the tables.
    pub fn title(self) -> &'static str {
        match self {
            Subject::Check => "check a sheet",
            Subject::CheckSamples => "check a sheet of samples",
            Subject::Rectangles => "draw rectangles",
            Subject::Trapezoids => "draw trapezoids",
            Subject::Runs => "draw runs",
            Subject::Samples => "draw samples under a tile",
            Subject::GdiWrite => "write a GDI job",
            Subject::GdiRead => "read a GDI job",
        }
    }

    /// The peers that do the like.
    pub fn peers(self) -> &'static [Who] {
        match self {
            Subject::Check | Subject::CheckSamples | Subject::Runs | Subject::Samples => &[],
            Subject::Rectangles | Subject::Trapezoids => &[Who::Pixman],
            Subject::GdiWrite => &[Who::Libtiff, Who::Filter, Who::FilterStart],
            Subject::GdiRead => &[Who::Libtiff],
        }
    }
}

#[derive(Clone, Copy, Debug, PartialEq, Eq)]
pub enum Scale {
    Full,
    Quarter,
    Sixteenth,
}

impl Scale {
    pub const ALL: [Scale; 3] = [Scale::Full, Scale::Quarter, Scale::Sixteenth];

    pub fn name(self) -> &'static str {
        match self {
            Scale::Full => "full",
            Scale::Quarter => "quarter",
            Scale::Sixteenth => "sixteenth",
        }
    }

    /// A page's dots: A4 of the GDI jobs, and half and a quarter of its sides.
    pub fn page(self) -> Size {
        let (width, height) = match self {
            Scale::Full => (4762, 6778),
            Scale::Quarter => (2381, 3389),
            Scale::Sixteenth => (1190, 1694),
        };
        Size { width, height }
    }

    /// A sheet for the check, by its bytes, its pages and their size: the greatest that there may be,
    /// and its parts.
    pub fn sheet(self, film: impl Fn(usize, usize, Size) -> Film) -> Film {
        let mib = 1 << 20;
        let width = 4762;
        let (length, pages, height) = match self {
            Scale::Full => (16 * mib, 4, 6778),
            Scale::Quarter => (4 * mib, 1, 6778),
            Scale::Sixteenth => (mib, 1, 1694),
        };
        film(length, pages, Size { width, height })
    }
}

/// A subject at a size: its input and its times.
#[derive(Clone, Debug)]
pub struct Outcome {
    pub subject: Subject,
    pub scale: Scale,
    pub input: Input,
    pub times: Vec<Times>,
    /// What was seen of peers whose answer is another one.
    pub seen: Vec<String>,
}

/// What an input is made of.
#[derive(Clone, Copy, Debug, Default, PartialEq)]
pub struct Input {
    /// The bytes of the sheet or the job.
    pub bytes: usize,
    /// The commands of the sheet; of a job there are rows.
    pub commands: Option<usize>,
    /// The page's dots and how many of them are ink, where there is one page.
    pub dots: Option<(usize, usize)>,
}

impl Input {
    /// What the growth of the time is held against: dots, or bytes where nothing is drawn.
    pub fn units(&self) -> usize {
        self.dots.map_or(self.bytes, |(dots, _)| dots)
    }
}

/// A subject at a size, ready to be timed: all answers were compared.
pub struct Entry {
    pub input: Input,
    pub competitors: Vec<Competitor>,
    pub seen: Vec<String>,
}

fn entry(subject: Subject, scale: Scale, filter: Option<&Path>) -> Entry {
    let size = scale.page();
    match subject {
        Subject::Check => draws::check(scale.sheet(inputs::mixed_film)),
        Subject::CheckSamples => draws::check(scale.sheet(inputs::padded_film)),
        Subject::Rectangles => draws::rectangles(size),
        Subject::Trapezoids => draws::trapezoids(size),
        Subject::Runs => draws::page(inputs::run_film(size), Vec::new()),
        Subject::Samples => draws::page(inputs::sample_film(size), Vec::new()),
        Subject::GdiWrite => jobs::write(size, filter),
        Subject::GdiRead => jobs::read(size),
    }
}

/// Times a subject at all sizes, which take turns too, so that its growth is of one time.
pub fn run(subject: Subject, rounds: usize, filter: Option<&Path>) -> Vec<Outcome> {
    let mut entries = Scale::ALL.map(|scale| entry(subject, scale, filter));
    let competitors = entries.iter_mut().flat_map(|entry| &mut entry.competitors);
    let mut times = race(competitors, rounds).into_iter();
    let outcome = |(scale, entry): (Scale, Entry)| Outcome {
        subject,
        scale,
        input: entry.input,
        times: times.by_ref().take(entry.competitors.len()).collect(),
        seen: entry.seen,
    };
    Scale::ALL.into_iter().zip(entries).map(outcome).collect()
}
