//! How often each answer was given by each entry.

use super::{Answer, Entry};
use std::fmt;

/// The columns: the entries by their names in the C header, and what is printed above each.
const ENTRIES: [(&str, &str); 10] = [
    ("film_check", "film_check"),
    ("film_draw", "film_draw"),
    ("gdi_check", "gdi_check"),
    ("gdi_read_line", "read_line"),
    ("gdi_write_head", "head"),
    ("gdi_write_page_head", "page_head"),
    ("gdi_write_row", "row"),
    ("gdi_write_page_end", "page_end"),
    ("gdi_write_document_end", "doc_end"),
    ("gdi_linefill", "linefill"),
];

/// The rows: every number of a refusal, then done (0) and page end (`PAGE_END`).
const NUMBERS: [usize; 23] = [
    1, 2, 3, 4, 5, 6, 7, 8, 9, 10, 11, 12, 13, 15, 21, 22, 23, 24, 25, 26, 27, DONE, PAGE_END,
];
const DONE: usize = 0;
const PAGE_END: usize = 29;

/// How often each answer was given by each entry.
#[derive(Default)]
pub struct Table {
    counts: [[u64; ENTRIES.len()]; PAGE_END + 1],
}

impl Table {
    pub fn count(&mut self, entry: Entry, answer: Answer) {
        let row = match answer {
            Answer::Done(..) => DONE,
            Answer::PageEnd(..) => PAGE_END,
            Answer::Refused(number, _) => {
                let row = number as usize;
                let told = NUMBERS.contains(&row) && ![DONE, PAGE_END].contains(&row);
                assert!(told, "no refusal has the number {row}");
                row
            }
        };
        let column = ENTRIES.iter().position(|(name, _)| *name == entry.name());
        self.counts[row][column.expect("an entry of the header")] += 1;
    }

    /// The refusals that each entry gave, with its name.
    pub fn refusals(&self) -> impl Iterator<Item = (&'static str, Vec<usize>)> + '_ {
        ENTRIES.into_iter().enumerate().map(|(column, (name, _))| {
            let given =
                |row: &usize| ![DONE, PAGE_END].contains(row) && self.counts[*row][column] > 0;
            (name, NUMBERS.into_iter().filter(given).collect())
        })
    }

    /// How often a number was given by all entries.
    pub fn refused(&self, number: usize) -> u64 {
        self.counts[number].iter().sum()
    }

    pub fn page_ends(&self) -> u64 {
        self.counts[PAGE_END].iter().sum()
    }

    /// How often each entry was done, with its name.
    pub fn done(&self) -> impl Iterator<Item = (&'static str, u64)> + '_ {
        let names = ENTRIES.into_iter().map(|(name, _)| name);
        names.zip(self.counts[DONE])
    }

    pub fn total(&self) -> u64 {
        self.counts.iter().flatten().sum()
    }
}

impl fmt::Display for Table {
    fn fmt(&self, f: &mut fmt::Formatter<'_>) -> fmt::Result {
        write!(f, "{:8}", "")?;
        for (_, heading) in ENTRIES {
            write!(f, " {heading:>10}")?;
        }
        writeln!(f, " {:>10}", "all")?;
        let line = |f: &mut fmt::Formatter<'_>, name: String, counts: &[u64]| {
            write!(f, "{name:8}")?;
            for count in counts {
                write!(f, " {count:>10}")?;
            }
            writeln!(f, " {:>10}", counts.iter().sum::<u64>())
        };
        for row in NUMBERS {
            let name = match row {
                DONE => "done".to_string(),
                PAGE_END => "page end".to_string(),
                number => number.to_string(),
            };
            line(f, name, &self.counts[row])?;
        }
        let sums: [u64; ENTRIES.len()] =
            std::array::from_fn(|column| self.counts.iter().map(|row| row[column]).sum());
        line(f, "all".to_string(), &sums)
    }
}
