//! An independent reading of the requirements: film sheets, GDI jobs and the strip printer's line.
//!
//! It follows their sentences as plainly as it can and makes no attempt to be fast.
//! Imaging goes dot by dot: each dot of a band is asked of each command in order.
//! Every function answers for every input; a refused call leaves the lent buffer as it came.

#![forbid(unsafe_code)]

mod commands;
mod draw;
mod imaging;
mod jobs;
mod lines;
mod sheet;
pub mod strip;
mod words;
mod writers;

#[cfg(test)]
mod tests;

pub use draw::film_draw;
pub use jobs::gdi_check;
pub use lines::gdi_read_line;
pub use sheet::film_check;
pub use writers::{
    gdi_linefill, gdi_write_document_end, gdi_write_head, gdi_write_page_end, gdi_write_page_head,
    gdi_write_row,
};

/// What an operation answers, as the requirements count it.
#[derive(Clone, Copy, Debug, PartialEq, Eq)]
pub enum Answer {
    /// Done: the two values of the operation (the second is 0 where it has only one).
    Done(u64, u64),
    /// Refused: number and place.
    Refused(u64, u64),
    /// Page end (line reader only): the next place.
    PageEnd(u64, u64),
}

/// "Sheet, load and job at most 16,777,216 bytes each".
const LONGEST_FILE: usize = 16_777_216;

/// A refusal on its way out: "each returns number and place".
#[derive(Clone, Copy, Debug, PartialEq, Eq)]
struct Refusal {
    number: u64,
    place: u64,
}

/// The refusal of this number at this place.
fn refuse<T>(number: u64, place: u64) -> Result<T, Refusal> {
    Err(Refusal { number, place })
}

/// The answer of an operation that gives two values or a refusal.
fn answer(result: Result<(u64, u64), Refusal>) -> Answer {
    match result {
        Ok((first, second)) => Answer::Done(first, second),
        Err(Refusal { number, place }) => Answer::Refused(number, place),
    }
}
