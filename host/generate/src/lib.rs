//! Random inputs for the film, GDI and strip printer functions: mostly well-formed, often damaged,
//! the same on every machine for the same seed. It depends on nothing, so that an error of the code
//! that is tested, or of the reference, cannot keep an input from being made.

#![forbid(unsafe_code)]

mod calls;
mod commands;
mod damage;
mod faults;
mod film;
mod job;
mod job_faults;
mod lines;
mod load;
mod rng;
mod rows;
mod strip;

#[cfg(test)]
mod tests;

pub use calls::{call, Call};
pub use film::{film, Film};
pub use job::job;
pub use lines::{line, Line};
pub use rng::Rng;
pub use rows::{page_head, row, PageHead, Row};
pub use strip::{strip, Strip, StripOp};
