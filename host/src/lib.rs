//! The print box's library: tolerance films drawn from sheets of masks, Sagem GDI jobs checked, read
//! and written, and the receiver of a strip printer.
//!
//! The functions are those of the proved library, `libprintbox.a`. This crate lends slices to its C
//! functions and gives their answers a type; it decides nothing itself. What each function answers
//! is proved there for every input, so no function asks anything of its caller and none relies on
//! an earlier check.
//!
//! - [`film`] checks a sheet with its load and draws its bands.
//! - [`gdi`] checks a job, reads its lines, and writes heads, rows and ends.
//! - [`strip`] receives what a pocket gauge sends to its strip printer, byte by byte.
//!
//! A call that is refused gives a [`Refusal`] and leaves every byte of the lent buffer as it was. A
//! call that writes leaves the bytes beyond what it wrote.

#![deny(missing_docs)]
#![deny(unsafe_code)]

mod ffi;
pub mod film;
pub mod gdi;
pub mod strip;

use std::fmt;

/// The greatest length of a sheet, a load or a job, in bytes. Number 1 refuses a longer one.
pub const FILE_BYTES: usize = 16_777_216;

/// Why a call was refused.
///
/// ```
/// let refusal = printbox::gdi::check(b"no job").unwrap_err();
/// assert_eq!(refusal.to_string(), "refused 21 at 0");
/// ```
#[derive(Clone, Copy, Debug, PartialEq, Eq, Hash)]
pub struct Refusal {
    /// The number of the refusal: 1 to 13 and 15 for films, 1 and 21 to 27 for jobs, 31 to 36 for
    /// the strip printer.
    pub number: u8,
    /// Where the fault is: a word of the sheet or a byte of the job, counted from 0; 0 where the
    /// number has no place.
    pub place: u64,
}

impl fmt::Display for Refusal {
    fn fmt(&self, f: &mut fmt::Formatter<'_>) -> fmt::Result {
        write!(f, "refused {} at {}", self.number, self.place)
    }
}

impl std::error::Error for Refusal {}
