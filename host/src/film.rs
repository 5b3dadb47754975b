//! Tolerance films: a sheet of masks with its load, checked and drawn band by band.
//!
//! Words are two bytes, high byte first. A sheet is a herald of 11 words, a count of pages, and the
//! pages; each page is a count of bands and the bands, each band a count of words and its commands.
//! A load is a count of two words, low word first, and that many words; an empty load is four bytes
//! 0.
//!
//! A row of a film has two bytes for each 16 dots, rounded up. The high bit of its first byte is
//! dot 0, and spare bits are 0.
//!
//! ```
//! use printbox::film;
//!
//! // 4 scan lines of 16 dots in bands of 2; in both bands the rectangle of lines 1 and 2,
//! // columns 1 to 3.
//! let words: [u16; 25] = [
//!     0xAAAA, 1, 0, 600, 600, 4, 16, 2, 0, 0, 1, // the herald
//!     1, 2, // one page of two bands
//!     5, 5, 1, 2, 1, 3, // a band of five words
//!     5, 5, 1, 2, 1, 3, // and another
//! ];
//! let sheet: Vec<u8> = words.iter().flat_map(|word| word.to_be_bytes()).collect();
//! let load = [0; 4];
//!
//! assert_eq!(film::check(&sheet, &load), Ok(1));
//! let mut buffer = [0; 4];
//! assert_eq!(film::draw(&sheet, &load, 0, 1, &mut buffer), Ok(film::Drawn { rows: 2, dots: 3 }));
//! assert_eq!(buffer, [0x70, 0, 0, 0]);
//! ```

use crate::{ffi, Refusal};

/// The greatest number of bytes that a band's rows take. A buffer of this length is long enough for
/// every band.
pub const BAND_BYTES: usize = 65_536;

/// A band that was drawn.
#[derive(Clone, Copy, Debug, PartialEq, Eq)]
pub struct Drawn {
    /// The number of its scan lines. Their rows stand in the buffer from its first byte.
    pub rows: usize,
    /// The number of one bits in these rows.
    pub dots: usize,
}

/// Checks a sheet with its load and answers the number of its pages.
///
/// # Errors
///
/// Numbers 1 to 10, 13 and 15, each for the first fault that the order of the requirements meets.
pub fn check(sheet: &[u8], load: &[u8]) -> Result<usize, Refusal> {
    ffi::film_check(sheet, load).value()
}

/// Draws a band of a page, both counted from 0, into the buffer's first bytes.
///
/// What the buffer held does not matter, and it may serve for the next band. The bytes beyond the
/// band's rows stay. On a sheet that the check passes, no page and band that it has are refused to
/// a buffer of at least the band's bytes.
///
/// # Errors
///
/// Numbers 1 to 9, 13 and 15; 11 where the sheet has no such page or band; 12 where the buffer is
/// shorter than the band's rows.
pub fn draw(
    sheet: &[u8],
    load: &[u8],
    page: usize,
    band: usize,
    buffer: &mut [u8],
) -> Result<Drawn, Refusal> {
    let (rows, dots) = ffi::film_draw(sheet, load, page, band, buffer).values()?;
    Ok(Drawn { rows, dots })
}
