//! Sagem GDI jobs: checked, read line by line, and written.
//!
//! A job is a head, any number of pages and a document end. A page is a page head, blocks and a
//! page end; the blocks hold the commands of its lines.
//!
//! A row of a line has one byte for each 8 dots, rounded up. The high bit of its first byte is dot
//! 0, a black dot is 1, and spare bits are 0.
//!
//! A job that is written and read back:
//!
//! ```
//! use printbox::gdi::{self, Line, PageHead, Place};
//!
//! let head = PageHead {
//!     tray: 0, width: 20, height: 2, format: 0, paper_type: 0, copies: 1, toner: 0,
//! };
//! let rows = [[0xFF, 0x00, 0xF0], [0x00, 0x80, 0x00]];
//!
//! let mut job = vec![0; 200];
//! let mut end = gdi::write_head(&mut job)?;
//! end += gdi::write_page_head(&head, &mut job[end..])?;
//! let first_line = Place { offset: end, left: 0 };
//! for row in &rows {
//!     end += gdi::write_row(20, row, &mut job[end..])?;
//! }
//! end += gdi::write_page_end(&mut job[end..])?;
//! end += gdi::write_document_end(&mut job[end..])?;
//! job.truncate(end);
//!
//! assert_eq!(gdi::check(&job), Ok(1));
//! let mut row = [0; gdi::row_bytes(20)];
//! let mut place = first_line;
//! let mut read = Vec::new();
//! while let Line::Row(next) = gdi::read_line(&job, place, 20, &mut row)? {
//!     read.push(row);
//!     place = next;
//! }
//! assert_eq!(read, rows);
//! # Ok::<(), printbox::Refusal>(())
//! ```

use crate::{ffi, Refusal};

/// The greatest width of a line, in dots; the least is 1.
pub const WIDTH_MAX: usize = 16_383;

/// The bytes of a row of so many dots: one for each 8, rounded up.
pub const fn row_bytes(width: usize) -> usize {
    width.div_ceil(8)
}

/// A length of output that is enough for [`write_row`] on any row of so many dots: a byte for each
/// dot, and the six bytes of a block's head for each 255 of them, rounded up.
///
/// That it is enough for every row which the writer takes is proved, as `RoomForRow` in
/// crates/gdi_jobs/specs/Room.antt. A row of dots that are black and white in turn needs all of it.
///
/// ```
/// # use printbox::gdi;
/// let width = gdi::WIDTH_MAX;
/// let row = vec![0xAA; gdi::row_bytes(width)]; // every run is one dot long
/// let mut output = vec![0; gdi::row_room(width)];
/// assert_eq!(gdi::write_row(width, &row, &mut output), Ok(output.len()));
/// ```
pub const fn row_room(width: usize) -> usize {
    width.saturating_add(6 * width.div_ceil(255))
}

/// Where a line of a job starts, or a page end in its place.
#[derive(Clone, Copy, Debug, PartialEq, Eq)]
pub struct Place {
    /// The byte of the job, counted from 0.
    pub offset: usize,
    /// The bytes that are left of the block which holds it; 0 between blocks, as after a page head.
    pub left: usize,
}

/// What the line reader found.
#[derive(Clone, Copy, Debug, PartialEq, Eq)]
pub enum Line {
    /// A line, whose row was written; with the place after it.
    Row(Place),
    /// The page end where a line would start. The row buffer stays; with the place after the page
    /// end.
    PageEnd(Place),
}

/// The numbers in a page head.
#[derive(Clone, Copy, Debug, PartialEq, Eq)]
pub struct PageHead {
    /// The input tray, any number.
    pub tray: u32,
    /// The width of a line in dots, 1 to 16,383.
    pub width: u16,
    /// The number of lines, 1 to 65,535.
    pub height: u16,
    /// The format's index, any number: A4 is 0, Letter 1, A5 4, Monarch 8.
    pub format: u8,
    /// The paper type, any number.
    pub paper_type: u8,
    /// The number of copies, any number.
    pub copies: u8,
    /// Toner saving, 0 or 1.
    pub toner: u8,
}

/// Checks a job and answers the number of its pages.
///
/// # Errors
///
/// Number 1 for a job that is too long, else 21 to 26 for the first fault from its beginning.
pub fn check(job: &[u8]) -> Result<usize, Refusal> {
    ffi::gdi_check(job).value()
}

/// Reads the line that starts at a place into a row of exactly [`row_bytes`] of the width.
///
/// It goes by the place alone: heads are not looked at, and lines are not counted. On a job that the
/// check passes, start after a page head with `left` 0 and go on at each place that was answered,
/// with the head's width: as many lines are read as its height says, then the page end, and none is
/// refused. That is proved, as `ReadThrough` in crates/gdi_jobs/specs/ReadingThrough.antt.
///
/// # Errors
///
/// 27 for a width outside 1 to 16,383 or a row of another length; 1 for a job that is too long; 23,
/// 24 and 25 for a fault in the line.
pub fn read_line(job: &[u8], place: Place, width: usize, row: &mut [u8]) -> Result<Line, Refusal> {
    let Place { offset, left } = place;
    match ffi::gdi_read_line(job, offset, left, width, row) {
        ffi::Answer::Done(offset, left) => Ok(Line::Row(Place { offset, left })),
        ffi::Answer::PageEnd(offset, left) => Ok(Line::PageEnd(Place { offset, left })),
        ffi::Answer::Refused(refusal) => Err(refusal),
    }
}

/// Writes a job's head, 86 bytes, and answers the bytes written.
///
/// # Errors
///
/// 27 where the output is shorter.
pub fn write_head(output: &mut [u8]) -> Result<usize, Refusal> {
    ffi::gdi_write_head(output).value()
}

/// Writes a page head, 21 bytes, and answers the bytes written.
///
/// # Errors
///
/// 22 for a width, height or toner outside its range; then 27 where the output is shorter.
pub fn write_page_head(head: &PageHead, output: &mut [u8]) -> Result<usize, Refusal> {
    ffi::gdi_write_page_head(head, output).value()
}

/// Writes a row as a line, in blocks of its own, and answers the bytes written.
///
/// [`row_room`] is a length of output that is always enough; a shorter one costs a second look at
/// the row.
///
/// # Errors
///
/// 27 for a width outside 1 to 16,383, a row that has not exactly [`row_bytes`] of the width, or a
/// spare bit that is set; then 27 where the output is shorter than the line.
pub fn write_row(width: usize, row: &[u8], output: &mut [u8]) -> Result<usize, Refusal> {
    ffi::gdi_write_row(width, row, output).value()
}

/// Writes a page end, 6 bytes, and answers the bytes written.
///
/// # Errors
///
/// 27 where the output is shorter.
pub fn write_page_end(output: &mut [u8]) -> Result<usize, Refusal> {
    ffi::gdi_write_page_end(output).value()
}

/// Writes a document end, 6 bytes, and answers the bytes written.
///
/// # Errors
///
/// 27 where the output is shorter.
pub fn write_document_end(output: &mut [u8]) -> Result<usize, Refusal> {
    ffi::gdi_write_document_end(output).value()
}

/// The linefill of a width: the command for a line that is all white, its first byte in the high
/// eight bits.
///
/// ```
/// assert_eq!(printbox::gdi::linefill(4762), Ok(0x9A4A)); // A4
/// ```
///
/// # Errors
///
/// 27 for a width outside 1 to 16,383.
pub fn linefill(width: usize) -> Result<u16, Refusal> {
    let linefill = ffi::gdi_linefill(width).value()?;
    match u16::try_from(linefill) {
        Ok(linefill) => Ok(linefill),
        Err(_) => unreachable!("a linefill has two bytes, and {linefill} has more"),
    }
}
