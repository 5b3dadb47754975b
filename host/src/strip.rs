//! The pocket gauge's strip printer: the receiver of the GB Printer line.
//!
//! A packet is the mark 88 33, a command, an indicator, a length (low byte first), a body and a
//! checksum (low byte first); then two clock bytes come, which are answered 81 and the status. Every
//! other byte is answered 0. Up to nine bands of 160 x 16 dots wait until a Print packet prints
//! them; they wait on until an Initialize packet frees the room.
//!
//! [`Receiver`] owns the room for bands and rows, so that no byte is ever refused with 36:
//!
//! ```
//! use printbox::strip::{Event, Receiver};
//!
//! let mut receiver = Receiver::new();
//! receiver.set_status(0x02);
//! // Inquiry, and two clock bytes
//! let packet = [0x88, 0x33, 0x0F, 0x00, 0x00, 0x00, 0x0F, 0x00, 0x00, 0x00];
//! let mut replies = Vec::new();
//! let mut inquiries = 0;
//! for byte in packet {
//!     let pushed = receiver.push(byte);
//!     replies.push(pushed.reply);
//!     inquiries += usize::from(pushed.event == Some(Event::Inquiry));
//! }
//! assert_eq!(replies, [0, 0, 0, 0, 0, 0, 0, 0, 0x81, 0x02]);
//! assert_eq!(inquiries, 1);
//! ```
//!
//! [`Record`] and [`receive`] are the same over lent buffers.

use crate::{ffi, Refusal};

pub use ffi::StripRecord as Record;

/// The dots of a row.
pub const WIDTH: usize = 160;

/// The bytes of a printed row: four dots in each, the leftmost in the highest two bits. A dot is 0
/// for white to 3 for black.
pub const ROW_BYTES: usize = 40;

/// The rows of a band.
pub const BAND_ROWS: usize = 16;

/// The bytes of a band: as it waits, 40 tiles of 16 bytes; and as it is printed, 16 rows.
pub const BAND_BYTES: usize = 640;

/// The greatest number of bands that wait.
pub const BANDS: usize = 9;

/// The bytes of nine bands. Number 36 refuses a shorter buffer.
pub const PAGE_BYTES: usize = BANDS * BAND_BYTES;

/// The greatest number of bytes of a packet's body.
pub const BODY_BYTES: usize = 648;

/// What a taken byte is answered, where its packet is not refused.
#[derive(Clone, Copy, Debug, PartialEq, Eq)]
pub enum Answer {
    /// This byte on the line.
    Reply(u8),
    /// 0 on the line, and the packet that the byte ends has acted.
    Acted(Event),
}

/// What a packet did, at its last byte.
#[derive(Clone, Copy, Debug, PartialEq, Eq)]
pub enum Event {
    /// Initialize: no band waits any more.
    Initialize,
    /// Data: one more band waits; with the number that wait now.
    Band(u8),
    /// Data with no body, the end of a page's bands.
    PageEnd,
    /// Inquiry.
    Inquiry,
    /// Print: the rows of the waiting bands were written.
    Print(Print),
}

/// What a Print packet says.
#[derive(Clone, Copy, Debug, PartialEq, Eq)]
pub struct Print {
    /// The number of bands that were printed.
    pub bands: u8,
    /// The margins: before the page in the high four bits, after it in the low ones.
    pub margins: u8,
    /// The density of the ink.
    pub density: u8,
}

impl Record {
    /// A record before the first byte: it searches for a mark, no band waits, and the status is 0.
    pub fn new() -> Record {
        ffi::strip_new()
    }
}

impl Default for Record {
    fn default() -> Record {
        Record::new()
    }
}

/// Takes one byte. Waiting bands stand in `bands` from its first byte on, and Print writes the rows
/// into `dots` from its first byte on; bytes beyond stay.
///
/// # Errors
///
/// The place is always 0. 36 where a buffer has under [`PAGE_BYTES`], or the record has over nine
/// bands or 648 body bytes: the byte is not taken, and nothing changes. 33 at the length; 31, 32, 34
/// and 35 at the second checksum byte: the byte is taken, no buffer changes, and the search for a
/// mark goes on at the next byte.
pub fn receive(
    record: &mut Record,
    byte: u8,
    bands: &mut [u8],
    dots: &mut [u8],
) -> Result<Answer, Refusal> {
    ffi::strip_receive(record, byte, bands, dots)
}

/// Sets the status that the second clock byte of a packet is answered. All else stays.
pub fn set_status(record: &mut Record, status: u8) {
    ffi::strip_set_status(record, status);
}

/// What [`Receiver::push`] answers.
#[derive(Clone, Copy, Debug, PartialEq, Eq)]
pub struct Pushed {
    /// The byte on the line.
    pub reply: u8,
    /// What the packet did that this byte ends.
    pub event: Option<Event>,
    /// Why the packet that this byte ends, or whose length it is, is refused.
    pub refusal: Option<Refusal>,
}

/// A receiver with room of its own for the waiting bands and the printed rows.
#[derive(Clone, Debug)]
pub struct Receiver {
    record: Record,
    bands: Box<[u8; PAGE_BYTES]>,
    dots: Box<[u8; PAGE_BYTES]>,
}

impl Receiver {
    /// A receiver before the first byte.
    pub fn new() -> Receiver {
        Receiver {
            record: Record::new(),
            bands: Box::new([0; PAGE_BYTES]),
            dots: Box::new([0; PAGE_BYTES]),
        }
    }

    /// Sets the status that the second clock byte of a packet is answered.
    pub fn set_status(&mut self, status: u8) {
        set_status(&mut self.record, status);
    }

    /// Takes one byte.
    pub fn push(&mut self, byte: u8) -> Pushed {
        let told = receive(
            &mut self.record,
            byte,
            &mut self.bands[..],
            &mut self.dots[..],
        );
        match told {
            Ok(Answer::Reply(reply)) => Pushed {
                reply,
                event: None,
                refusal: None,
            },
            Ok(Answer::Acted(event)) => Pushed {
                reply: 0,
                event: Some(event),
                refusal: None,
            },
            Err(refusal) => Pushed {
                reply: 0,
                event: None,
                refusal: Some(refusal),
            },
        }
    }

    /// The rows of the last page that was printed, where it had so many bands.
    pub fn rows(&self, bands: u8) -> &[u8] {
        &self.dots[..BAND_BYTES * usize::from(bands).min(BANDS)]
    }

    /// The bytes of the bands that wait.
    pub fn waiting(&self) -> &[u8] {
        &self.bands[..BAND_BYTES * usize::from(self.record.bands).min(BANDS)]
    }

    /// The record.
    pub fn record(&self) -> &Record {
        &self.record
    }
}

impl Default for Receiver {
    fn default() -> Receiver {
        Receiver::new()
    }
}
