//! Calls of the library's entries, each of which can be made of `reference` too.

use super::guarded::{Guarded, Memory};
use printbox::gdi::{Line, PageHead, Place};
use printbox::{film, gdi, Refusal};
pub use reference::Answer;
use std::fmt;

/// An entry of the library, with the numbers that it takes.
#[derive(Clone, Copy, Debug)]
pub enum Entry {
    FilmCheck,
    FilmDraw {
        page: usize,
        band: usize,
    },
    GdiCheck,
    GdiReadLine {
        offset: usize,
        left: usize,
        width: usize,
    },
    GdiWriteHead,
    GdiWritePageHead(PageHead),
    GdiWriteRow {
        width: usize,
    },
    GdiWritePageEnd,
    GdiWriteDocumentEnd,
    GdiLinefill {
        width: usize,
    },
}

/// A call: an entry, what it reads (sheet and load; a job; a row; or nothing), and what the buffer
/// holds that it writes.
pub struct Call<'a> {
    pub entry: Entry,
    pub inputs: [&'a [u8]; 2],
    pub buffer: &'a [u8],
}

/// What came of a call: its answer, and what the buffer holds then.
#[derive(Clone, PartialEq, Eq)]
pub struct Outcome {
    pub answer: Answer,
    pub buffer: Vec<u8>,
}

impl Call<'_> {
    /// What comes of the call of the library, with buffers between known bytes; or what it wrote
    /// that it must not.
    pub fn library(&self) -> Result<Outcome, String> {
        self.library_in::<Guarded>()
    }

    /// The same, with buffers in memory of this kind.
    pub fn library_in<M: Memory>(&self) -> Result<Outcome, String> {
        let mut first = M::new(self.inputs[0]);
        let mut second = M::new(self.inputs[1]);
        let mut buffer = M::new(self.buffer);
        let answer = self
            .entry
            .library([first.lent(), second.lent()], buffer.lent());
        if [first.content()?, second.content()?] != self.inputs {
            return Err("an input was written".to_string());
        }
        let buffer = buffer.content()?.to_vec();
        Ok(Outcome { answer, buffer })
    }

    /// What comes of the call of `reference`.
    pub fn reference(&self) -> Outcome {
        let mut buffer = self.buffer.to_vec();
        let answer = self.entry.reference(self.inputs, &mut buffer);
        Outcome { answer, buffer }
    }

    /// What comes of the call, where library and `reference` agree on it and a refusal leaves the
    /// buffer; else the call and what is wrong, as text.
    pub fn agreed(&self) -> Result<Outcome, String> {
        self.agreed_in::<Guarded>()
    }

    /// The same, with buffers in memory of this kind.
    pub fn agreed_in<M: Memory>(&self) -> Result<Outcome, String> {
        let reference = self.reference();
        match self.library_in::<M>() {
            Err(fault) => Err(format!("{self}\n{fault}")),
            Ok(library) if library != reference => Err(format!(
                "{self}\nlibrary:   {library}\nreference: {reference}"
            )),
            Ok(library) if library.is_refused() && library.buffer != self.buffer => Err(format!(
                "{self}\n{library}\na refused call wrote the buffer"
            )),
            Ok(library) => Ok(library),
        }
    }
}

/// What comes of a call, on which library and `reference` have to agree.
pub fn agreed(entry: Entry, inputs: [&[u8]; 2], buffer: &[u8]) -> Outcome {
    let call = Call {
        entry,
        inputs,
        buffer,
    };
    call.agreed()
        .unwrap_or_else(|difference| panic!("{difference}"))
}

/// The answer alone, with a buffer of so many bytes EE. That a refusal leaves them is part of the
/// agreement.
pub fn answer(entry: Entry, inputs: [&[u8]; 2], room: usize) -> Answer {
    agreed(entry, inputs, &vec![0xEE; room]).answer
}

impl Outcome {
    pub fn is_refused(&self) -> bool {
        matches!(self.answer, Answer::Refused(..))
    }
}

impl Entry {
    /// The entry's name in the C header.
    pub fn name(self) -> &'static str {
        match self {
            Entry::FilmCheck => "film_check",
            Entry::FilmDraw { .. } => "film_draw",
            Entry::GdiCheck => "gdi_check",
            Entry::GdiReadLine { .. } => "gdi_read_line",
            Entry::GdiWriteHead => "gdi_write_head",
            Entry::GdiWritePageHead(_) => "gdi_write_page_head",
            Entry::GdiWriteRow { .. } => "gdi_write_row",
            Entry::GdiWritePageEnd => "gdi_write_page_end",
            Entry::GdiWriteDocumentEnd => "gdi_write_document_end",
            Entry::GdiLinefill { .. } => "gdi_linefill",
        }
    }

    fn library(self, [first, second]: [&[u8]; 2], buffer: &mut [u8]) -> Answer {
        match self {
            Entry::FilmCheck => one(film::check(first, second)),
            Entry::FilmDraw { page, band } => {
                let drawn = film::draw(first, second, page, band, buffer);
                told(drawn.map(|drawn| Answer::Done(drawn.rows as u64, drawn.dots as u64)))
            }
            Entry::GdiCheck => one(gdi::check(first)),
            Entry::GdiReadLine {
                offset,
                left,
                width,
            } => {
                let line = gdi::read_line(first, Place { offset, left }, width, buffer);
                told(line.map(|line| match line {
                    Line::Row(next) => Answer::Done(next.offset as u64, next.left as u64),
                    Line::PageEnd(next) => Answer::PageEnd(next.offset as u64, next.left as u64),
                }))
            }
            Entry::GdiWriteHead => one(gdi::write_head(buffer)),
            Entry::GdiWritePageHead(head) => one(gdi::write_page_head(&head, buffer)),
            Entry::GdiWriteRow { width } => one(gdi::write_row(width, first, buffer)),
            Entry::GdiWritePageEnd => one(gdi::write_page_end(buffer)),
            Entry::GdiWriteDocumentEnd => one(gdi::write_document_end(buffer)),
            Entry::GdiLinefill { width } => one(gdi::linefill(width).map(usize::from)),
        }
    }

    fn reference(self, [first, second]: [&[u8]; 2], buffer: &mut [u8]) -> Answer {
        match self {
            Entry::FilmCheck => reference::film_check(first, second),
            Entry::FilmDraw { page, band } => {
                reference::film_draw(first, second, page, band, buffer)
            }
            Entry::GdiCheck => reference::gdi_check(first),
            Entry::GdiReadLine {
                offset,
                left,
                width,
            } => reference::gdi_read_line(first, offset, left, width, buffer),
            Entry::GdiWriteHead => reference::gdi_write_head(buffer),
            Entry::GdiWritePageHead(head) => reference::gdi_write_page_head(
                head.tray,
                head.width,
                head.height,
                head.format,
                head.paper_type,
                head.copies,
                head.toner,
                buffer,
            ),
            Entry::GdiWriteRow { width } => reference::gdi_write_row(width, first, buffer),
            Entry::GdiWritePageEnd => reference::gdi_write_page_end(buffer),
            Entry::GdiWriteDocumentEnd => reference::gdi_write_document_end(buffer),
            Entry::GdiLinefill { width } => reference::gdi_linefill(width),
        }
    }
}

/// An answer of the library in the form of an answer of `reference`.
fn told(answer: Result<Answer, Refusal>) -> Answer {
    answer.unwrap_or_else(|refusal| Answer::Refused(refusal.number.into(), refusal.place))
}

fn one(answer: Result<usize, Refusal>) -> Answer {
    told(answer.map(|value| Answer::Done(value as u64, 0)))
}

/// Bytes in hexadecimal, `-` for none; of a long file its first bytes alone.
fn hex(bytes: &[u8]) -> String {
    const SHOWN: usize = 65_536;
    if bytes.is_empty() {
        return "-".to_string();
    }
    let mut text: String = bytes
        .iter()
        .take(SHOWN)
        .map(|byte| format!("{byte:02x}"))
        .collect();
    if bytes.len() > SHOWN {
        text += &format!("... ({} bytes)", bytes.len());
    }
    text
}

impl fmt::Display for Call<'_> {
    fn fmt(&self, f: &mut fmt::Formatter<'_>) -> fmt::Result {
        let [first, second] = self.inputs;
        let (first, second, buffer) = (hex(first), hex(second), hex(self.buffer));
        write!(
            f,
            "call: {:?}, inputs {first} {second}, buffer {buffer}",
            self.entry
        )
    }
}

impl fmt::Display for Outcome {
    fn fmt(&self, f: &mut fmt::Formatter<'_>) -> fmt::Result {
        write!(f, "{:?}, buffer {}", self.answer, hex(&self.buffer))
    }
}
