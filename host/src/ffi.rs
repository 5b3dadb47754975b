//! The C functions of the proved library, each behind a function that lends slices and takes the
//! answer apart. include/printbox.h describes them for C programs.

#![allow(unsafe_code)]

use crate::{strip, Refusal};

// A length crosses the border as a `usize` and an answer as a `u64`: they are the same numbers.
const _: () = assert!(usize::BITS == 64, "libprintbox.a is for 64-bit machines");

/// What an entry answers.
#[derive(Debug)]
pub enum Answer {
    /// Kind 0: done, with the entry's two values.
    Done(usize, usize),
    /// Kind 1.
    Refused(Refusal),
    /// Kind 2: the page end, with the place after it. The line reader alone gives it.
    PageEnd(usize, usize),
}

impl Answer {
    /// The two values of an entry that has no page end.
    pub fn values(self) -> Result<(usize, usize), Refusal> {
        match self {
            Answer::Done(a, b) => Ok((a, b)),
            Answer::Refused(refusal) => Err(refusal),
            Answer::PageEnd(..) => {
                unreachable!("only the line reader answers a page end: {self:?}")
            }
        }
    }

    /// The value of an entry that has one; its second is 0.
    pub fn value(self) -> Result<usize, Refusal> {
        match self.values()? {
            (value, 0) => Ok(value),
            (a, b) => unreachable!("an entry of one value answered {a} and {b}"),
        }
    }
}

/// Lends room for an answer to `call` and takes the answer apart. The room starts with a kind that
/// no entry gives.
fn answer(call: impl FnOnce(*mut [u64; 3])) -> Answer {
    let mut told = [u64::MAX; 3];
    call(&mut told);
    let [kind, a, b] = told;
    match kind {
        0 => Answer::Done(a as usize, b as usize),
        1 => match u8::try_from(a) {
            Ok(number) => Answer::Refused(Refusal { number, place: b }),
            Err(_) => unreachable!("no refusal has the number {a}"),
        },
        2 => Answer::PageEnd(a as usize, b as usize),
        _ => unreachable!("no answer is of kind {kind}"),
    }
}

/// A receiver's record. Any numbers may stand in it; what they then mean is said in the header.
#[repr(C)]
#[derive(Clone, Copy, Debug, PartialEq, Eq)]
pub struct StripRecord {
    /// Where the receiver stands in a packet, 0 to 10; 0, and every other number, is the search for
    /// a mark.
    pub phase: u8,
    /// The packet's command.
    pub command: u8,
    /// Its compression indicator.
    pub indicator: u8,
    /// The length of its body.
    pub size: u16,
    /// How many bytes of the body have come.
    pub have: u16,
    /// The sum of header and body so far; after a packet that was refused with 31, the sum that its
    /// checksum is not.
    pub sum: u16,
    /// The low byte of the length, and then of the checksum.
    pub low: u8,
    /// The host's status.
    pub status: u8,
    /// How many bands wait.
    pub bands: u8,
    /// The body.
    pub body: [u8; 648],
}

/// What a byte is answered.
#[repr(C)]
#[derive(Clone, Copy, Debug)]
pub struct StripAnswer {
    pub kind: u8,
    pub reply: u8,
    pub event: u8,
    pub bands: u8,
    pub margins: u8,
    pub density: u8,
    pub number: u8,
    pub place: usize,
}

mod c {
    extern "C" {
        pub fn film_check(
            sheet: *const u8,
            sheet_len: usize,
            load: *const u8,
            load_len: usize,
            answer: *mut [u64; 3],
        );
        pub fn film_draw(
            sheet: *const u8,
            sheet_len: usize,
            load: *const u8,
            load_len: usize,
            page: usize,
            band: usize,
            buffer: *mut u8,
            buffer_len: usize,
            answer: *mut [u64; 3],
        );
        pub fn gdi_check(job: *const u8, job_len: usize, answer: *mut [u64; 3]);
        pub fn gdi_read_line(
            job: *const u8,
            job_len: usize,
            offset: usize,
            left: usize,
            width: usize,
            row: *mut u8,
            row_len: usize,
            answer: *mut [u64; 3],
        );
        pub fn gdi_write_head(output: *mut u8, output_len: usize, answer: *mut [u64; 3]);
        pub fn gdi_write_page_head(
            tray: u32,
            width: u16,
            height: u16,
            format: u8,
            paper_type: u8,
            copies: u8,
            toner: u8,
            output: *mut u8,
            output_len: usize,
            answer: *mut [u64; 3],
        );
        pub fn gdi_write_row(
            width: usize,
            row: *const u8,
            row_len: usize,
            output: *mut u8,
            output_len: usize,
            answer: *mut [u64; 3],
        );
        pub fn gdi_write_page_end(output: *mut u8, output_len: usize, answer: *mut [u64; 3]);
        pub fn gdi_write_document_end(output: *mut u8, output_len: usize, answer: *mut [u64; 3]);
        pub fn gdi_linefill(width: usize, answer: *mut [u64; 3]);
        pub fn strip_new() -> super::StripRecord;
        pub fn strip_receive(
            record: *mut super::StripRecord,
            byte: u8,
            bands: *mut u8,
            bands_len: usize,
            dots: *mut u8,
            dots_len: usize,
        ) -> super::StripAnswer;
        pub fn strip_set_status(record: *mut super::StripRecord, status: u8);
    }
}

// Every call below is sound for the same reasons, which its SAFETY comment names by their letters:
//
// (a) pointer and length are of one slice: not null at length 0 either, and valid for the length;
// (b) a shared slice is only read, and nobody writes it during the call;
// (c) a mutable slice overlaps no other slice, and is written within its length alone;
// (d) `answer` is aligned room for three numbers that nothing else refers to.

pub fn film_check(sheet: &[u8], load: &[u8]) -> Answer {
    // SAFETY: (a) and (b) for sheet and load, (d).
    answer(|answer| unsafe {
        c::film_check(
            sheet.as_ptr(),
            sheet.len(),
            load.as_ptr(),
            load.len(),
            answer,
        )
    })
}

pub fn film_draw(sheet: &[u8], load: &[u8], page: usize, band: usize, buffer: &mut [u8]) -> Answer {
    // SAFETY: (a) and (b) for sheet and load, (a) and (c) for buffer, (d). Page and band may be
    // any numbers.
    answer(|answer| unsafe {
        c::film_draw(
            sheet.as_ptr(),
            sheet.len(),
            load.as_ptr(),
            load.len(),
            page,
            band,
            buffer.as_mut_ptr(),
            buffer.len(),
            answer,
        )
    })
}

pub fn gdi_check(job: &[u8]) -> Answer {
    // SAFETY: (a) and (b) for job, (d).
    answer(|answer| unsafe { c::gdi_check(job.as_ptr(), job.len(), answer) })
}

pub fn gdi_read_line(
    job: &[u8],
    offset: usize,
    left: usize,
    width: usize,
    row: &mut [u8],
) -> Answer {
    // SAFETY: (a) and (b) for job, (a) and (c) for row, (d). Offset, left and width may be any
    // numbers.
    answer(|answer| unsafe {
        c::gdi_read_line(
            job.as_ptr(),
            job.len(),
            offset,
            left,
            width,
            row.as_mut_ptr(),
            row.len(),
            answer,
        )
    })
}

pub fn gdi_write_head(output: &mut [u8]) -> Answer {
    // SAFETY: (a) and (c) for output, (d).
    answer(|answer| unsafe { c::gdi_write_head(output.as_mut_ptr(), output.len(), answer) })
}

pub fn gdi_write_page_head(head: &crate::gdi::PageHead, output: &mut [u8]) -> Answer {
    // SAFETY: (a) and (c) for output, (d). The head's fields may be any numbers of their types.
    answer(|answer| unsafe {
        c::gdi_write_page_head(
            head.tray,
            head.width,
            head.height,
            head.format,
            head.paper_type,
            head.copies,
            head.toner,
            output.as_mut_ptr(),
            output.len(),
            answer,
        )
    })
}

pub fn gdi_write_row(width: usize, row: &[u8], output: &mut [u8]) -> Answer {
    // SAFETY: (a) and (b) for row, (a) and (c) for output, (d). Width may be any number.
    answer(|answer| unsafe {
        c::gdi_write_row(
            width,
            row.as_ptr(),
            row.len(),
            output.as_mut_ptr(),
            output.len(),
            answer,
        )
    })
}

pub fn gdi_write_page_end(output: &mut [u8]) -> Answer {
    // SAFETY: (a) and (c) for output, (d).
    answer(|answer| unsafe { c::gdi_write_page_end(output.as_mut_ptr(), output.len(), answer) })
}

pub fn gdi_write_document_end(output: &mut [u8]) -> Answer {
    // SAFETY: (a) and (c) for output, (d).
    answer(|answer| unsafe { c::gdi_write_document_end(output.as_mut_ptr(), output.len(), answer) })
}

pub fn gdi_linefill(width: usize) -> Answer {
    // SAFETY: (d). Width may be any number.
    answer(|answer| unsafe { c::gdi_linefill(width, answer) })
}

pub fn strip_new() -> StripRecord {
    // SAFETY: it takes nothing, and gives a whole record.
    unsafe { c::strip_new() }
}

pub fn strip_receive(
    record: &mut StripRecord,
    byte: u8,
    bands: &mut [u8],
    dots: &mut [u8],
) -> Result<strip::Answer, Refusal> {
    // SAFETY: (a) and (c) for bands and dots; the record is aligned, overlaps neither, and every
    // number may stand in it.
    let told = unsafe {
        c::strip_receive(
            record,
            byte,
            bands.as_mut_ptr(),
            bands.len(),
            dots.as_mut_ptr(),
            dots.len(),
        )
    };
    match (told.kind, told.event, told.reply) {
        (0, 0, reply) => Ok(strip::Answer::Reply(reply)),
        (0, 1, 0) => Ok(strip::Answer::Acted(strip::Event::Initialize)),
        (0, 2, 0) => Ok(strip::Answer::Acted(strip::Event::Band(told.bands))),
        (0, 3, 0) => Ok(strip::Answer::Acted(strip::Event::PageEnd)),
        (0, 4, 0) => Ok(strip::Answer::Acted(strip::Event::Inquiry)),
        (0, 5, 0) => Ok(strip::Answer::Acted(strip::Event::Print(strip::Print {
            bands: told.bands,
            margins: told.margins,
            density: told.density,
        }))),
        (1, 0, 0) => Err(Refusal {
            number: told.number,
            place: told.place as u64,
        }),
        _ => unreachable!("no answer of a byte is {told:?}"),
    }
}

pub fn strip_set_status(record: &mut StripRecord, status: u8) {
    // SAFETY: the record is aligned, and nothing else refers to it.
    unsafe { c::strip_set_status(record, status) }
}
