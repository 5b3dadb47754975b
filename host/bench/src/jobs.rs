//! The write and the read of GDI jobs, of the page of rectangles.

use crate::clock::{Competitor, Who};
use crate::draws::{blank, draw, shared};
use crate::filter::{self, Raster};
use crate::sheet::{word, Size};
use crate::subjects::{Entry, Input};
use crate::table::grouped;
use crate::{ffi, inputs, memory, peers};
use printbox::gdi::{self, row_bytes, Line, PageHead, Place};
use reference::Answer;
use std::path::Path;
use std::rc::Rc;

/// Head and page head; lines start after them.
const HEADS: usize = 86 + 21;
/// Page end and document end.
const ENDS: usize = 6 + 6;

/// The rows of the page of rectangles, one byte for each 8 dots, and how many dots are ink.
pub fn rows(size: Size) -> (Vec<u8>, usize) {
    let mut page = blank(size);
    let dots = draw(&inputs::rectangle_film(size), &mut page);
    let rows = page.chunks_exact(size.row_bytes());
    let rows = rows.flat_map(|row| &row[..row_bytes(size.width)]).copied();
    (rows.collect(), dots)
}

/// A length that is enough for every job of this size.
pub fn room(size: Size) -> usize {
    HEADS + size.height * gdi::row_room(size.width) + ENDS
}

/// Writes the job and answers its bytes.
pub fn write_library(size: Size, rows: &[u8], job: &mut [u8]) -> usize {
    let head = PageHead {
        tray: 0,
        width: word(size.width),
        height: word(size.height),
        format: 0,
        paper_type: 0,
        copies: 1,
        toner: 0,
    };
    let enough = "the room is enough for every row";
    let mut end = gdi::write_head(job).expect(enough);
    end += gdi::write_page_head(&head, &mut job[end..]).expect(enough);
    for row in rows.chunks_exact(row_bytes(size.width)) {
        end += gdi::write_row(size.width, row, &mut job[end..]).expect(enough);
    }
    end += gdi::write_page_end(&mut job[end..]).expect(enough);
    end + gdi::write_document_end(&mut job[end..]).expect(enough)
}

/// The same by the reference.
pub fn write_reference(size: Size, rows: &[u8], job: &mut [u8]) -> usize {
    let written = |answer: Answer| match answer {
        Answer::Done(bytes, 0) => bytes as usize,
        other => panic!("the reference writes the job: {other:?}"),
    };
    let (width, height) = (word(size.width), word(size.height));
    let mut end = written(reference::gdi_write_head(job));
    let head = reference::gdi_write_page_head(0, width, height, 0, 0, 1, 0, &mut job[end..]);
    end += written(head);
    for row in rows.chunks_exact(row_bytes(size.width)) {
        end += written(reference::gdi_write_row(size.width, row, &mut job[end..]));
    }
    end += written(reference::gdi_write_page_end(&mut job[end..]));
    end + written(reference::gdi_write_document_end(&mut job[end..]))
}

/// Checks the job, reads its lines into rows and answers where the last line ends.
pub fn read_library(size: Size, job: &[u8], rows: &mut [u8]) -> usize {
    assert_eq!(gdi::check(job), Ok(1));
    let mut place = Place {
        offset: HEADS,
        left: 0,
    };
    for row in rows.chunks_exact_mut(row_bytes(size.width)) {
        match gdi::read_line(job, place, size.width, row) {
            Ok(Line::Row(next)) => place = next,
            other => panic!("a line of a right job: {other:?}"),
        }
    }
    place.offset
}

/// The same by the reference.
pub fn read_reference(size: Size, job: &[u8], rows: &mut [u8]) -> usize {
    assert_eq!(reference::gdi_check(job), Answer::Done(1, 0));
    let (mut offset, mut left) = (HEADS, 0);
    for row in rows.chunks_exact_mut(row_bytes(size.width)) {
        match reference::gdi_read_line(job, offset, left, size.width, row) {
            Answer::Done(next, rest) => (offset, left) = (next as usize, rest as usize),
            other => panic!("the reference reads a line: {other:?}"),
        }
    }
    offset
}

/// The page as libtiff's file, which is held against the rows.
pub fn tiff_file(size: Size, rows: &[u8]) -> Vec<u8> {
    let mut file = vec![0; peers::tiff_room(size, rows)];
    let length = ffi::tiff_write(size, &mut rows.to_vec(), &mut file);
    file.truncate(length);
    let mut read = vec![0; rows.len()];
    ffi::tiff_read(size, &mut file, &mut read);
    assert!(read == rows, "the page that libtiff reads");
    file
}

/// Copies the rows and the job's length of bytes.
fn pass(rows: &Rc<Vec<u8>>, job: &Rc<Vec<u8>>) -> Competitor {
    let mut copy = vec![0; job.len()];
    let (rows, job) = (Rc::clone(rows), Rc::clone(job));
    Competitor::new(Who::Memory, vec![0; rows.len()], move |output| {
        memory::copy(&rows, output);
        memory::copy(&job, &mut copy);
        0
    })
}

/// The write of a job, beside libtiff and the filter where it is installed.
pub fn write(size: Size, filter: Option<&Path>) -> Entry {
    let (rows, dots) = rows(size);
    let [rows, first, second] = shared(rows);
    let room = || vec![0; room(size)];
    let mut library = Competitor::new(Who::Library, room(), move |job| {
        write_library(size, &first, job)
    });
    let mut reference = Competitor::new(Who::Reference, room(), move |job| {
        write_reference(size, &second, job)
    });
    let length = library.once();
    assert_eq!(length, reference.once(), "the bytes of the reference's job");
    let job = Rc::new(library.output[..length].to_vec());
    assert!(job[..] == reference.output[..length], "the reference's job");

    let mut competitors = vec![library, reference, pass(&rows, &job)];
    let mut seen = Vec::new();
    if peers::LIBTIFF.is_some() {
        seen.push(format!(
            "The job of {} dots has {} bytes, libtiff's file {}.",
            grouped(size.dots()),
            grouped(length),
            grouped(tiff_file(size, &rows).len())
        ));
        let mut rows = rows.to_vec();
        let room = vec![0; peers::tiff_room(size, &rows)];
        competitors.push(Competitor::new(Who::Libtiff, room, move |file| {
            ffi::tiff_write(size, &mut rows, file)
        }));
    }
    if let Some(filter) = filter {
        let tiny = &rows[..15 * row_bytes(size.width)];
        competitors.push(filtered(Who::Filter, filter, size.width, &rows));
        competitors.push(filtered(Who::FilterStart, filter, size.width, tiny));
    }
    Entry {
        input: Input {
            bytes: length,
            commands: None,
            dots: Some((size.dots(), dots)),
        },
        competitors,
        seen,
    }
}

/// The filter on a raster of these rows, whose job is held against them.
fn filtered(who: Who, filter: &Path, width: usize, rows: &[u8]) -> Competitor {
    let raster = Raster::new(&format!("{who:?}-{width}"), width, rows);
    let filter = filter.to_path_buf();
    let mut competitor = Competitor::new(who, Vec::new(), move |output| {
        *output = filter::job(&filter, &raster);
        output.len()
    });
    competitor.once();
    filter::hold(&competitor.output, width, rows);
    competitor
}

/// The read of a job, beside libtiff.
pub fn read(size: Size) -> Entry {
    let (rows, dots) = rows(size);
    let rows = Rc::new(rows);
    let mut job = vec![0; room(size)];
    let length = write_library(size, &rows, &mut job);
    job.truncate(length);
    let [job, first, second] = shared(job);
    let blank = || vec![0; rows.len()];
    let mut library = Competitor::new(Who::Library, blank(), move |rows| {
        read_library(size, &first, rows)
    });
    let mut reference = Competitor::new(Who::Reference, blank(), move |rows| {
        read_reference(size, &second, rows)
    });
    assert_eq!(library.once(), length - ENDS, "the last line's end");
    assert_eq!(reference.once(), length - ENDS, "the last line's end");
    assert!(library.output == *rows, "the rows that are read");
    assert!(reference.output == *rows, "the reference's rows");

    let mut competitors = vec![library, reference, pass(&rows, &job)];
    if peers::LIBTIFF.is_some() {
        let mut file = tiff_file(size, &rows);
        competitors.push(Competitor::new(Who::Libtiff, blank(), move |rows| {
            ffi::tiff_read(size, &mut file, rows);
            0
        }));
    }
    Entry {
        input: Input {
            bytes: length,
            commands: None,
            dots: Some((size.dots(), dots)),
        },
        competitors,
        seen: Vec::new(),
    }
}
