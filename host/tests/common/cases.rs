//! The stored cases, one a line: tests/data/film.txt and tests/data/gdi.txt of one reading of the
//! requirements, tests/data/model.txt of another, which has tiles and blocks that are full, and
//! tests/data/p1.txt, tests/data/p7.txt and tests/data/p5.txt of a third, of films after the
//! changes P1, P7 and P5.
//!
//! Fields are split by a blank, bytes are in hexadecimal (`-` for none) and numbers in decimal;
//! what stands after `=` is the answer. After a refusal the buffer is as it was.
//!
//!     check SHEET LOAD = pages N
//!     draw SHEET LOAD PAGE BAND BUFFER = drawn ROWS DOTS BUFFER-AFTER
//!     job JOB = pages N
//!     line JOB OFFSET LEFT WIDTH ROW = line OFFSET LEFT ROW-AFTER | pageend OFFSET LEFT
//!     row WIDTH ROW OUTPUT = written N OUTPUT-AFTER
//!     pagehead TRAY WIDTH HEIGHT FORMAT PAPER COPIES TONER OUTPUT = written N OUTPUT-AFTER
//!
//! Each may have `refused NUMBER PLACE` for an answer instead.

use super::calls::{Answer, Call, Entry, Outcome};
use super::fields::{bytes, number};
use printbox::gdi::PageHead;

pub const FILM: &str = include_str!("../data/film.txt");
pub const GDI: &str = include_str!("../data/gdi.txt");
pub const MODEL: &str = include_str!("../data/model.txt");
pub const P1: &str = include_str!("../data/p1.txt");
pub const P7: &str = include_str!("../data/p7.txt");
pub const P5: &str = include_str!("../data/p5.txt");

/// A case: a call with all that it lends, and what has to come of it.
pub struct Case {
    pub entry: Entry,
    pub inputs: [Vec<u8>; 2],
    pub buffer: Vec<u8>,
    pub expected: Outcome,
}

/// Entry, inputs and buffer of a call.
type Lent = (Entry, [Vec<u8>; 2], Vec<u8>);

/// The call that the fields before `=` describe.
fn call(fields: &[&str]) -> Result<Lent, String> {
    let none = Vec::new;
    Ok(match *fields {
        ["check", sheet, load] => (Entry::FilmCheck, [bytes(sheet)?, bytes(load)?], none()),
        ["draw", sheet, load, page, band, buffer] => {
            let entry = Entry::FilmDraw {
                page: number(page)?,
                band: number(band)?,
            };
            (entry, [bytes(sheet)?, bytes(load)?], bytes(buffer)?)
        }
        ["job", job] => (Entry::GdiCheck, [bytes(job)?, none()], none()),
        ["line", job, offset, left, width, row] => {
            let (offset, left, width) = (number(offset)?, number(left)?, number(width)?);
            let entry = Entry::GdiReadLine {
                offset,
                left,
                width,
            };
            (entry, [bytes(job)?, none()], bytes(row)?)
        }
        ["row", width, row, output] => {
            let entry = Entry::GdiWriteRow {
                width: number(width)?,
            };
            (entry, [bytes(row)?, none()], bytes(output)?)
        }
        ["pagehead", tray, width, height, format, paper_type, copies, toner, output] => {
            let entry = Entry::GdiWritePageHead(PageHead {
                tray: number(tray)?,
                width: number(width)?,
                height: number(height)?,
                format: number(format)?,
                paper_type: number(paper_type)?,
                copies: number(copies)?,
                toner: number(toner)?,
            });
            (entry, [none(), none()], bytes(output)?)
        }
        _ => return Err("the line does not begin with a known call".to_string()),
    })
}

/// What the fields after `=` say of a call of the entry, whose buffer held `lent`.
fn outcome(entry: Entry, lent: &[u8], fields: &[&str]) -> Result<Outcome, String> {
    let stays = |answer| Outcome {
        answer,
        buffer: lent.to_vec(),
    };
    Ok(match (entry, fields) {
        (_, ["refused", no, place]) => stays(Answer::Refused(number(no)?, number(place)?)),
        (Entry::FilmCheck | Entry::GdiCheck, ["pages", pages]) => {
            stays(Answer::Done(number(pages)?, 0))
        }
        (Entry::GdiReadLine { .. }, ["pageend", offset, left]) => {
            stays(Answer::PageEnd(number(offset)?, number(left)?))
        }
        (Entry::FilmDraw { .. }, ["drawn", a, b, after])
        | (Entry::GdiReadLine { .. }, ["line", a, b, after]) => Outcome {
            answer: Answer::Done(number(a)?, number(b)?),
            buffer: bytes(after)?,
        },
        (Entry::GdiWriteRow { .. } | Entry::GdiWritePageHead(_), ["written", a, after]) => {
            Outcome {
                answer: Answer::Done(number(a)?, 0),
                buffer: bytes(after)?,
            }
        }
        _ => return Err("the line does not end with an answer of its call".to_string()),
    })
}

/// The case that a line describes.
pub fn case(line: &str) -> Result<Case, String> {
    let fields: Vec<&str> = line.split(' ').collect();
    let Some(equals) = fields.iter().position(|&field| field == "=") else {
        return Err("the line has no =".to_string());
    };
    let (entry, inputs, buffer) = call(&fields[..equals])?;
    let expected = outcome(entry, &buffer, &fields[equals + 1..])?;
    Ok(Case {
        entry,
        inputs,
        buffer,
        expected,
    })
}

impl Case {
    pub fn call(&self) -> Call<'_> {
        let [first, second] = &self.inputs;
        Call {
            entry: self.entry,
            inputs: [first, second],
            buffer: &self.buffer,
        }
    }
}
