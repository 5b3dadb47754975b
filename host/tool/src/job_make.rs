//! `job make`: a job from pictures, by the writers of the library.

use crate::arguments::{shown, Arguments};
use crate::failure::{Failure, Outcome, Status};
use crate::input::{name, open};
use crate::job::{END_BYTES, HEAD_BYTES, PAGE_HEAD_BYTES};
use crate::job_faults;
use crate::netpbm::Size;
use crate::output::{hold_target, to_target};
use crate::pbm::{row_bytes, Reader};
use printbox::gdi::{self, PageHead};
use printbox::{Refusal, FILE_BYTES};
use std::ffi::OsStr;
use std::io::{BufReader, Read};
use std::path::Path;

/// A paper format: its name, its index in a page head, and its dots.
#[derive(Clone, Copy)]
struct Paper {
    name: &'static str,
    format: u8,
    size: Size,
}

const PAPERS: [Paper; 4] = [
    Paper::new("A4", 0, 4762, 6778),
    Paper::new("A5", 4, 3298, 4726),
    Paper::new("Letter", 1, 4900, 6364),
    Paper::new("Monarch", 8, 2128, 4264),
];

impl Paper {
    const fn new(name: &'static str, format: u8, width: usize, height: usize) -> Paper {
        Paper {
            name,
            format,
            size: Size { width, height },
        }
    }

    fn named(text: &str) -> Outcome<Paper> {
        let paper = PAPERS
            .iter()
            .find(|paper| paper.name.eq_ignore_ascii_case(text));
        paper.copied().ok_or_else(|| {
            let names = PAPERS.map(|paper| paper.name).join(", ");
            let text = shown(OsStr::new(text));
            Failure::trouble(format!("--paper takes one of {names}, and not {text}"))
        })
    }

    /// The paper of this size, else A4, which is index 0.
    fn of_size(size: Size) -> Paper {
        let paper = PAPERS.iter().find(|paper| paper.size == size);
        *paper.unwrap_or(&PAPERS[0])
    }
}

/// What the options say of every page.
struct Options {
    paper: Option<Paper>,
    tray: u32,
    copies: u8,
    toner: u8,
}

pub fn run(arguments: &Arguments) -> Outcome<Status> {
    if !arguments.has("-o") {
        return Err(arguments.bad("-o FILE is missing"));
    }
    let text = arguments.text("--paper");
    let options = Options {
        paper: text.as_deref().map(Paper::named).transpose()?,
        tray: arguments
            .number("--tray", 0..=u32::MAX.into())?
            .unwrap_or(0) as u32,
        copies: arguments.number("--copies", 1..=255)?.unwrap_or(1) as u8,
        toner: arguments.has("--toner-save").into(),
    };
    hold_target(arguments)?;

    let mut job = Job(Vec::new());
    job.put(HEAD_BYTES, gdi::write_head).map_err(refused)?;
    for path in &arguments.files {
        add_pictures(&mut job, path, &options)?;
    }
    job.put(END_BYTES, gdi::write_document_end)
        .map_err(refused)?;
    job.hold()?;
    to_target(arguments, |output| output.write_all(&job.0))?;
    Ok(Status::Done)
}

/// A job that is being written.
struct Job(Vec<u8>);

impl Job {
    /// Calls a writer of the library with room for what it writes.
    fn put(
        &mut self,
        room: usize,
        write: impl FnOnce(&mut [u8]) -> Result<usize, Refusal>,
    ) -> Result<(), Refusal> {
        let start = self.0.len();
        self.0.resize(start + room, 0);
        let written = write(&mut self.0[start..])?;
        self.0.truncate(start + written);
        Ok(())
    }

    /// Refuses a job that the check does not pass: it is too long.
    fn hold(&self) -> Outcome<()> {
        match gdi::check(&self.0) {
            Ok(_) => Ok(()),
            Err(refusal) => Err(Failure::refused(job_faults::line(&refusal, &self.0))),
        }
    }
}

fn refused(refusal: Refusal) -> Failure {
    Failure::refused(refusal.to_string())
}

/// A file of pictures, whose faults are told with its name.
struct Pictures {
    name: String,
    reader: Reader<BufReader<Box<dyn Read>>>,
}

impl Pictures {
    fn open(path: &Path) -> Outcome<Pictures> {
        Ok(Pictures {
            name: name(path),
            reader: Reader::new(BufReader::new(open(path)?)),
        })
    }

    fn next(&mut self) -> Outcome<Option<Size>> {
        let next = self.reader.next_picture();
        next.map_err(|bad| bad.of_file(&self.name))
    }

    fn row(&mut self, width: usize, row: &mut [u8]) -> Outcome<()> {
        let read = self.reader.row(width, row);
        read.map_err(|bad| bad.of_file(&self.name))
    }
}

/// Adds a page for each picture of a file.
fn add_pictures(job: &mut Job, path: &Path, options: &Options) -> Outcome<()> {
    let mut file = Pictures::open(path)?;
    let mut pictures = 0;
    while let Some(size) = file.next()? {
        add_picture(job, &mut file, size, options)?;
        pictures += 1;
    }
    match pictures {
        0 => Err(Failure::trouble(format!("{}: no picture in it", file.name))),
        _ => Ok(()),
    }
}

/// Adds a page. It has the size of the paper that was named, with the picture at its left and top,
/// else the picture's own.
fn add_picture(
    job: &mut Job,
    file: &mut Pictures,
    picture: Size,
    options: &Options,
) -> Outcome<()> {
    let page = options.paper.map_or(picture, |paper| paper.size);
    if picture.width > page.width || picture.height > page.height {
        let paper = options.paper.map_or("", |paper| paper.name);
        return Err(Failure::trouble(format!(
            "{}: a picture of {picture} dots is too large for {paper}, {page}",
            file.name
        )));
    }
    let head = PageHead {
        tray: options.tray,
        // A number that a page head has no room for is refused as 0 is.
        width: page.width.try_into().unwrap_or(0),
        height: page.height.try_into().unwrap_or(0),
        format: options.paper.unwrap_or(Paper::of_size(page)).format,
        paper_type: 0,
        copies: options.copies,
        toner: options.toner,
    };
    job.put(PAGE_HEAD_BYTES, |room| gdi::write_page_head(&head, room))
        .map_err(|refusal| {
            Failure::refused(format!(
                "{}: {refusal}: a picture of {picture} dots, and a page has 1 to 16,383 by 1 to \
                 65,535",
                file.name
            ))
        })?;

    let room = gdi::row_room(page.width);
    let mut row = vec![0; row_bytes(page.width)];
    for line in 0..page.height {
        if line < picture.height {
            file.row(picture.width, &mut row[..row_bytes(picture.width)])?;
        } else {
            row.fill(0);
        }
        job.put(room, |room| gdi::write_row(page.width, &row, room))
            .map_err(refused)?;
        if job.0.len() > FILE_BYTES {
            return job.hold();
        }
    }
    job.put(END_BYTES, gdi::write_page_end).map_err(refused)
}

#[cfg(test)]
mod tests {
    use super::*;

    /// The widths are those whose linefills the requirements list.
    #[test]
    fn papers() {
        let linefills = PAPERS.map(|paper| gdi::linefill(paper.size.width));
        assert_eq!(linefills, [Ok(0x9A4A), Ok(0xA233), Ok(0xA44C), Ok(0x9021)]);
        for paper in PAPERS {
            assert_eq!(Paper::of_size(paper.size).format, paper.format);
            let lower = paper.name.to_lowercase();
            assert_eq!(Paper::named(&lower).expect("a paper").format, paper.format);
        }
        assert_eq!(
            Paper::of_size(Size {
                width: 3298,
                height: 4725
            })
            .format,
            0
        );
    }
}
