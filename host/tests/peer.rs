//! Jobs of another maker: Debian's printer-driver-sag-gdi has a filter that turns a CUPS raster
//! into a Sagem GDI job.
//!
//! The filter is a Python program; what it does was read there and is held against its jobs here.
//! For each page of the raster it writes
//!
//! - a page head for A4, 4762 x 6778 and format 0, whatever page the raster names (since Python 3
//!   it looks the name's bytes up among texts, and finds none); tray, paper type and copies from
//!   the raster and its command line; toner 0;
//! - for each row a line that starts with the colour of dot 0, one command for each run, one byte
//!   below 64 dots, else two; a row over 4762 dots is cropped, and a shorter one ends with a white
//!   command for the rest;
//! - the linefill 9A 4A for each line that the raster does not have, up to 6778; what is more is
//!   left out;
//! - blocks of at most 255 bytes, which go on from line to line and never end within a command.
//!
//! Its jobs keep the rules of a job. On a raster of less than 15 rows it divides by 0 and stops
//! after the page head.
//!
//! tests/data/sagem.gdi is a job that it wrote, of [`small_page`]. The environment variable
//! PRINTBOX_SAGEM_FILTER names another place of the filter.

mod common;

use common::raster::{raster, Page};
use printbox::gdi::{self, row_bytes, row_room, Line, PageHead, Place};
use std::fs::{self, File};
use std::path::{Path, PathBuf};
use std::process::{Command, Stdio};

const WIDTH: usize = 4762;
const HEIGHT: usize = 6778;
const HEAD_BYTES: usize = 86;

/// A row of the picture: its number says which.
fn row(y: usize, width: usize) -> Vec<u8> {
    let mut row = vec![0; row_bytes(width)];
    let mut black = |from: usize, to: usize| {
        for f in from..to.min(width) {
            row[f / 8] |= 0x80 >> (f % 8);
        }
    };
    // Runs of these lengths in turn, the first of them white.
    let mut runs = |lengths: &mut dyn Iterator<Item = usize>| {
        let mut from = 0;
        let mut is_black = false;
        while from < width {
            let to = from + lengths.next().expect("runs for the whole row");
            if is_black {
                black(from, to);
            }
            (from, is_black) = (to, !is_black);
        }
    };
    let mut random = y as u64;
    let mut below = |limit: u64| {
        random = random
            .wrapping_mul(6364136223846793005)
            .wrapping_add(1442695040888963407);
        (random >> 33) % limit
    };
    match y % 60 {
        0 => runs(&mut [0, width].into_iter()),           // all black
        2 => runs(&mut [0, 1, width - 2, 1].into_iter()), // a single dot at both edges
        3 => runs(&mut [1, width - 2, 1].into_iter()),    // a single white dot at both edges
        4 => runs(&mut std::iter::repeat(1)),             // every other dot
        5 => runs(&mut (1..)),                            // runs of every length up to 97
        6 => runs(&mut (0..)),                            // the same in the other colour
        7 => runs(&mut [63, 64, 65, 127, 128, 129].into_iter().cycle()),
        8 => runs(&mut [width / 2, width].into_iter()), // half white, half black
        9 => runs(&mut [0, width / 2, width].into_iter()), // half black, half white
        10 => runs(&mut std::iter::repeat_with(|| 1 + below(2) as usize)), // noise
        20..40 => runs(&mut std::iter::repeat_with(|| 1 + below(24) as usize)), // strokes
        _ => {}                                         // all white
    }
    row
}

fn page(width: usize, height: usize, tray: u32, paper_type: u32) -> Page {
    let rows = (0..height).map(|y| row(y, width)).collect();
    Page {
        width,
        rows,
        tray,
        paper_type,
    }
}

/// The page of tests/data/sagem.gdi: its first 24 lines have dots.
fn small_page() -> Page {
    page(WIDTH, 24, 1, 3)
}

/// The filter, or None where it is not installed and no other place was named.
fn filter() -> Option<PathBuf> {
    if let Some(named) = std::env::var_os("PRINTBOX_SAGEM_FILTER") {
        let path = PathBuf::from(named);
        assert!(
            path.is_file(),
            "PRINTBOX_SAGEM_FILTER names {}, which is no file",
            path.display()
        );
        return Some(path);
    }
    let path = PathBuf::from("/usr/lib/cups/filter/rastertosag-gdi");
    if path.is_file() {
        return Some(path);
    }
    println!(
        "skipped what needs the filter: {} is not there; Debian's printer-driver-sag-gdi has it",
        path.display()
    );
    None
}

/// The job that the filter writes of these pages.
fn filtered(filter: &Path, name: &str, copies: u8, pages: &[Page]) -> Vec<u8> {
    let file = Path::new(env!("CARGO_TARGET_TMPDIR")).join(name);
    fs::write(&file, raster(pages)).expect("the raster is written");
    let output = Command::new(filter)
        .args(["1", "user", "title", &copies.to_string(), ""])
        .stdin(Stdio::from(
            File::open(&file).expect("the raster is opened"),
        ))
        .output()
        .expect("the filter is run");
    let said = String::from_utf8_lossy(&output.stderr);
    assert!(
        output.status.success(),
        "the filter failed, {}:\n{said}",
        output.status
    );
    output.stdout
}

/// Holds a job against the pages that it was made of: heads, every line and ends.
fn hold(job: &[u8], copies: u8, pages: &[Page]) {
    assert_eq!(gdi::check(job), Ok(pages.len()));
    let mut expected = [0; HEAD_BYTES];
    assert_eq!(gdi::write_head(&mut expected), Ok(HEAD_BYTES));
    assert_eq!(job[..HEAD_BYTES], expected);

    let mut offset = HEAD_BYTES;
    for page in pages {
        let mut expected = [0; 21];
        assert_eq!(
            gdi::write_page_head(&page_head(page, copies), &mut expected),
            Ok(21)
        );
        assert_eq!(job[offset..offset + 21], expected);
        offset = hold_lines(job, offset + 21, page);
    }
    let mut expected = [0; 6];
    assert_eq!(gdi::write_document_end(&mut expected), Ok(6));
    assert_eq!(job[offset..], expected);
}

fn page_head(page: &Page, copies: u8) -> PageHead {
    PageHead {
        tray: page.tray,
        width: WIDTH as u16,
        height: HEIGHT as u16,
        format: 0,
        paper_type: page.paper_type as u8,
        copies,
        toner: 0,
    }
}

/// Holds the lines of a page, which start at an offset, against its rows; answers the offset after
/// the page end.
fn hold_lines(job: &[u8], offset: usize, page: &Page) -> usize {
    let mut place = Place { offset, left: 0 };
    for y in 0..HEIGHT {
        let mut read = vec![0xEE; row_bytes(WIDTH)];
        match gdi::read_line(job, place, WIDTH, &mut read) {
            Ok(Line::Row(next)) => place = next,
            other => panic!("line {y} at {place:?}: {other:?}"),
        }
        assert_eq!(read, line_of(page, y), "line {y}");
    }
    let mut untouched = vec![0xEE; row_bytes(WIDTH)];
    match gdi::read_line(job, place, WIDTH, &mut untouched) {
        Ok(Line::PageEnd(Place { offset, left: 0 })) => {
            assert!(untouched.iter().all(|&byte| byte == 0xEE));
            offset
        }
        other => panic!("after the last line at {place:?}: {other:?}"),
    }
}

/// Row y of a page as a line of 4762 dots: cropped, or white where the page has no dots.
fn line_of(page: &Page, y: usize) -> Vec<u8> {
    let mut line = vec![0; row_bytes(WIDTH)];
    if let Some(row) = page.rows.get(y) {
        let shared = row.len().min(line.len());
        line[..shared].copy_from_slice(&row[..shared]);
        line[WIDTH / 8] &= 0xC0; // 595 bytes and two dots
    }
    line
}

/// The bytes of the blocks that stand end to end from an offset on: commands alone.
fn commands(bytes: &[u8], mut offset: usize) -> Vec<u8> {
    let mut commands = Vec::new();
    while let Some([0x12, 0, low, high, 0, 0]) = bytes.get(offset..offset + 6) {
        let end = offset + 6 + usize::from(u16::from_le_bytes([*low, *high]));
        commands.extend_from_slice(&bytes[offset + 6..end]);
        offset = end;
    }
    commands
}

/// The stored job was written by `cargo test --test peer -- --ignored`.
#[test]
#[ignore = "writes tests/data/sagem.gdi"]
fn store_job() {
    let filter = filter().expect("the filter is installed");
    let job = filtered(&filter, "stored.raster", 2, &[small_page()]);
    let file = Path::new(env!("CARGO_MANIFEST_DIR")).join("tests/data/sagem.gdi");
    fs::write(file, job).expect("the job is written");
}

#[test]
fn stored_job() {
    let job = include_bytes!("data/sagem.gdi");
    let pages = [small_page()];
    hold(job, 2, &pages);
    if let Some(filter) = filter() {
        assert_eq!(
            filtered(&filter, "small.raster", 2, &pages),
            job,
            "the filter writes it again"
        );
    }
}

/// A whole A4 page. The library's writer gives the same commands for its rows; only the blocks are
/// divided otherwise.
#[test]
fn whole_page() {
    let Some(filter) = filter() else { return };
    let pages = [page(WIDTH, HEIGHT, 0, 0)];
    let job = filtered(&filter, "whole.raster", 1, &pages);
    hold(&job, 1, &pages);

    let theirs = commands(&job, HEAD_BYTES + 21);
    let mut ours = Vec::new();
    for row in &pages[0].rows {
        let mut output = vec![0; row_room(WIDTH)];
        let written = gdi::write_row(WIDTH, row, &mut output).expect("a row that is written");
        ours.extend(commands(&output[..written], 0));
    }
    assert_eq!(ours.len(), theirs.len());
    assert!(ours == theirs, "the commands differ");
}

/// Pages that are narrower, wider and of fewer rows than A4, and a raster of no pages.
#[test]
fn other_sizes() {
    let Some(filter) = filter() else { return };
    let pages = [
        page(1001, 45, 3, 0),
        page(4770, 15, 0x01020304, 255),
        page(8, 61, 0, 1),
    ];
    let job = filtered(&filter, "sizes.raster", 255, &pages);
    hold(&job, 255, &pages);

    let job = filtered(&filter, "no-pages.raster", 1, &[]);
    hold(&job, 1, &[]);
}
