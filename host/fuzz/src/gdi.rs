//! Jobs of the fuzzer's bytes.
//!
//! An input of the target `gdi_check` is flags (a byte) and bytes of a job. The flags say what is
//! put around them: the head; a page head, whose width and height are the next three bytes; a page
//! end and the document end.
//!
//! An input of the target `gdi_read_line` is flags (a byte); offset, left and width (numbers); a
//! signed byte, by which the row is longer or shorter than it should be; and the job.

use crate::common::{Call, Entry};
use crate::{hold, number_word, Input};
use printbox::gdi::{
    row_bytes, write_document_end, write_head, write_page_end, write_page_head, PageHead, WIDTH_MAX,
};

/// Flags of an input.
const FENCED_START: u8 = 1;
const HEAD: u8 = 2;
const PAGE_HEAD: u8 = 4;
const ENDS: u8 = 8;

/// The greatest width and height of a page head that is put before a job's bytes.
const WIDTH: u16 = 300;
const HEIGHT: u8 = 8;

pub fn check(bytes: &[u8]) {
    let mut input = Input(bytes);
    let flags = input.byte();
    let mut job = Vec::new();
    if flags & HEAD != 0 {
        put(&mut job, 86, write_head);
    }
    if flags & PAGE_HEAD != 0 {
        let width = 1 + input.word() % WIDTH;
        let height = (1 + input.byte() % HEIGHT).into();
        let head = PageHead {
            tray: 0,
            width,
            height,
            format: 0,
            paper_type: 0,
            copies: 1,
            toner: 0,
        };
        put(&mut job, 21, |output| write_page_head(&head, output));
    }
    job.extend_from_slice(input.0);
    if flags & ENDS != 0 {
        put(&mut job, 6, write_page_end);
        put(&mut job, 6, write_document_end);
    }
    let call = Call {
        entry: Entry::GdiCheck,
        inputs: [&job, &[]],
        buffer: &[],
    };
    hold(&call, flags & FENCED_START != 0);
}

/// Writes so many bytes at the job's end.
fn put(
    job: &mut Vec<u8>,
    length: usize,
    write: impl FnOnce(&mut [u8]) -> Result<usize, printbox::Refusal>,
) {
    let start = job.len();
    job.resize(start + length, 0);
    assert_eq!(write(&mut job[start..]), Ok(length));
}

pub fn read_line(bytes: &[u8]) {
    let mut input = Input(bytes);
    let flags = input.byte();
    let (offset, left, width) = (input.number(), input.number(), input.number());
    let other = input.byte() as i8;
    let length = row_bytes(width.min(WIDTH_MAX)).saturating_add_signed(other.into());
    let row: Vec<u8> = (0..length).map(|at| at as u8 ^ 0xEE).collect();
    let call = Call {
        entry: Entry::GdiReadLine {
            offset,
            left,
            width,
        },
        inputs: [input.0, &[]],
        buffer: &row,
    };
    hold(&call, flags & FENCED_START != 0);
}

/// The inputs of the target `gdi_check` that stand for a job: as it is; where its head is right,
/// without the head; and then also with its first page head and its last ends left to the flags.
pub fn check_seeds(job: &[u8]) -> Vec<Vec<u8>> {
    let mut seeds = vec![[&[0], job].concat()];
    let mut head = Vec::new();
    put(&mut head, 86, write_head);
    let Some(rest) = job.strip_prefix(&head[..]) else {
        return seeds;
    };
    seeds.push([&[HEAD | FENCED_START], rest].concat());
    if let Some((page_head, blocks)) = rest.split_first_chunk::<21>() {
        let width = u16::from_le_bytes([page_head[12], page_head[13]]).wrapping_sub(1);
        let height = page_head[14].wrapping_sub(1);
        let ends = [0x13, 0, 0, 0, 0, 0, 0x14, 0, 0, 0, 0, 0];
        let blocks = blocks.strip_suffix(&ends).unwrap_or(blocks);
        let flags = HEAD | PAGE_HEAD | ENDS;
        seeds.push([&[flags], &width.to_be_bytes()[..], &[height], blocks].concat());
    }
    seeds
}

/// The inputs of the target `gdi_read_line` that stand for a call.
pub fn read_line_seeds(
    job: &[u8],
    offset: usize,
    left: usize,
    width: usize,
    other: i8,
) -> Vec<Vec<u8>> {
    match (number_word(offset), number_word(left), number_word(width)) {
        (Some(offset), Some(left), Some(width)) => {
            let seed =
                |flags: u8| [&[flags], &offset[..], &left, &width, &[other as u8], job].concat();
            vec![seed(0), seed(FENCED_START)]
        }
        _ => Vec::new(),
    }
}
