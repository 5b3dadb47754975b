//! The greatest files, films and bands, and one more than these. Library and `reference` have to
//! agree on each call.

mod common;

use common::{agreed, answer, Answer, Entry};
use printbox::gdi::{row_bytes, row_room, PageHead};
use printbox::FILE_BYTES;

const EMPTY_LOAD: &[u8] = &[0; 4];
const A4: PageHead = PageHead {
    tray: 0,
    width: 4762,
    height: 6778,
    format: 0,
    paper_type: 0,
    copies: 1,
    toner: 0,
};

fn bytes(words: &[u16]) -> Vec<u8> {
    words.iter().flat_map(|word| word.to_be_bytes()).collect()
}

/// A herald with these sizes, then a page count of 1 and the page's count of bands.
fn sheet_start(image_s: u16, image_f: u16, band_s: u16) -> Vec<u16> {
    let bands = image_s.div_ceil(band_s);
    vec![
        0xAAAA, 1, 0, 600, 600, image_s, image_f, band_s, 0xFFFF, 0xFFFF, 1, 1, bands,
    ]
}

/// A sheet of one page whose bands all have the same commands.
fn sheet(image_s: u16, image_f: u16, band_s: u16, commands: &[u16]) -> Vec<u8> {
    let mut words = sheet_start(image_s, image_f, band_s);
    for _ in 0..image_s.div_ceil(band_s) {
        words.push(commands.len() as u16);
        words.extend_from_slice(commands);
    }
    bytes(&words)
}

/// A sheet of exactly the limit: 128 bands of one line, filled up with the command `ink` (2). A
/// band has at most 65,535 words; the last has fewer, and ends with a rectangle of dots 1 to 3.
fn longest_sheet() -> Vec<u8> {
    let mut words = sheet_start(128, 16, 1);
    for _ in 0..127 {
        words.push(0xFFFF);
        words.resize(words.len() + 0xFFFF, 2);
    }
    let left = FILE_BYTES / 2 - words.len() - 1;
    words.push(left.try_into().expect("the rest is one band"));
    words.resize(FILE_BYTES / 2 - 5, 2);
    words.extend([5, 127, 1, 1, 3]);
    bytes(&words)
}

/// A load of so many words after its count, each FFFF.
fn load(words: usize) -> Vec<u8> {
    let mut load = bytes(&[words as u16, (words >> 16) as u16]);
    load.resize(4 + 2 * words, 0xFF);
    load
}

#[test]
fn sheet_length() {
    let mut sheet = longest_sheet();
    assert_eq!(sheet.len(), FILE_BYTES);
    assert_eq!(
        answer(Entry::FilmCheck, [&sheet, EMPTY_LOAD], 0),
        Answer::Done(1, 0)
    );
    let last = Entry::FilmDraw { page: 0, band: 127 };
    let drawn = agreed(last, [&sheet, EMPTY_LOAD], &[0xEE; 3]);
    assert_eq!(
        (drawn.answer, &drawn.buffer[..]),
        (Answer::Done(1, 3), &[0x70, 0, 0xEE][..])
    );

    for more in [1, 2] {
        sheet.resize(FILE_BYTES + more, 0);
        assert_eq!(
            answer(Entry::FilmCheck, [&sheet, EMPTY_LOAD], 0),
            Answer::Refused(1, 0)
        );
        assert_eq!(answer(last, [&sheet, EMPTY_LOAD], 3), Answer::Refused(1, 0));
    }
    sheet.truncate(FILE_BYTES - 2);
    assert_eq!(
        answer(Entry::FilmCheck, [&sheet, EMPTY_LOAD], 0),
        Answer::Refused(6, 12 + 1 + 127 * 65_536)
    );
}

#[test]
fn load_length() {
    // The load's last three words are an array of one line of 16 dots.
    let words = FILE_BYTES / 2 - 2;
    let mut load = load(words);
    let end = load.len();
    load[end - 6..].copy_from_slice(&bytes(&[1, 16, 0xF00F]));
    let at = words - 3;
    let samples = [10, at as u16, (at >> 16) as u16, 0, 0];
    let good = sheet(1, 16, 1, &samples);
    assert_eq!(load.len(), FILE_BYTES);
    assert_eq!(
        answer(Entry::FilmCheck, [&good, &load], 0),
        Answer::Done(1, 0)
    );
    let draw = Entry::FilmDraw { page: 0, band: 0 };
    assert_eq!(
        agreed(draw, [&good, &load], &[0xEE; 2]).buffer,
        [0xF0, 0x0F]
    );

    let past = sheet(1, 16, 1, &[10, at as u16 + 1, (at >> 16) as u16, 0, 0]);
    assert_eq!(
        answer(Entry::FilmCheck, [&past, &load], 0),
        Answer::Refused(9, 14)
    );
    assert_eq!(answer(draw, [&past, &load], 2), Answer::Refused(9, 14));

    // One word more, with its right count and without; one byte more.
    for (count, length) in [
        (words + 1, FILE_BYTES + 2),
        (words, FILE_BYTES + 2),
        (words, FILE_BYTES + 1),
    ] {
        load[..4].copy_from_slice(&bytes(&[count as u16, (count >> 16) as u16]));
        load.resize(length, 0);
        assert_eq!(
            answer(Entry::FilmCheck, [&good, &load], 0),
            Answer::Refused(1, 0)
        );
        assert_eq!(answer(draw, [&good, &load], 2), Answer::Refused(1, 0));
    }
    load.truncate(FILE_BYTES - 2);
    assert_eq!(
        answer(Entry::FilmCheck, [&good, &load], 0),
        Answer::Refused(4, 8)
    );
}

/// The shapes whose bands take exactly 65,536 bytes, and the shape with most bands.
#[test]
fn film_sizes() {
    let everything = [5, 0, 0xFFFF, 0, 0xFFFF];
    for (image_s, image_f, band_s) in [
        (32_768, 32_768, 16),
        (32_768, 1, 32_768),
        (16, 32_768, 16),
        (32_768, 16, 1),
    ] {
        let sheet = sheet(image_s, image_f, band_s, &everything);
        let inputs = [&sheet[..], EMPTY_LOAD];
        assert_eq!(answer(Entry::FilmCheck, inputs, 0), Answer::Done(1, 0));
        let room = usize::from(band_s) * usize::from(image_f).div_ceil(16) * 2;
        let last = usize::from(image_s.div_ceil(band_s)) - 1;
        let dots = u64::from(band_s) * u64::from(image_f);
        for band in [0, last / 2, last] {
            let draw = Entry::FilmDraw { page: 0, band };
            assert_eq!(
                answer(draw, inputs, room),
                Answer::Done(band_s.into(), dots)
            );
            assert_eq!(answer(draw, inputs, room - 1), Answer::Refused(12, 0));
        }
        let over = Entry::FilmDraw {
            page: 0,
            band: last + 1,
        };
        assert_eq!(answer(over, inputs, room), Answer::Refused(11, 0));
    }
    for (image_s, image_f, band_s, place) in [
        (32_769, 1, 1, 5),
        (0, 1, 1, 5),
        (1, 32_769, 1, 6),
        (1, 0, 1, 6),
        (1, 1, 2, 7),
        (32_768, 32_768, 17, 7),
        (32_768, 17, 16_385, 7),
        (65_535, 65_535, 65_535, 5),
    ] {
        let sheet = sheet(image_s, image_f, band_s, &everything);
        assert_eq!(
            answer(Entry::FilmCheck, [&sheet, EMPTY_LOAD], 0),
            Answer::Refused(3, place)
        );
        let draw = Entry::FilmDraw { page: 0, band: 0 };
        assert_eq!(
            answer(draw, [&sheet, EMPTY_LOAD], 65_536),
            Answer::Refused(3, place)
        );
    }
}

/// Bytes that an entry writes, where it is done.
fn written(entry: Entry, row: &[u8]) -> Vec<u8> {
    let wrote = agreed(entry, [row, &[]], &vec![0xEE; row_room(16_383)]);
    let Answer::Done(length, 0) = wrote.answer else {
        panic!("{wrote}")
    };
    wrote.buffer[..length as usize].to_vec()
}

/// A job of pages, each a width, a height and its blocks.
fn job(pages: impl Iterator<Item = (u16, u16, Vec<u8>)>) -> Vec<u8> {
    let mut job = written(Entry::GdiWriteHead, &[]);
    for (width, height, blocks) in pages {
        job.extend(written(
            Entry::GdiWritePageHead(PageHead {
                width,
                height,
                ..A4
            }),
            &[],
        ));
        job.extend(blocks);
        job.extend(written(Entry::GdiWritePageEnd, &[]));
    }
    job.extend(written(Entry::GdiWriteDocumentEnd, &[]));
    job
}

/// A job of exactly the limit in blocks of one command: 37 pages of one dot's width, each line a
/// black dot. The last block has three commands, for three lines.
fn longest_job_of_short_blocks() -> Vec<u8> {
    let block = [0x12, 0, 1, 0, 0, 0, 0x41];
    let last = [
        block.repeat(37_328),
        vec![0x12, 0, 3, 0, 0, 0, 0x41, 0x41, 0x41],
    ]
    .concat();
    let pages = (0..36).map(|_| (1, 65_535, block.repeat(65_535)));
    job(pages.chain([(1, 37_331, last)]))
}

/// A job of exactly the limit in blocks of up to 65,535 bytes: one page of one line, whose commands
/// have the length 0 but for the last.
fn longest_job_of_long_blocks() -> Vec<u8> {
    let mut left = FILE_BYTES - job([(16_383, 1, Vec::new())].into_iter()).len();
    let mut blocks = Vec::new();
    while left > 0 {
        let size = (left - 6).min(65_535) as u16;
        blocks.extend([0x12, 0, size as u8, (size >> 8) as u8, 0, 0]);
        blocks.resize(blocks.len() + usize::from(size), 0x40);
        left -= 6 + usize::from(size);
    }
    let end = blocks.len();
    blocks[end - 2..].copy_from_slice(&[0xFF, 0xFF]);
    job([(16_383, 1, blocks)].into_iter())
}

/// Reads a line of one dot and answers the next place.
fn next_line(job: &[u8], offset: usize, left: usize) -> Answer {
    answer(
        Entry::GdiReadLine {
            offset,
            left,
            width: 1,
        },
        [job, &[]],
        1,
    )
}

#[test]
fn job_length() {
    let mut short_blocks = longest_job_of_short_blocks();
    assert_eq!(short_blocks.len(), FILE_BYTES);
    assert_eq!(
        answer(Entry::GdiCheck, [&short_blocks, &[]], 0),
        Answer::Done(37, 0)
    );
    assert_eq!(next_line(&short_blocks, 107, 0), Answer::Done(114, 0));
    let end = FILE_BYTES as u64 - 12;
    assert_eq!(
        next_line(&short_blocks, FILE_BYTES - 13, 1),
        Answer::Done(end, 0)
    );
    assert_eq!(
        next_line(&short_blocks, FILE_BYTES - 12, 0),
        Answer::PageEnd(end + 6, 0)
    );
    assert_eq!(
        next_line(&short_blocks, FILE_BYTES - 6, 0),
        Answer::Refused(23, end + 6)
    );

    let long_blocks = longest_job_of_long_blocks();
    assert_eq!(long_blocks.len(), FILE_BYTES);
    assert_eq!(
        answer(Entry::GdiCheck, [&long_blocks, &[]], 0),
        Answer::Done(1, 0)
    );
    let line = Entry::GdiReadLine {
        offset: 107,
        left: 0,
        width: 16_383,
    };
    let read = agreed(line, [&long_blocks, &[]], &[0xEE; row_bytes(16_383)]);
    assert_eq!(read.answer, Answer::Done(end, 0));
    assert!(read.buffer[..2047].iter().all(|&byte| byte == 0xFF));
    assert_eq!(read.buffer[2047], 0xFE);

    short_blocks.push(0);
    assert_eq!(
        answer(Entry::GdiCheck, [&short_blocks, &[]], 0),
        Answer::Refused(1, 0)
    );
    assert_eq!(next_line(&short_blocks, 107, 0), Answer::Refused(1, 0));
    short_blocks.truncate(FILE_BYTES - 1);
    assert_eq!(
        answer(Entry::GdiCheck, [&short_blocks, &[]], 0),
        Answer::Refused(24, FILE_BYTES as u64 - 1)
    );
}
