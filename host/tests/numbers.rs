//! The least and greatest numbers that an entry takes, greater ones, and nothing where bytes are
//! lent. Library and `reference` have to agree on each call.

mod common;

use common::rows::row_of;
use common::{agreed, answer, Answer, Entry};
use printbox::gdi::{row_bytes, row_room, PageHead};

/// Numbers that would be small if they were cut to 16, 32 or 63 bits, and the greatest.
const GREAT: [usize; 6] = [
    1 << 16,
    (1 << 16) + 1,
    (1 << 32) + 1,
    (1 << 63) + 1,
    usize::MAX - 1,
    usize::MAX,
];

const NO_INPUT: [&[u8]; 2] = [&[], &[]];
const EMPTY_LOAD: &[u8] = &[0; 4];

/// One page of one band: 8 dots of one line, the first black.
const SHEET: &[u8] = &[
    0xAA, 0xAA, 0, 1, 0, 0, 2, 0x58, 2, 0x58, 0, 1, 0, 8, 0, 1, 0, 0, 0, 0, 0, 1, 0, 1, 0, 1, 0, 5,
    0, 5, 0, 0, 0, 1, 0, 0, 0, 1,
];

const PAGE_HEAD: PageHead = PageHead {
    tray: 0,
    width: 1,
    height: 1,
    format: 0,
    paper_type: 0,
    copies: 0,
    toner: 0,
};

fn draw(page: usize, band: usize, room: usize) -> Answer {
    answer(Entry::FilmDraw { page, band }, [SHEET, EMPTY_LOAD], room)
}

fn read(job: &[u8], offset: usize, left: usize, width: usize, room: usize) -> Answer {
    answer(
        Entry::GdiReadLine {
            offset,
            left,
            width,
        },
        [job, &[]],
        room,
    )
}

fn write_row(width: usize, row: &[u8], room: usize) -> Answer {
    answer(Entry::GdiWriteRow { width }, [row, &[]], room)
}

#[test]
fn great_pages_and_bands() {
    assert_eq!(
        answer(Entry::FilmCheck, [SHEET, EMPTY_LOAD], 0),
        Answer::Done(1, 0)
    );
    assert_eq!(draw(0, 0, 2), Answer::Done(1, 1));
    assert_eq!(draw(1, 0, 2), Answer::Refused(11, 0));
    assert_eq!(draw(0, 1, 2), Answer::Refused(11, 0));
    for great in GREAT {
        assert_eq!(draw(great, 0, 2), Answer::Refused(11, 0));
        assert_eq!(draw(0, great, 2), Answer::Refused(11, 0));
        assert_eq!(draw(great, great, 2), Answer::Refused(11, 0));
    }
}

#[test]
fn great_places() {
    let job = [0x41, 0x41];
    assert_eq!(read(&job, 0, 2, 1, 1), Answer::Done(1, 1));
    assert_eq!(read(&job, 2, 0, 1, 1), Answer::Refused(24, 2));
    for great in GREAT {
        assert_eq!(read(&job, great, 0, 1, 1), Answer::Refused(24, 2));
        assert_eq!(read(&job, great, 1, 1, 1), Answer::Refused(24, 2));
        assert_eq!(read(&job, great, great, 1, 1), Answer::Refused(24, 2));
        // More bytes left than the job has are counted as they are.
        assert_eq!(
            read(&job, 0, great, 1, 1),
            Answer::Done(1, great as u64 - 1)
        );
        assert_eq!(
            read(&job, 0, great, 2, 1),
            Answer::Done(2, great as u64 - 2)
        );
        assert_eq!(read(&job, 0, great, 3, 1), Answer::Refused(24, 2));
    }
}

#[test]
fn widths_out_of_range() {
    for width in [0, 16_384, 16_385].into_iter().chain(GREAT) {
        for room in [0, 1, row_bytes(16_384)] {
            assert_eq!(read(&[0x41], 0, 1, width, room), Answer::Refused(27, 0));
            assert_eq!(
                write_row(width, &vec![0; room], 40_000),
                Answer::Refused(27, 0)
            );
        }
        assert_eq!(
            answer(Entry::GdiLinefill { width }, NO_INPUT, 0),
            Answer::Refused(27, 0)
        );
    }
}

/// Rows of the least and greatest widths, and of those around a byte and around a command of two
/// bytes.
#[test]
fn rows_of_edge_widths_read_back() {
    for width in [
        1, 2, 7, 8, 9, 62, 63, 64, 65, 127, 128, 129, 254, 255, 256, 4762, 16_382, 16_383,
    ] {
        let bytes = row_bytes(width);
        for pattern in [0x00, 0xFF, 0xAA, 0x55, 0x80, 0x01, 0xF0] {
            let row = row_of(width, pattern);
            let wrote = agreed(
                Entry::GdiWriteRow { width },
                [&row, &[]],
                &vec![0xEE; row_room(width)],
            );
            let Answer::Done(length, 0) = wrote.answer else {
                panic!("width {width}: {wrote}")
            };
            let (line, beyond) = wrote.buffer.split_at(length as usize);
            assert!(beyond.iter().all(|&byte| byte == 0xEE));

            let entry = Entry::GdiReadLine {
                offset: 0,
                left: 0,
                width,
            };
            let back = agreed(entry, [line, &[]], &vec![0xEE; bytes]);
            assert_eq!(
                (back.answer, &back.buffer),
                (Answer::Done(length, 0), &row),
                "width {width}"
            );

            // Output of exactly the length is enough, and one byte less is not.
            assert_eq!(write_row(width, &row, line.len()), Answer::Done(length, 0));
            assert_eq!(
                write_row(width, &row, line.len() - 1),
                Answer::Refused(27, 0)
            );
            // A row buffer of another length is refused, and so is a row.
            for other in [bytes - 1, bytes + 1] {
                assert_eq!(read(line, 0, 0, width, other), Answer::Refused(27, 0));
                assert_eq!(
                    write_row(width, &vec![0; other], 40_000),
                    Answer::Refused(27, 0)
                );
            }
            // So is a row with a spare bit set, each of them.
            for spare in width..8 * bytes {
                let mut row = row.clone();
                row[spare / 8] |= 0x80 >> (spare % 8);
                assert_eq!(write_row(width, &row, 40_000), Answer::Refused(27, 0));
            }
        }
    }
}

/// Rows of dots in turn need all of their room, at every count of full blocks and around it.
#[test]
fn room_for_rows_of_dots_in_turn() {
    for width in (1..=1_100).chain(16_060..=16_383) {
        let room = row_room(width);
        for pattern in [0xAA, 0x55] {
            let row = row_of(width, pattern);
            assert_eq!(write_row(width, &row, room), Answer::Done(room as u64, 0));
            assert_eq!(write_row(width, &row, room - 1), Answer::Refused(27, 0));
        }
    }
}

/// The widest row has the longest run that a command tells, so there is a command for every run.
#[test]
fn longest_run() {
    for (pattern, first) in [(0xFF, 0xFF), (0x00, 0xBF)] {
        let row = row_of(16_383, pattern);
        let wrote = agreed(
            Entry::GdiWriteRow { width: 16_383 },
            [&row, &[]],
            &[0xEE; 8],
        );
        assert_eq!(
            (wrote.answer, &wrote.buffer[..]),
            (Answer::Done(8, 0), &[0x12, 0, 2, 0, 0, 0, first, 0xFF][..])
        );
    }
}

#[test]
fn linefill_of_every_width() {
    for width in 1..=16_383 {
        let linefill = (0x80 + width % 64) * 256 + width / 64;
        assert_eq!(
            answer(Entry::GdiLinefill { width }, NO_INPUT, 0),
            Answer::Done(linefill as u64, 0)
        );
    }
    for (width, linefill) in [
        (4762, 0x9A4A),
        (3298, 0xA233),
        (4900, 0xA44C),
        (2128, 0x9021),
    ] {
        assert_eq!(
            answer(Entry::GdiLinefill { width }, NO_INPUT, 0),
            Answer::Done(linefill, 0)
        );
    }
}

/// A page head at the edges of its ranges.
#[test]
fn page_heads() {
    let head = |change: fn(&mut PageHead)| {
        let mut head = PAGE_HEAD;
        change(&mut head);
        answer(Entry::GdiWritePageHead(head), NO_INPUT, 21)
    };
    let written = Answer::Done(21, 0);
    let refused = Answer::Refused(22, 0);
    assert_eq!(head(|_| ()), written);
    assert_eq!(head(|head| head.width = 0), refused);
    assert_eq!(head(|head| head.width = 16_383), written);
    assert_eq!(head(|head| head.width = 16_384), refused);
    assert_eq!(head(|head| head.width = u16::MAX), refused);
    assert_eq!(head(|head| head.height = 0), refused);
    assert_eq!(head(|head| head.height = u16::MAX), written);
    assert_eq!(head(|head| head.toner = 1), written);
    assert_eq!(head(|head| head.toner = 2), refused);
    assert_eq!(head(|head| head.toner = u8::MAX), refused);
    assert_eq!(head(|head| head.tray = u32::MAX), written);
    assert_eq!(head(|head| head.format = u8::MAX), written);
    assert_eq!(head(|head| head.paper_type = u8::MAX), written);
    assert_eq!(head(|head| head.copies = u8::MAX), written);
}

/// Heads and ends in output of exactly their bytes, and of one byte less.
#[test]
fn output_of_exactly_the_bytes() {
    for (entry, length) in [
        (Entry::GdiWriteHead, 86),
        (Entry::GdiWritePageHead(PAGE_HEAD), 21),
        (Entry::GdiWritePageEnd, 6),
        (Entry::GdiWriteDocumentEnd, 6),
    ] {
        assert_eq!(
            answer(entry, NO_INPUT, length),
            Answer::Done(length as u64, 0)
        );
        assert_eq!(answer(entry, NO_INPUT, length - 1), Answer::Refused(27, 0));
    }
}

/// Slices of no bytes, for every entry that is lent any.
#[test]
fn nothing_lent() {
    let first = Entry::FilmDraw { page: 0, band: 0 };
    for entry in [Entry::FilmCheck, first] {
        assert_eq!(answer(entry, NO_INPUT, 0), Answer::Refused(2, 0));
        assert_eq!(answer(entry, [&[], EMPTY_LOAD], 2), Answer::Refused(2, 0));
        assert_eq!(answer(entry, [SHEET, &[]], 2), Answer::Refused(4, 8));
    }
    assert_eq!(draw(0, 0, 0), Answer::Refused(12, 0));
    assert_eq!(answer(Entry::GdiCheck, NO_INPUT, 0), Answer::Refused(24, 0));
    assert_eq!(read(&[], 0, 0, 1, 0), Answer::Refused(27, 0));
    assert_eq!(read(&[], 0, 0, 1, 1), Answer::Refused(24, 0));
    assert_eq!(read(&[], 1, 0, 1, 1), Answer::Refused(24, 0));
    assert_eq!(read(&[], 0, 1, 1, 1), Answer::Refused(24, 0));
    assert_eq!(write_row(1, &[], 40), Answer::Refused(27, 0));
    assert_eq!(write_row(1, &[0x80], 0), Answer::Refused(27, 0));
    for entry in [
        Entry::GdiWriteHead,
        Entry::GdiWritePageHead(PAGE_HEAD),
        Entry::GdiWritePageEnd,
        Entry::GdiWriteDocumentEnd,
    ] {
        assert_eq!(answer(entry, NO_INPUT, 0), Answer::Refused(27, 0));
    }
    // Slices that stand in no buffer at all.
    assert!(printbox::film::check(&[], &[]).is_err());
    assert!(printbox::film::draw(&[], &[], 0, 0, &mut []).is_err());
    assert!(printbox::gdi::check(&[]).is_err());
    assert!(printbox::gdi::write_row(1, &[], &mut []).is_err());
    assert!(printbox::gdi::write_head(&mut []).is_err());
    let wrong_toner = Entry::GdiWritePageHead(PageHead {
        toner: 2,
        ..PAGE_HEAD
    });
    assert_eq!(answer(wrong_toner, NO_INPUT, 0), Answer::Refused(22, 0));
}
