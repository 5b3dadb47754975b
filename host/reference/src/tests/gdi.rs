use crate::jobs::{command, head, DOCUMENT_END, PAGE_END};
use crate::{
    gdi_check, gdi_linefill, gdi_read_line, gdi_write_document_end, gdi_write_head,
    gdi_write_page_end, gdi_write_page_head, gdi_write_row, Answer,
};

fn page_head(width: u16, height: u16) -> Vec<u8> {
    let mut bytes = [0; 21];
    let written = gdi_write_page_head(1, width, height, 0, 0, 1, 0, &mut bytes);
    assert_eq!(written, Answer::Done(21, 0));
    bytes.to_vec()
}

fn block(bytes: &[u8]) -> Vec<u8> {
    let mut block = vec![0x12, 0, bytes.len() as u8, 0, 0, 0];
    block.extend(bytes);
    block
}

/// A job of these parts after its head.
fn job(parts: &[&[u8]]) -> Vec<u8> {
    [head(), parts.concat()].concat()
}

fn read(job: &[u8], offset: usize, left: usize, width: usize) -> (Answer, Vec<u8>) {
    let mut row = vec![0xA5; width.min(16_384).div_ceil(8)];
    let answer = gdi_read_line(job, offset, left, width, &mut row);
    (answer, row)
}

#[test]
fn starred_commands() {
    let told = |bytes: &[u8]| command(bytes, 0, bytes.len()).map(|c| (c.black, c.length));
    assert_eq!(told(&[0x5A]), Ok((true, 26)));
    assert_eq!(told(&[0x9A, 0x4A]), Ok((false, 4762)));
    assert_eq!(told(&[0xF1, 0x19]), Ok((true, 1649)));
    assert_eq!(told(&[0xB1, 0x19]), Ok((false, 1649)));
    assert_eq!(told(&[0xBF, 0xFF]), Ok((false, 16_383)));
    assert_eq!(told(&[0x3F]), Ok((false, 63)));
    assert_eq!(told(&[0x80, 0x01]), Ok((false, 64)));
    assert_eq!(read(&[0x7F], 0, 1, 3), (Answer::Done(1, 0), vec![0xE0]));
    let (answer, row) = read(&[0xF1, 0x19, 0xB1, 0x19], 0, 4, 3298);
    assert_eq!(answer, Answer::Done(4, 0));
    let black: u32 = row.iter().map(|byte| byte.count_ones()).sum();
    assert_eq!((black, row[206]), (1649, 0x80));
}

#[test]
fn reader_widths() {
    let line = [0xFF, 0xFF];
    assert_eq!(read(&line, 0, 2, 16_383).0, Answer::Done(2, 0));
    assert_eq!(read(&line, 0, 2, 16_384).0, Answer::Refused(27, 0));
    assert_eq!(read(&line, 0, 2, 0).0, Answer::Refused(27, 0));
    assert_eq!(read(&line, 9, 2, usize::MAX).0, Answer::Refused(27, 0));
    let mut row = [0; 2];
    assert_eq!(
        gdi_read_line(&line, 9, 9, 8, &mut row),
        Answer::Refused(27, 0)
    );
    let long = vec![0; 16_777_217];
    assert_eq!(read(&long, usize::MAX, 0, 8).0, Answer::Refused(1, 0));
    assert_eq!(read(&long, usize::MAX, 0, 0).0, Answer::Refused(27, 0));
    assert_eq!(gdi_check(&long), Answer::Refused(1, 0));
}

#[test]
fn reader_places() {
    let kept = vec![0xA5];
    for left in [0, 1, usize::MAX] {
        let refused = (Answer::Refused(24, 1), kept.clone());
        assert_eq!(read(&[8], 1, left, 8), refused);
        assert_eq!(read(&[8], usize::MAX, left, 8), refused);
    }
    // More bytes left than can be are counted as they are.
    let most = usize::MAX as u64;
    assert_eq!(
        read(&[0x48], 0, usize::MAX, 8),
        (Answer::Done(1, most - 1), vec![0xFF])
    );
    assert_eq!(read(&[0x80], 0, 2, 8).0, Answer::Refused(24, 1));
    assert_eq!(read(&[0x80], 0, 1, 8).0, Answer::Refused(24, 0));
    // A line over two blocks and an empty one, with a command of length 0.
    let line = [block(&[0x40, 0x03]), block(&[]), block(&[0x42, 0x84, 0])].concat();
    assert_eq!(
        read(&line, 0, 0, 8),
        (Answer::Done(line.len() as u64, 0), vec![0b0001_1000])
    );
    // A page end where a line would start, also after an empty block; inside a line 25.
    let end = [block(&[]), PAGE_END.to_vec()].concat();
    assert_eq!(read(&end, 0, 0, 8), (Answer::PageEnd(12, 0), kept.clone()));
    let inside = [block(&[0]), PAGE_END.to_vec()].concat();
    assert_eq!(read(&inside, 0, 0, 8), (Answer::Refused(25, 7), kept));
    assert_eq!(read(&DOCUMENT_END, 0, 0, 8).0, Answer::Refused(23, 0));
    assert_eq!(read(&page_head(8, 1), 0, 0, 8).0, Answer::Refused(23, 0));
    assert_eq!(
        read(&page_head(8, 1)[..20], 0, 0, 8).0,
        Answer::Refused(24, 20)
    );
}

#[test]
fn checked_jobs() {
    let white = block(&[8]);
    let page = [page_head(8, 1), white.clone(), PAGE_END.to_vec()].concat();
    assert_eq!(gdi_check(&job(&[&DOCUMENT_END])), Answer::Done(0, 0));
    let two = job(&[&page, &page, &DOCUMENT_END]);
    assert_eq!(gdi_check(&two), Answer::Done(2, 0));
    // Every cut job is 24 at its length.
    for cut in 0..two.len() {
        assert_eq!(gdi_check(&two[..cut]), Answer::Refused(24, cut as u64));
    }
    let mut wrong = two.clone();
    wrong[40] ^= 1;
    assert_eq!(gdi_check(&wrong[..50]), Answer::Refused(21, 40));
    assert_eq!(
        gdi_check(&job(&[&DOCUMENT_END, &[7]])),
        Answer::Refused(26, 92)
    );
    assert_eq!(
        gdi_check(&job(&[&PAGE_END, &DOCUMENT_END])),
        Answer::Refused(23, 86)
    );
    assert_eq!(gdi_check(&job(&[&white, &page])), Answer::Refused(23, 86));
    // The page head: place 86, width at 98.
    for (place, byte) in [(88, 0x0E), (94, 5), (98, 0), (100, 0), (105, 1), (106, 2)] {
        let mut wrong = two.clone();
        wrong[place] = byte;
        assert_eq!(gdi_check(&wrong), Answer::Refused(22, 86), "{place}");
        assert_eq!(
            gdi_check(&wrong[..106]),
            Answer::Refused(24, 106),
            "{place}"
        );
    }
    let mut wide = two.clone();
    wide[98..100].copy_from_slice(&[0, 0x40]);
    assert_eq!(gdi_check(&wide), Answer::Refused(22, 86));
}

#[test]
fn lines_of_checked_pages() {
    let one = |bytes: &[u8]| job(&[&page_head(8, 1), bytes, &PAGE_END, &DOCUMENT_END]);
    // Cropped, and not split into the next line: the page has one line.
    assert_eq!(gdi_check(&one(&block(&[0x7F]))), Answer::Done(1, 0));
    // A command after the lines is 25, also of length 0, also where its second byte is missing.
    assert_eq!(gdi_check(&one(&block(&[8, 0]))), Answer::Refused(25, 114));
    assert_eq!(
        gdi_check(&one(&block(&[8, 0x80]))),
        Answer::Refused(25, 114)
    );
    assert_eq!(gdi_check(&one(&block(&[7]))), Answer::Refused(25, 114));
    assert_eq!(gdi_check(&one(&[])), Answer::Refused(25, 107));
    let second = one(&block(&[7, 0x81]));
    assert_eq!(gdi_check(&second), Answer::Refused(24, 114));
    assert_eq!(gdi_check(&second[..115]), Answer::Refused(24, 114));
    // All lines are there, the block has bytes left, and the job ends: 24.
    let more = one(&block(&[8, 0]));
    assert_eq!(gdi_check(&more[..114]), Answer::Refused(24, 114));
    // A page head in a page, right or wrong.
    assert_eq!(gdi_check(&one(&page_head(8, 1))), Answer::Refused(23, 107));
    let mut cut = one(&[]);
    cut.truncate(107);
    cut.extend([0x11, 0, 9, 9, 9, 9, 9, 9]);
    assert_eq!(gdi_check(&cut), Answer::Refused(24, 115));
}

#[test]
fn heads_and_ends() {
    let mut output = [0xEE; 87];
    assert_eq!(gdi_write_head(&mut output[..85]), Answer::Refused(27, 0));
    assert_eq!(gdi_write_head(&mut output), Answer::Done(86, 0));
    assert_eq!(output[..17], *b") SAG-GDI RL;0;0;");
    assert_eq!(output[74..], *b".0\x0D\x0A\x10\0\x02\0\0\0\0\0\xEE");
    assert_eq!(gdi_write_page_end(&mut output[..5]), Answer::Refused(27, 0));
    assert_eq!(gdi_write_page_end(&mut output), Answer::Done(6, 0));
    assert_eq!(output[..8], [0x13, 0, 0, 0, 0, 0, b'G', b'D']);
    assert_eq!(gdi_write_document_end(&mut output), Answer::Done(6, 0));
    assert_eq!(output[0], 0x14);
    let mut short = [1; 20];
    let refused = |width, height, toner, output: &mut [u8]| {
        gdi_write_page_head(9, width, height, 1, 2, 3, toner, output)
    };
    assert_eq!(refused(0, 1, 0, &mut short), Answer::Refused(22, 0));
    assert_eq!(refused(16_384, 1, 0, &mut short), Answer::Refused(22, 0));
    assert_eq!(refused(1, 0, 0, &mut short), Answer::Refused(22, 0));
    assert_eq!(refused(1, 1, 2, &mut short), Answer::Refused(22, 0));
    assert_eq!(refused(1, 1, 1, &mut short), Answer::Refused(27, 0));
    let mut whole = [1; 22];
    assert_eq!(
        gdi_write_page_head(0x0403_0201, 0x129A, 0x1A7A, 5, 6, 0, 1, &mut whole),
        Answer::Done(21, 0)
    );
    let wanted = [
        0x11, 0, 0x0F, 0, 1, 2, 3, 4, 4, 4, 0, 0, 0x9A, 0x12, 0x7A, 0x1A, 5, 6, 0, 0, 1, 1,
    ];
    assert_eq!(whole, wanted);
}

#[test]
fn written_rows() {
    let mut output = [0xEE; 12];
    // Black first: no white command before it.
    assert_eq!(gdi_write_row(3, &[0xC0], &mut output), Answer::Done(8, 0));
    assert_eq!(output[..9], [0x12, 0, 2, 0, 0, 0, 0x42, 0x01, 0xEE]);
    assert_eq!(
        gdi_write_row(3, &[0xD0], &mut output),
        Answer::Refused(27, 0)
    );
    assert_eq!(
        gdi_write_row(3, &[0xC0], &mut output[..7]),
        Answer::Refused(27, 0)
    );
    assert_eq!(gdi_write_row(64, &[0; 8], &mut output), Answer::Done(8, 0));
    assert_eq!(output[6..8], [0x80, 1]);
    for (width, bytes) in [(0, 0), (8, 2), (9, 1), (16_384, 2048), (usize::MAX, 0)] {
        assert_eq!(
            gdi_write_row(width, &vec![0; bytes], &mut output),
            Answer::Refused(27, 0)
        );
    }
    assert_eq!(
        gdi_write_row(16_383, &[0; 2048], &mut output),
        Answer::Done(8, 0)
    );
    assert_eq!(output[..8], [0x12, 0, 2, 0, 0, 0, 0xBF, 0xFF]);
}

#[test]
fn full_blocks() {
    // 255 one-byte commands fill a block; one more starts the next.
    let alternate = |width: usize| {
        let mut row = vec![0xAA; width.div_ceil(8)];
        let spare = row.len() * 8 - width;
        *row.last_mut().unwrap() &= 0xFF << spare;
        row
    };
    let mut output = [0; 300];
    let written = gdi_write_row(255, &alternate(255), &mut output);
    assert_eq!((written, output[2]), (Answer::Done(261, 0), 255));
    let written = gdi_write_row(256, &alternate(256), &mut output);
    assert_eq!((written, output[2]), (Answer::Done(268, 0), 255));
    assert_eq!(output[261..268], [0x12, 0, 1, 0, 0, 0, 0x01]);
    // 254 bytes and then black from dot 254 on: 63 dots fit, and 64, which take two bytes, do not.
    let mut row = vec![0xAA; 31];
    row.extend([0xAB, 0xFF, 0xFF, 0xFF, 0xFF, 0xFF, 0xFF, 0xFF, 0xF8]);
    let written = gdi_write_row(317, &row, &mut output);
    assert_eq!((written, output[2]), (Answer::Done(261, 0), 255));
    row[39] = 0xFC;
    let written = gdi_write_row(318, &row, &mut output);
    assert_eq!((written, output[2]), (Answer::Done(268, 0), 254));
    assert_eq!(output[260..268], [0x12, 0, 2, 0, 0, 0, 0xC0, 0x01]);
}

#[test]
fn linefills() {
    let fills = [
        (4762, 0x9A4A),
        (3298, 0xA233),
        (4900, 0xA44C),
        (2128, 0x9021),
        (1, 0x8100),
        (16_383, 0xBFFF),
    ];
    for (width, fill) in fills {
        assert_eq!(gdi_linefill(width), Answer::Done(fill, 0));
    }
    for width in [0, 16_384, usize::MAX] {
        assert_eq!(gdi_linefill(width), Answer::Refused(27, 0));
    }
}
