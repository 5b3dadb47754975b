//! What is wrong with a job that was refused, in words: the line of `job check` and `job lines`.
//!
//! Number and place are the proved library's. What follows the colon is worked out here from the
//! job, and no proof covers it.

use crate::english::thousands;
use crate::job::{locate, Page, Spot, Stop, PAGE_HEAD_BYTES};
use printbox::gdi::WIDTH_MAX;
use printbox::{Refusal, FILE_BYTES};

/// The line of a refused job, as `refused 24 at 113: the job ends where bytes are needed (page 0,
/// line 7)`.
pub fn line(refusal: &Refusal, job: &[u8]) -> String {
    if refusal.number == 1 {
        let limit = thousands(FILE_BYTES as u64);
        return format!("{refusal}: the job is longer than {limit} bytes");
    }
    let spot = locate(job, refusal);
    let what = match refusal.number {
        21 => "a byte of the head differs".to_string(),
        22 => page_head(job, refusal.place as usize),
        23 => "a group of bytes that may not come next".to_string(),
        24 if refusal.place < job.len() as u64 => {
            "the second byte of a command lies past its block".to_string()
        }
        24 => "the job ends where bytes are needed".to_string(),
        25 => page_end(spot),
        26 => "bytes after the document end".to_string(),
        _ => "refused".to_string(),
    };
    match place(spot) {
        Some(place) => format!("{refusal}: {what} ({place})"),
        None => format!("{refusal}: {what}"),
    }
}

fn page_head(job: &[u8], offset: usize) -> String {
    let Some(Page { width, height, .. }) = Page::at(job, offset) else {
        return "the page head".to_string();
    };
    let toner = job[offset + PAGE_HEAD_BYTES - 1];
    if !(1..=WIDTH_MAX).contains(&width) {
        let limit = thousands(WIDTH_MAX as u64);
        format!("the page head's width is {width}, and not 1 to {limit}")
    } else if height < 1 {
        "the page head's height is 0".to_string()
    } else if toner > 1 {
        format!("the page head's toner is {toner}, and not 0 or 1")
    } else {
        "a fixed byte of the page head differs".to_string()
    }
}

fn page_end(spot: Spot) -> String {
    match spot {
        Spot::Lines {
            height,
            stop: Stop::PageEnd { line },
            ..
        } => format!("the page ends after {line} of {height} lines"),
        Spot::Lines {
            stop: Stop::Refused { .. },
            ..
        } => "page end inside a line".to_string(),
        _ => "a command after the last line".to_string(),
    }
}

fn place(spot: Spot) -> Option<String> {
    match spot {
        Spot::Head => Some("head".to_string()),
        Spot::Between { page: 0 } => Some("after the head".to_string()),
        Spot::Between { page } => Some(format!("after page {}", page - 1)),
        Spot::PageHead { page } => Some(format!("head of page {page}")),
        Spot::Lines { page, stop, .. } => Some(match stop {
            Stop::PageEnd { .. } => format!("page {page}"),
            Stop::Refused { line, .. } => format!("page {page}, line {line}"),
            Stop::NoPageEnd => format!("page {page}, after the last line"),
        }),
        Spot::After => None,
    }
}

#[cfg(test)]
mod tests {
    use super::*;
    use crate::job::HEAD_BYTES;
    use printbox::gdi::{self, PageHead};

    const PAGE_END: [u8; 6] = [0x13, 0, 0, 0, 0, 0];
    const DOCUMENT_END: [u8; 6] = [0x14, 0, 0, 0, 0, 0];

    fn head() -> Vec<u8> {
        let mut head = vec![0; HEAD_BYTES];
        assert_eq!(gdi::write_head(&mut head), Ok(HEAD_BYTES));
        head
    }

    /// A page head of 8 dots by 2 lines.
    fn page() -> Vec<u8> {
        let numbers = PageHead {
            tray: 0,
            width: 8,
            height: 2,
            format: 0,
            paper_type: 0,
            copies: 1,
            toner: 0,
        };
        let mut head = vec![0; PAGE_HEAD_BYTES];
        assert_eq!(
            gdi::write_page_head(&numbers, &mut head),
            Ok(PAGE_HEAD_BYTES)
        );
        head
    }

    fn block(commands: &[u8]) -> Vec<u8> {
        let mut block = vec![0x12, 0, commands.len() as u8, 0, 0, 0];
        block.extend(commands);
        block
    }

    fn whole_page() -> Vec<u8> {
        [page(), block(&[0x48, 0x08]), PAGE_END.to_vec()].concat()
    }

    fn refused(parts: &[Vec<u8>]) -> String {
        let job = parts.concat();
        line(&gdi::check(&job).expect_err("a refusal"), &job)
    }

    /// A job whose first page is good, and which then has this.
    fn then(rest: &[Vec<u8>]) -> String {
        let mut parts = vec![head(), whole_page()];
        parts.extend_from_slice(rest);
        refused(&parts)
    }

    /// The same, where a page head comes next.
    fn page_with(at: usize, byte: u8) -> String {
        let mut head = page();
        head[at] = byte;
        then(&[
            head,
            block(&[8, 8]),
            PAGE_END.to_vec(),
            DOCUMENT_END.to_vec(),
        ])
    }

    #[test]
    fn a_good_job() {
        let job = [head(), whole_page(), whole_page(), DOCUMENT_END.to_vec()].concat();
        assert_eq!(gdi::check(&job), Ok(2));
    }

    #[test]
    fn heads() {
        let long = vec![0; FILE_BYTES + 1];
        assert_eq!(
            refused(&[long]),
            "refused 1 at 0: the job is longer than 16,777,216 bytes"
        );
        assert_eq!(
            refused(&[]),
            "refused 24 at 0: the job ends where bytes are needed (head)"
        );
        assert_eq!(
            refused(&[b") SAG-GDI RX".to_vec()]),
            "refused 21 at 11: a byte of the head differs (head)"
        );
        let mut other = head();
        other[80] = 1;
        assert_eq!(
            refused(&[other, DOCUMENT_END.to_vec()]),
            "refused 21 at 80: a byte of the head differs (head)"
        );
        assert_eq!(
            refused(&[head()]),
            "refused 24 at 86: the job ends where bytes are needed (after the head)"
        );
    }

    #[test]
    fn between_pages() {
        assert_eq!(
            refused(&[head(), block(&[8])]),
            "refused 23 at 86: a group of bytes that may not come next (after the head)"
        );
        assert_eq!(
            then(&[PAGE_END.to_vec()]),
            "refused 23 at 121: a group of bytes that may not come next (after page 0)"
        );
        assert_eq!(
            then(&[DOCUMENT_END.to_vec(), vec![7]]),
            "refused 26 at 127: bytes after the document end"
        );
        assert_eq!(
            then(&[page()[..9].to_vec()]),
            "refused 24 at 130: the job ends where bytes are needed (head of page 1)"
        );
        assert_eq!(
            then(&[vec![0x14, 0, 0]]),
            "refused 24 at 124: the job ends where bytes are needed (after page 0)"
        );
    }

    #[test]
    fn page_heads() {
        for (at, byte, what) in [
            (12, 0, "the page head's width is 0, and not 1 to 16,383"),
            (
                13,
                0x40,
                "the page head's width is 16392, and not 1 to 16,383",
            ),
            (14, 0, "the page head's height is 0"),
            (20, 2, "the page head's toner is 2, and not 0 or 1"),
            (8, 5, "a fixed byte of the page head differs"),
        ] {
            let expected = format!("refused 22 at 121: {what} (head of page 1)");
            assert_eq!(page_with(at, byte), expected);
        }
    }

    #[test]
    fn lines() {
        for (blocks, expected) in [
            (
                vec![block(&[0x48])],
                "refused 24 at 149: the job ends where bytes are needed (page 1, line 1)",
            ),
            (
                vec![block(&[0x48, 4]), DOCUMENT_END.to_vec()],
                "refused 23 at 150: a group of bytes that may not come next (page 1, line 1)",
            ),
            (
                vec![block(&[0x48, 0x80]), block(&[1])],
                "refused 24 at 149: the second byte of a command lies past its block (page 1, line 1)",
            ),
            (
                vec![PAGE_END.to_vec()],
                "refused 25 at 142: the page ends after 0 of 2 lines (page 1)",
            ),
            (
                vec![block(&[0x48]), PAGE_END.to_vec()],
                "refused 25 at 149: the page ends after 1 of 2 lines (page 1)",
            ),
            (
                vec![block(&[0x48, 4]), PAGE_END.to_vec()],
                "refused 25 at 150: page end inside a line (page 1, line 1)",
            ),
            (
                vec![block(&[8, 8, 0x48])],
                "refused 25 at 150: a command after the last line (page 1, after the last line)",
            ),
            (
                vec![block(&[8, 8]), DOCUMENT_END.to_vec()],
                "refused 23 at 150: a group of bytes that may not come next (page 1, after the last line)",
            ),
            (
                vec![block(&[8, 8])],
                "refused 24 at 150: the job ends where bytes are needed (page 1, after the last line)",
            ),
        ] {
            let mut rest = vec![page()];
            rest.extend(blocks);
            assert_eq!(then(&rest), expected);
        }
    }
}
