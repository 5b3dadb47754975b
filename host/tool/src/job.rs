//! What the tool reads of a job by itself, outside of the proved library: the width and height of a
//! page head, and which page and line a fault lies in. None of it decides what is refused or read.

use crate::pbm::row_bytes;
use printbox::gdi::{self, Line, Place};
use printbox::Refusal;

/// The bytes of a job's head.
pub const HEAD_BYTES: usize = 86;
/// The bytes of a page head.
pub const PAGE_HEAD_BYTES: usize = 21;
/// The bytes of a page end, and of a document end.
pub const END_BYTES: usize = 6;

/// A page of a job, by its page head.
#[derive(Clone, Copy, Debug, PartialEq, Eq)]
pub struct Page {
    pub width: usize,
    pub height: usize,
    /// Where its first line starts.
    pub lines: Place,
}

impl Page {
    /// The page whose head starts at an offset. None where no whole page head stands there.
    pub fn at(job: &[u8], offset: usize) -> Option<Page> {
        let head = job.get(offset..offset + PAGE_HEAD_BYTES)?;
        if head[..2] != [0x11, 0] {
            return None;
        }
        let number = |at| usize::from(u16::from_le_bytes([head[at], head[at + 1]]));
        Some(Page {
            width: number(12),
            height: number(14),
            lines: Place {
                offset: offset + PAGE_HEAD_BYTES,
                left: 0,
            },
        })
    }

    /// Reads its lines one after another and gives each row to `take`; answers the offset after its
    /// page end. On a job that the check passes none is refused.
    pub fn read(&self, job: &[u8], mut take: impl FnMut(&[u8])) -> Result<usize, Stop> {
        let mut row = vec![0; row_bytes(self.width)];
        let mut place = self.lines;
        for line in 0..self.height {
            match gdi::read_line(job, place, self.width, &mut row) {
                Ok(Line::Row(next)) => place = next,
                Ok(Line::PageEnd(_)) => return Err(Stop::PageEnd { line }),
                Err(refusal) => return Err(Stop::Refused { line, refusal }),
            }
            take(&row);
        }
        match gdi::read_line(job, place, self.width, &mut row) {
            Ok(Line::PageEnd(next)) => Ok(next.offset),
            _ => Err(Stop::NoPageEnd),
        }
    }
}

/// Why a page's lines can't be read to their end.
#[derive(Clone, Copy, Debug, PartialEq, Eq)]
pub enum Stop {
    /// The page end stands where this line would start.
    PageEnd { line: usize },
    /// This line is refused.
    Refused { line: usize, refusal: Refusal },
    /// After the last line something else than the page end stands.
    NoPageEnd,
}

/// Where the first fault of a job lies.
#[derive(Clone, Copy, Debug, PartialEq, Eq)]
pub enum Spot {
    /// In the job's head.
    Head,
    /// Where the head of this page, or the document end, should stand.
    Between { page: usize },
    /// In the head of this page.
    PageHead { page: usize },
    /// In the lines of this page.
    Lines {
        page: usize,
        height: usize,
        stop: Stop,
    },
    /// After the document end.
    After,
}

/// Where the fault of a job that the check refused lies.
pub fn locate(job: &[u8], refusal: &Refusal) -> Spot {
    if job.len() < HEAD_BYTES || refusal.number == 21 {
        return Spot::Head;
    }
    let mut offset = HEAD_BYTES;
    for page in 0.. {
        let Some(head) = Page::at(job, offset) else {
            return match job.get(offset..) {
                _ if refusal.number == 26 => Spot::After,
                Some([0x11, 0, ..]) => Spot::PageHead { page },
                _ => Spot::Between { page },
            };
        };
        if refusal.number == 22 && refusal.place == offset as u64 {
            return Spot::PageHead { page };
        }
        match head.read(job, |_| ()) {
            Ok(next) => offset = next,
            Err(stop) => {
                let height = head.height;
                return Spot::Lines { page, height, stop };
            }
        }
    }
    unreachable!("a page has at least 21 bytes, so a job has fewer pages than numbers")
}

#[cfg(test)]
mod tests {
    use super::*;

    /// Random jobs: where the fault is in a line, the line reader gives the check's own refusal; a
    /// job that passes is read to its document end, in as many pages as the check answers.
    #[test]
    fn random_jobs() {
        let (mut refused, mut passed) = (0, 0);
        for seed in 0..20_000 {
            let job = generate::job(&mut generate::Rng::new(seed));
            match gdi::check(&job) {
                Ok(pages) => {
                    let mut offset = HEAD_BYTES;
                    for _ in 0..pages {
                        let page = Page::at(&job, offset).expect("a page head");
                        let mut lines = 0;
                        offset = page.read(&job, |_| lines += 1).expect("its lines");
                        assert_eq!(lines, page.height);
                    }
                    assert_eq!(job[offset..], [0x14, 0, 0, 0, 0, 0]);
                    passed += 1;
                }
                Err(refusal) => match (refusal.number, locate(&job, &refusal)) {
                    (21 | 24, Spot::Head)
                    | (22 | 24, Spot::PageHead { .. })
                    | (23 | 24, Spot::Between { .. })
                    | (26, Spot::After) => {}
                    (number, Spot::Lines { stop, .. }) => {
                        match stop {
                            Stop::Refused { refusal: own, .. } => assert_eq!(own, refusal),
                            Stop::PageEnd { .. } => assert_eq!(number, 25),
                            Stop::NoPageEnd => assert!(matches!(number, 23..=25)),
                        }
                        refused += 1;
                    }
                    other => panic!("seed {seed}, {refusal}: {other:?}"),
                },
            }
        }
        assert!(refused > 2000 && passed > 2000, "{refused} {passed}");
    }
}
