//! GDI jobs: the byte groups, the commands of a line, and the job check.

use crate::{answer, refuse, Answer, Refusal, LONGEST_FILE};

/// The head's 76 characters.
pub const HEAD_TEXT: &[u8; 76] =
    b") SAG-GDI RL;0;0;Comment Copyright Sagem Communication 2005. Version 1.0.0.0";
/// What follows them: 0D 0A, 10 00 02 00 00 00 00 00.
pub const HEAD_END: [u8; 10] = [0x0D, 0x0A, 0x10, 0, 2, 0, 0, 0, 0, 0];
/// Page end 13 00 00 00 00 00.
pub const PAGE_END: [u8; 6] = [0x13, 0, 0, 0, 0, 0];
/// Document end 14 00 00 00 00 00.
pub const DOCUMENT_END: [u8; 6] = [0x14, 0, 0, 0, 0, 0];
/// The widest line.
pub const WIDEST: usize = 16_383;

/// The head, 86 bytes.
pub fn head() -> Vec<u8> {
    [&HEAD_TEXT[..], &HEAD_END[..]].concat()
}

/// The byte group that stands at a place outside a block's bytes.
#[derive(Clone, Copy, Debug, PartialEq, Eq)]
pub enum Group {
    /// Shorter than six bytes, or 11 00 and shorter than 21: the job ends where bytes are needed.
    Cut,
    PageHead {
        width: usize,
        height: usize,
    },
    /// 11 00 with a fixed byte, width, height or toner wrong.
    WrongPageHead,
    /// A block head; the block's bytes follow it.
    Block {
        size: usize,
    },
    PageEnd,
    DocumentEnd,
    Other,
}

/// The group that begins with these bytes, which go to the job's end.
pub fn group(bytes: &[u8]) -> Group {
    if bytes.len() < 6 {
        return Group::Cut;
    }
    // "A page head, known by 11 00."
    if bytes[0] == 0x11 && bytes[1] == 0 {
        if bytes.len() < 21 {
            return Group::Cut;
        }
        return page_head(&bytes[..21]);
    }
    if bytes[..6] == PAGE_END {
        return Group::PageEnd;
    }
    if bytes[..6] == DOCUMENT_END {
        return Group::DocumentEnd;
    }
    // "12 00, size (2, low byte first), 00 00, then size bytes."
    if bytes[0] == 0x12 && bytes[1] == 0 && bytes[4] == 0 && bytes[5] == 0 {
        let size = usize::from(u16::from_le_bytes([bytes[2], bytes[3]]));
        return Group::Block { size };
    }
    Group::Other
}

/// "11 00 0F 00, tray (4), 04 04 00 00, width, height (2 each, low byte first), format, paper
/// type, copies, 00, toner 0 or 1."
fn page_head(bytes: &[u8]) -> Group {
    let width = usize::from(u16::from_le_bytes([bytes[12], bytes[13]]));
    let height = usize::from(u16::from_le_bytes([bytes[14], bytes[15]]));
    let fixed = bytes[..4] == [0x11, 0, 0x0F, 0] && bytes[8..12] == [4, 4, 0, 0] && bytes[19] == 0;
    let toner = bytes[20];
    if !fixed || !(1..=WIDEST).contains(&width) || height == 0 || toner > 1 {
        return Group::WrongPageHead;
    }
    Group::PageHead { width, height }
}

/// One command of a line.
#[derive(Clone, Copy, Debug, PartialEq, Eq)]
pub struct Command {
    pub bytes: usize,
    pub black: bool,
    pub length: usize,
}

/// The command at a place where so many bytes, at least one, are left of the block.
/// "A command lies whole in its block."
pub fn command(job: &[u8], place: usize, left: usize) -> Result<Command, Refusal> {
    let end = job.len() as u64;
    let Some(&first) = job.get(place) else {
        return refuse(24, end);
    };
    // "Bit 7 for two bytes, bit 6 for black, bits 5-0 L1."
    let black = first & 0x40 != 0;
    let low = usize::from(first & 0x3F);
    if first & 0x80 == 0 {
        return Ok(Command {
            bytes: 1,
            black,
            length: low,
        });
    }
    // "Second byte past its block": at the command, also where the job ends there.
    if left < 2 {
        return refuse(24, place as u64);
    }
    let Some(&second) = job.get(place + 1) else {
        return refuse(24, end);
    };
    Ok(Command {
        bytes: 2,
        black,
        length: low + 64 * usize::from(second),
    })
}

fn check(job: &[u8]) -> Result<(u64, u64), Refusal> {
    if job.len() > LONGEST_FILE {
        return refuse(1, 0);
    }
    let end = job.len() as u64;
    let head = head();
    // "The head's present bytes are compared first."
    for (place, (here, wanted)) in job.iter().zip(&head).enumerate() {
        if here != wanted {
            return refuse(21, place as u64);
        }
    }
    if job.len() < head.len() {
        return refuse(24, end);
    }
    let mut place = head.len();
    let mut pages = 0;
    loop {
        // Between pages.
        match group(&job[place..]) {
            Group::Cut => return refuse(24, end),
            Group::WrongPageHead => return refuse(22, place as u64),
            Group::PageHead { width, height } => {
                place = check_page(job, place + 21, width, height)?;
                pages += 1;
            }
            Group::DocumentEnd => {
                place += 6;
                break;
            }
            Group::Block { .. } | Group::PageEnd | Group::Other => {
                return refuse(23, place as u64);
            }
        }
    }
    // "Bytes after the document end."
    if place < job.len() {
        return refuse(26, place as u64);
    }
    Ok((pages, 0))
}

/// The page whose blocks begin at a place: the place after its page end.
fn check_page(job: &[u8], mut place: usize, width: usize, height: usize) -> Result<usize, Refusal> {
    let mut left = 0;
    let mut lines = 0;
    // The sum of the commands of the line that is being read.
    let mut sum = 0;
    loop {
        if left == 0 {
            match group(&job[place..]) {
                Group::Cut => return refuse(24, job.len() as u64),
                Group::Block { size } => {
                    place += 6;
                    left = size;
                }
                // "Page end inside a line or before height lines."
                Group::PageEnd if lines < height => return refuse(25, place as u64),
                Group::PageEnd => return Ok(place + 6),
                Group::PageHead { .. }
                | Group::WrongPageHead
                | Group::DocumentEnd
                | Group::Other => return refuse(23, place as u64),
            }
            continue;
        }
        if place == job.len() {
            return refuse(24, job.len() as u64);
        }
        // "A command after them", before 24 at the same command.
        if lines == height {
            return refuse(25, place as u64);
        }
        let command = command(job, place, left)?;
        place += command.bytes;
        left -= command.bytes;
        // "A line takes commands until their sum reaches the width; the last is cropped."
        sum += command.length;
        if sum >= width {
            sum = 0;
            lines += 1;
        }
    }
}

/// "The job check answers the pages."
pub fn gdi_check(job: &[u8]) -> Answer {
    answer(check(job))
}
