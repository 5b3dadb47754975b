//! The line reader of GDI jobs.

use crate::jobs::{command, group, Group, WIDEST};
use crate::{refuse, Answer, Refusal, LONGEST_FILE};

/// What stood where a line would start.
enum Found {
    /// A line: its row and the next place.
    Line {
        row: Vec<u8>,
        offset: usize,
        left: usize,
    },
    /// The page end; the next place is after it.
    PageEnd { offset: usize },
}

fn read_line(
    job: &[u8],
    mut offset: usize,
    mut left: usize,
    width: usize,
    row_bytes: usize,
) -> Result<Found, Refusal> {
    // "The line reader starts with 27, then 1; an offset past the job is 24 at the job length."
    if !(1..=WIDEST).contains(&width) || row_bytes != width.div_ceil(8) {
        return refuse(27, 0);
    }
    if job.len() > LONGEST_FILE {
        return refuse(1, 0);
    }
    let end = job.len() as u64;
    if offset > job.len() {
        return refuse(24, end);
    }
    let mut row = vec![0; row_bytes];
    // Whether a command was taken, and the sum of those taken.
    let mut started = false;
    let mut sum: usize = 0;
    loop {
        if left == 0 {
            match group(&job[offset..]) {
                Group::Cut => return refuse(24, end),
                Group::Block { size } => {
                    offset += 6;
                    left = size;
                }
                Group::PageEnd if started => return refuse(25, offset as u64),
                Group::PageEnd => return Ok(Found::PageEnd { offset: offset + 6 }),
                Group::PageHead { .. }
                | Group::WrongPageHead
                | Group::DocumentEnd
                | Group::Other => return refuse(23, offset as u64),
            }
            continue;
        }
        let command = command(job, offset, left)?;
        started = true;
        offset += command.bytes;
        left -= command.bytes;
        // The last command is cropped at the width.
        let after = sum + command.length;
        if command.black {
            for dot in sum..after.min(width) {
                row[dot / 8] |= 0x80 >> (dot % 8);
            }
        }
        sum = after;
        if sum >= width {
            return Ok(Found::Line { row, offset, left });
        }
    }
}

/// "It answers the next place with the row, or page end when the page end stands where a line
/// would start; then the next place is after the page end and the row buffer stays."
pub fn gdi_read_line(
    job: &[u8],
    offset: usize,
    left: usize,
    width: usize,
    row: &mut [u8],
) -> Answer {
    match read_line(job, offset, left, width, row.len()) {
        Ok(Found::Line {
            row: dots,
            offset,
            left,
        }) => {
            row.copy_from_slice(&dots);
            Answer::Done(offset as u64, left as u64)
        }
        Ok(Found::PageEnd { offset }) => Answer::PageEnd(offset as u64, 0),
        Err(Refusal { number, place }) => Answer::Refused(number, place),
    }
}
