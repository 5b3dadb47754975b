//! The writers of GDI jobs, and the linefill.

use crate::jobs::{head, DOCUMENT_END, PAGE_END, WIDEST};
use crate::{answer, refuse, Answer, Refusal};

/// "A command that would take a block's size over 255 starts the next."
const FULLEST_BLOCK: usize = 255;

/// Puts the bytes at the output's beginning, or refuses an output that is shorter than they are.
/// "Each writer answers the bytes written; output beyond them stays."
fn put(bytes: &[u8], output: &mut [u8]) -> Result<(u64, u64), Refusal> {
    let Some(room) = output.get_mut(..bytes.len()) else {
        return refuse(27, 0);
    };
    room.copy_from_slice(bytes);
    Ok((bytes.len() as u64, 0))
}

/// Writes the job's head.
pub fn gdi_write_head(output: &mut [u8]) -> Answer {
    answer(put(&head(), output))
}

/// Writes a page end.
pub fn gdi_write_page_end(output: &mut [u8]) -> Answer {
    answer(put(&PAGE_END, output))
}

/// Writes the document end.
pub fn gdi_write_document_end(output: &mut [u8]) -> Answer {
    answer(put(&DOCUMENT_END, output))
}

/// Writes a page head: "22, then 27 for output".
#[allow(clippy::too_many_arguments)]
pub fn gdi_write_page_head(
    tray: u32,
    width: u16,
    height: u16,
    format: u8,
    paper_type: u8,
    copies: u8,
    toner: u8,
    output: &mut [u8],
) -> Answer {
    if !(1..=WIDEST).contains(&usize::from(width)) || height == 0 || toner > 1 {
        return Answer::Refused(22, 0);
    }
    let mut bytes = vec![0x11, 0, 0x0F, 0];
    bytes.extend(tray.to_le_bytes());
    bytes.extend([4, 4, 0, 0]);
    bytes.extend(width.to_le_bytes());
    bytes.extend(height.to_le_bytes());
    bytes.extend([format, paper_type, copies, 0, toner]);
    answer(put(&bytes, output))
}

/// Dot f of a row: the high bit of the first byte is dot 0.
fn dot(row: &[u8], f: usize) -> bool {
    row[f / 8] & (0x80 >> (f % 8)) != 0
}

/// The longest runs of a colour from dot 0 on: colour and length of each.
fn runs(row: &[u8], width: usize) -> Vec<(bool, usize)> {
    let mut runs: Vec<(bool, usize)> = Vec::new();
    for f in 0..width {
        let black = dot(row, f);
        match runs.last_mut() {
            Some((colour, length)) if *colour == black => *length += 1,
            _ => runs.push((black, 1)),
        }
    }
    runs
}

/// The command of a run: "one byte below 64 dots, else two".
fn command(black: bool, length: usize) -> Vec<u8> {
    let colour = if black { 0x40 } else { 0 };
    let low = (length % 64) as u8;
    if length < 64 {
        vec![colour | low]
    } else {
        vec![0x80 | colour | low, (length / 64) as u8]
    }
}

/// A block: its head and its bytes, at most 255 of them.
fn block(bytes: &[u8]) -> Vec<u8> {
    let mut block = vec![0x12, 0, bytes.len() as u8, 0, 0, 0];
    block.extend(bytes);
    block
}

fn write_row(width: usize, row: &[u8], output: &mut [u8]) -> Result<(u64, u64), Refusal> {
    // 27 for width and row, then 27 for output.
    if !(1..=WIDEST).contains(&width) || row.len() != width.div_ceil(8) {
        return refuse(27, 0);
    }
    if (width..row.len() * 8).any(|f| dot(row, f)) {
        return refuse(27, 0);
    }
    let mut line = Vec::new();
    // "A line starts a block."
    let mut filling = Vec::new();
    for (black, length) in runs(row, width) {
        let command = command(black, length);
        if filling.len() + command.len() > FULLEST_BLOCK {
            line.extend(block(&filling));
            filling.clear();
        }
        filling.extend(command);
    }
    line.extend(block(&filling));
    put(&line, output)
}

/// Writes a row as one line.
pub fn gdi_write_row(width: usize, row: &[u8], output: &mut [u8]) -> Answer {
    answer(write_row(width, row, output))
}

/// The linefill of a width: a white command of two bytes, first byte high.
pub fn gdi_linefill(width: usize) -> Answer {
    if !(1..=WIDEST).contains(&width) {
        return Answer::Refused(27, 0);
    }
    let width = width as u64;
    Answer::Done((0x80 + width % 64) * 256 + width / 64, 0)
}
