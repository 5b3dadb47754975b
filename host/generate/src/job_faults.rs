//! Faults of jobs, each made where it belongs.

use crate::job::{page_head, Piece};
use crate::Rng;

/// Makes one fault; a length that the job is to be cut to is given back.
pub fn fault(rng: &mut Rng, head: &mut [u8], pieces: &mut Vec<Piece>) -> Option<usize> {
    if pieces.is_empty() {
        return None;
    }
    match rng.below(43) {
        0 | 1 => {
            let place = rng.index(head.len());
            head[place] ^= 1 << rng.below(8);
            if rng.percent(40) {
                return Some(rng.index(head.len() + 30));
            }
        }
        2 => return Some(rng.index(head.len() + 1)),
        3..=6 => wrong_page_head(rng, pieces),
        7..=9 => {
            let place = rng.index(pieces.len());
            pieces.remove(place);
        }
        10 | 11 => {
            let place = rng.index(pieces.len());
            let again = pieces[place].clone();
            pieces.insert(place, again);
        }
        12 => {
            let (one, other) = (rng.index(pieces.len()), rng.index(pieces.len()));
            pieces.swap(one, other);
        }
        13..=16 => {
            let place = rng.index(pieces.len() + 1);
            let piece = any_piece(rng);
            pieces.insert(place, piece);
        }
        17..=19 => change_height(rng, pieces),
        20 | 21 => command_after(rng, pieces),
        22..=25 => return half_command(rng, head.len(), pieces),
        26 => wrong_size(rng, pieces),
        27..=29 => {
            let count = rng.between(1, 8) as usize;
            let tail = match rng.below(3) {
                0 => Piece::DocumentEnd.bytes(),
                1 => vec![0; count],
                _ => rng.bytes(count),
            };
            pieces.push(Piece::Bytes(tail));
        }
        30 | 31 => cut_line(rng, pieces),
        32 | 33 => {
            // The job ends within one group.
            let place = rng.index(pieces.len());
            let before: usize = pieces[..place].iter().map(|x| x.bytes().len()).sum();
            let inside = rng.index(pieces[place].bytes().len().min(24) + 1);
            return Some(head.len() + before + inside);
        }
        34 | 35 => {
            // A page head that is cut, in a page or between pages, right or wrong.
            let place = rng.index(pieces.len() + 1);
            let mut bytes = page_head(rng, 9, 1).bytes();
            if rng.percent(50) {
                let wrong = rng.index(19) + 2;
                bytes[wrong] ^= 1 << rng.below(8);
            }
            bytes.truncate(rng.between(1, 21) as usize);
            pieces.truncate(place);
            pieces.push(Piece::Bytes(bytes));
        }
        36 | 37 => {
            // A few bytes of anything where a group is needed.
            let place = rng.index(pieces.len() + 1);
            pieces.truncate(place);
            let count = rng.between(1, 7) as usize;
            let bytes = match rng.below(3) {
                0 => rng.bytes(count),
                1 => vec![rng.pick(&[0, 0x10, 0x15, 0x80, 0xFF]); count],
                _ => {
                    let mut bytes = any_piece(rng).bytes();
                    bytes.truncate(count);
                    bytes
                }
            };
            pieces.push(Piece::Bytes(bytes));
        }
        38 | 39 => return missing_rest(rng, head.len(), pieces),
        _ => {
            let all: usize = pieces.iter().map(|x| x.bytes().len()).sum();
            return Some(head.len() + rng.index(all + 1));
        }
    }
    None
}

/// The places of the pieces of which this holds.
fn places(pieces: &[Piece], holds: impl Fn(&Piece) -> bool) -> Vec<usize> {
    (0..pieces.len()).filter(|&x| holds(&pieces[x])).collect()
}

/// One of the page heads.
fn some_head<'a>(rng: &mut Rng, pieces: &'a mut [Piece]) -> Option<&'a mut [u8; 21]> {
    let heads = places(pieces, |x| matches!(x, Piece::PageHead(_)));
    if heads.is_empty() {
        return None;
    }
    match &mut pieces[rng.pick(&heads)] {
        Piece::PageHead(bytes) => Some(bytes),
        _ => None,
    }
}

/// The place of one block that has commands.
fn some_block(rng: &mut Rng, pieces: &[Piece]) -> Option<usize> {
    let full = places(
        pieces,
        |x| matches!(x, Piece::Block { commands, .. } if !commands.is_empty()),
    );
    if full.is_empty() {
        return None;
    }
    Some(rng.pick(&full))
}

fn wrong_page_head(rng: &mut Rng, pieces: &mut [Piece]) {
    let fixed = [1, 2, 3, 8, 9, 10, 11, 19];
    let Some(bytes) = some_head(rng, pieces) else {
        return;
    };
    match rng.below(8) {
        0..=2 => bytes[rng.pick(&fixed)] ^= 1 << rng.below(8),
        3 => bytes[12..14].copy_from_slice(&[0, 0]),
        4 => bytes[12..14].copy_from_slice(&rng.pick(&[[0, 0x40], [1, 0x40], [0xFF, 0xFF]])),
        5 => bytes[14..16].copy_from_slice(&[0, 0]),
        6 => bytes[20] = rng.pick(&[2, 3, 0x80, 0xFF]),
        // A width at its limit, which is right.
        _ => bytes[12..14].copy_from_slice(&[0xFF, 0x3F]),
    }
}

/// A group, or six bytes that are none.
fn any_piece(rng: &mut Rng) -> Piece {
    match rng.below(9) {
        0 => page_head(rng, 8, 1),
        1 => page_head(rng, 0, 1),
        2 => Piece::PageEnd,
        3 => Piece::DocumentEnd,
        4 => Piece::Block {
            size: None,
            commands: Vec::new(),
        },
        5 => Piece::Block {
            size: None,
            commands: vec![vec![rng.byte() & 0x7F]],
        },
        6 => {
            let mut bytes = match rng.below(4) {
                0 => vec![0x12, 0, 1, 0, 0, 0],
                1 => Piece::PageEnd.bytes(),
                2 => Piece::DocumentEnd.bytes(),
                _ => vec![0x11, 1, 0x0F, 0, 0, 0],
            };
            let place = rng.pick(&[0, 1, 4, 5]);
            bytes[place] ^= 1 << rng.below(8);
            Piece::Bytes(bytes)
        }
        7 => Piece::Bytes(vec![rng.pick(&[0x10, 0x15, 0]), 0, 0, 0, 0, 0]),
        _ => {
            let count = rng.between(1, 7) as usize;
            Piece::Bytes(rng.bytes(count))
        }
    }
}

/// A page has a line more or less than its head says, or its lines are of another width.
fn change_height(rng: &mut Rng, pieces: &mut [Piece]) {
    let Some(bytes) = some_head(rng, pieces) else {
        return;
    };
    let place = if rng.percent(75) { 14 } else { 12 };
    let old = u16::from_le_bytes([bytes[place], bytes[place + 1]]);
    let new = match rng.below(5) {
        0 | 1 => old.wrapping_add(1),
        2 | 3 => old.saturating_sub(1).max(1),
        _ => rng.between(1, 16_383) as u16,
    };
    bytes[place..place + 2].copy_from_slice(&new.to_le_bytes());
}

/// A command after the page's lines, in the last block or in one of its own.
fn command_after(rng: &mut Rng, pieces: &mut Vec<Piece>) {
    let ends = places(pieces, |x| *x == Piece::PageEnd);
    if ends.is_empty() {
        return;
    }
    let end = rng.pick(&ends);
    let more = match rng.below(5) {
        0 => vec![0],
        1 => vec![0x80],
        2 => vec![0xC1, 0],
        3 => vec![0x80, 0],
        _ => vec![rng.byte() & 0x7F],
    };
    if let (Some(Piece::Block { commands, .. }), true) =
        (pieces.get_mut(end.wrapping_sub(1)), rng.percent(60))
    {
        commands.push(more);
    } else {
        let block = Piece::Block {
            size: None,
            commands: vec![more],
        };
        pieces.insert(end, block);
    }
}

/// The second byte of a two-byte command is past its block, past the job, or past both.
fn half_command(rng: &mut Rng, head: usize, pieces: &mut [Piece]) -> Option<usize> {
    let place = some_block(rng, pieces)?;
    let before: usize = pieces[..place].iter().map(|x| x.bytes().len()).sum();
    let way = rng.below(4);
    if let Piece::Block { commands, size } = &mut pieces[place] {
        if way < 2 {
            let last = commands.last_mut()?;
            let first = last[0] | 0x80;
            *last = vec![first];
        } else {
            // The block's size is kept, and the job ends after a first byte.
            let which = rng.index(commands.len());
            let first = commands[which][0] | 0x80;
            let length: usize = commands.iter().map(Vec::len).sum();
            commands.truncate(which);
            commands.push(vec![first]);
            *size = Some((length as u16).clamp(2, 0xFFFE) + rng.below(2) as u16);
        }
    }
    if way == 0 {
        return None;
    }
    Some(head + before + pieces[place].bytes().len())
}

/// A block has more bytes to come, and the job ends: mostly after the page's last line.
fn missing_rest(rng: &mut Rng, head: usize, pieces: &mut [Piece]) -> Option<usize> {
    let last = places(pieces, |x| *x == Piece::PageEnd)
        .into_iter()
        .filter_map(|end| end.checked_sub(1))
        .rfind(|&x| matches!(pieces[x], Piece::Block { .. }));
    let place = match last {
        Some(place) if rng.percent(75) => place,
        _ => some_block(rng, pieces)?,
    };
    let before: usize = pieces[..place].iter().map(|x| x.bytes().len()).sum();
    let length = pieces[place].bytes().len();
    if let Piece::Block { size, .. } = &mut pieces[place] {
        *size = Some((length as u16).saturating_sub(6) + rng.between(1, 3) as u16);
    }
    Some(head + before + length)
}

fn wrong_size(rng: &mut Rng, pieces: &mut [Piece]) {
    let Some(place) = some_block(rng, pieces) else {
        return;
    };
    if let Piece::Block { commands, size } = &mut pieces[place] {
        let length: usize = commands.iter().map(Vec::len).sum();
        let right = length as u16;
        *size = Some(rng.pick(&[
            right.wrapping_sub(1),
            right.wrapping_add(1),
            0,
            1,
            right ^ 0x100,
            0xFFFF,
        ]));
    }
}

/// A block loses its last command: the page end then comes inside a line, or a line too early.
fn cut_line(rng: &mut Rng, pieces: &mut [Piece]) {
    let Some(place) = some_block(rng, pieces) else {
        return;
    };
    if let Piece::Block { commands, .. } = &mut pieces[place] {
        commands.pop();
        if rng.percent(50) {
            commands.push(vec![rng.pick(&[0, 0x40, 1, 0x41])]);
        }
    }
}
