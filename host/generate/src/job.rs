//! GDI jobs.

use crate::damage::damage;
use crate::job_faults::fault;
use crate::Rng;

/// The head, as the requirements write it out.
pub const HEAD: &[u8; 86] = b") SAG-GDI RL;0;0;Comment Copyright Sagem Communication 2005. \
Version 1.0.0.0\x0D\x0A\x10\0\x02\0\0\0\0\0";

/// A byte group of a job.
#[derive(Clone, Debug, PartialEq, Eq)]
pub enum Piece {
    PageHead([u8; 21]),
    /// A block, by its commands; its size may be given otherwise than it is.
    Block {
        size: Option<u16>,
        commands: Vec<Vec<u8>>,
    },
    PageEnd,
    DocumentEnd,
    Bytes(Vec<u8>),
}

impl Piece {
    /// The group's bytes.
    pub fn bytes(&self) -> Vec<u8> {
        match self {
            Piece::PageHead(bytes) => bytes.to_vec(),
            Piece::Block { size, commands } => {
                let bytes = commands.concat();
                let size = size.unwrap_or(bytes.len() as u16).to_le_bytes();
                let mut all = vec![0x12, 0, size[0], size[1], 0, 0];
                all.extend(bytes);
                all
            }
            Piece::PageEnd => vec![0x13, 0, 0, 0, 0, 0],
            Piece::DocumentEnd => vec![0x14, 0, 0, 0, 0, 0],
            Piece::Bytes(bytes) => bytes.clone(),
        }
    }
}

/// A page head with these sizes, the free bytes as they come.
pub fn page_head(rng: &mut Rng, width: u16, height: u16) -> Piece {
    let mut bytes = [0; 21];
    bytes[..4].copy_from_slice(&[0x11, 0, 0x0F, 0]);
    let tray = if rng.percent(50) {
        [1, 0, 0, 0]
    } else {
        (rng.bits() as u32).to_le_bytes()
    };
    bytes[4..8].copy_from_slice(&tray);
    bytes[8..12].copy_from_slice(&[4, 4, 0, 0]);
    bytes[12..14].copy_from_slice(&width.to_le_bytes());
    bytes[14..16].copy_from_slice(&height.to_le_bytes());
    for byte in &mut bytes[16..19] {
        *byte = rng.byte();
    }
    bytes[20] = rng.below(2) as u8;
    Piece::PageHead(bytes)
}

/// The command of a length below 16,384: of two bytes where it must be, or where it is wanted.
fn command(rng: &mut Rng, black: bool, length: u64, two: bool) -> Vec<u8> {
    let colour = if black { 0x40 } else { 0 };
    let low = (length % 64) as u8;
    if length >= 64 || two || rng.one_in(12) {
        vec![0x80 | colour | low, (length / 64) as u8]
    } else {
        vec![colour | low]
    }
}

/// How the runs of a line are made.
#[derive(Clone, Copy)]
enum Style {
    One,
    Dots,
    Short,
    Long,
    Mixed,
}

/// The commands of one line: their sum reaches the width with the last.
fn line(rng: &mut Rng, width: u64) -> Vec<Vec<u8>> {
    let styles = [
        Style::One,
        Style::Dots,
        Style::Short,
        Style::Long,
        Style::Mixed,
        Style::Mixed,
    ];
    let style = match rng.pick(&styles) {
        Style::Dots if width > 300 && !rng.one_in(8) => Style::Long,
        Style::Short if width > 3000 && !rng.one_in(8) => Style::Long,
        style => style,
    };
    let zeros = rng.one_in(3);
    let mut commands = Vec::new();
    let mut left = width;
    let mut black = rng.percent(50);
    while left > 0 {
        if zeros && rng.one_in(5) {
            let two = rng.one_in(3);
            let colour = rng.percent(50);
            commands.push(command(rng, colour, 0, two));
        }
        let wanted = match style {
            Style::One => width,
            Style::Dots => 1,
            Style::Short => rng.between(1, 12),
            Style::Long => rng.between(1, width / 3 + 70),
            Style::Mixed => rng.pick(&[1, 2, 3, 7, 8, 9, 62, 63, 64, 65, 127, 128, 300]),
        };
        // The last is cropped, or made to end with the line.
        let length = if wanted > left && rng.percent(60) {
            left
        } else {
            wanted
        };
        commands.push(command(rng, black, length.min(16_383), false));
        left = left.saturating_sub(length);
        if rng.percent(85) {
            black = !black;
        }
    }
    // Cropped by much, now and then.
    if rng.one_in(10) {
        commands.pop();
        let most = rng.pick(&[63, 64, 16_383, 16_383]);
        let length = width.max(most).min(16_383);
        commands.push(command(rng, black, length, false));
    }
    commands
}

/// Puts the commands of a page into blocks.
fn blocks(rng: &mut Rng, lines: Vec<Vec<Vec<u8>>>) -> Vec<Piece> {
    let style = rng.below(4);
    let empty = rng.one_in(3);
    let most = match rng.below(4) {
        0 => 60_000,
        1 => 255,
        2 => rng.between(2, 12) as usize,
        _ => rng.between(2, 300) as usize,
    };
    let mut pieces = Vec::new();
    let mut filling: Vec<Vec<u8>> = Vec::new();
    let mut bytes = 0;
    let mut flush = |rng: &mut Rng, filling: &mut Vec<Vec<u8>>| {
        pieces.push(Piece::Block {
            size: None,
            commands: std::mem::take(filling),
        });
        if empty && rng.one_in(3) {
            for _ in 0..rng.between(1, 2) {
                pieces.push(Piece::Block {
                    size: None,
                    commands: Vec::new(),
                });
            }
        }
    };
    if empty && rng.one_in(3) {
        flush(rng, &mut filling);
    }
    for line in lines {
        if style == 0 && !filling.is_empty() {
            flush(rng, &mut filling);
            bytes = 0;
        }
        for command in line {
            let over = bytes + command.len() > most;
            if !filling.is_empty() && (over || style == 3 && rng.one_in(4)) {
                flush(rng, &mut filling);
                bytes = 0;
            }
            bytes += command.len();
            filling.push(command);
        }
    }
    if !filling.is_empty() {
        flush(rng, &mut filling);
    }
    pieces
}

/// The sizes of a page.
fn sizes(rng: &mut Rng, large: bool) -> (u64, u64) {
    if large {
        let width = match rng.below(4) {
            0 => 16_383,
            1 => rng.pick(&[4762, 3298, 4900, 2128]),
            _ => rng.between(1000, 16_383),
        };
        return (width, rng.between(3, 30));
    }
    let width = match rng.below(10) {
        0..=2 => rng.pick(&[1, 2, 3, 7, 8, 9, 15, 16, 17, 31, 63, 64, 65, 127, 128, 129]),
        3..=7 => rng.between(1, 90),
        8 => rng.between(1, 400),
        _ if rng.one_in(12) => rng.between(400, 16_383),
        _ => rng.between(1, 30),
    };
    let height = match rng.below(8) {
        0 | 1 => 1,
        2..=5 => rng.between(1, 4),
        6 => rng.between(1, 8),
        _ if width < 40 => rng.between(1, 24),
        _ => 2,
    };
    (width, height)
}

/// The groups of a job that passes the check.
pub fn pieces(rng: &mut Rng) -> Vec<Piece> {
    let mut pieces = Vec::new();
    let large = rng.one_in(500);
    let pages = match rng.below(12) {
        0 => 0,
        1..=6 => 1,
        7 | 8 => 2,
        9 | 10 => rng.between(1, 4),
        _ => rng.between(1, 8),
    };
    for _ in 0..pages {
        let (width, height) = sizes(rng, large);
        pieces.push(page_head(rng, width as u16, height as u16));
        let lines = (0..height).map(|_| line(rng, width)).collect();
        pieces.extend(blocks(rng, lines));
        pieces.push(Piece::PageEnd);
    }
    pieces.push(Piece::DocumentEnd);
    pieces
}

/// A random job: mostly well-formed, sometimes with a fault where it belongs, sometimes damaged.
pub fn job(rng: &mut Rng) -> Vec<u8> {
    let mut pieces = pieces(rng);
    let mut head = HEAD.to_vec();
    let kind = rng.below(100);
    let mut cut = None;
    let faults = match kind {
        0..=39 => 1,
        40..=42 => 2,
        _ => 0,
    };
    for _ in 0..faults {
        cut = cut.or(fault(rng, &mut head, &mut pieces));
    }
    let mut job = head;
    for piece in &pieces {
        job.extend(piece.bytes());
    }
    if let Some(length) = cut {
        job.truncate(length);
    }
    if (43..=56).contains(&kind) {
        let start = if rng.percent(80) {
            HEAD.len().min(job.len())
        } else {
            0
        };
        let mut tail = job.split_off(start);
        for _ in 0..rng.between(1, 2) {
            damage(rng, &mut tail, false);
        }
        job.extend(tail);
    }
    job
}
