//! Calls of the row writer and of the page head writer.

use crate::Rng;

/// A call of the row writer.
#[derive(Clone, Debug, PartialEq, Eq)]
pub struct Row {
    pub width: usize,
    pub row: Vec<u8>,
    pub output: Vec<u8>,
}

/// A call of the page head writer.
#[derive(Clone, Debug, PartialEq, Eq)]
pub struct PageHead {
    pub tray: u32,
    pub width: u16,
    pub height: u16,
    pub format: u8,
    pub paper_type: u8,
    pub copies: u8,
    pub toner: u8,
    pub output: Vec<u8>,
}

/// So many dots in runs, with the colours they have in turn.
fn dots(rng: &mut Rng, width: usize) -> Vec<bool> {
    let style = rng.below(8);
    // Runs of one dot first, so that a block is nearly full.
    let single = if style == 7 {
        rng.between(246, 262) as usize
    } else {
        0
    };
    let mut dots = Vec::new();
    let mut black = rng.percent(50);
    while dots.len() < width {
        let run = match style {
            _ if dots.len() < single => 1,
            0 => width,
            1 => 1,
            2 => rng.between(1, 3) as usize,
            3 => rng.between(1, 20) as usize,
            4 => rng.between(1, width as u64) as usize,
            _ => rng.pick(&[1, 1, 1, 2, 5, 62, 63, 64, 65, 66, 127, 128, 129, 191, 192]),
        };
        for _ in 0..run.min(width - dots.len()) {
            dots.push(black);
        }
        black = !black;
    }
    dots
}

/// The bytes that a line of these dots takes: commands in blocks of at most 255 bytes.
fn line_bytes(dots: &[bool]) -> usize {
    let (mut all, mut block, mut from) = (6, 0, 0);
    for place in 1..=dots.len() {
        if place < dots.len() && dots[place] == dots[from] {
            continue;
        }
        let command = if place - from < 64 { 1 } else { 2 };
        if block + command > 255 {
            all += 6;
            block = 0;
        }
        block += command;
        all += command;
        from = place;
    }
    all
}

/// A call of the row writer.
pub fn row(rng: &mut Rng) -> Row {
    let width = match rng.below(40) {
        0..=7 => rng.pick(&[1, 2, 7, 8, 9, 15, 16, 17, 62, 63, 64, 65, 66, 127, 128, 129]),
        8..=27 => rng.between(1, 100) as usize,
        28..=33 => rng.between(100, 700) as usize,
        34..=38 => rng.between(250, 420) as usize,
        _ if rng.one_in(4) => rng.between(700, 16_383) as usize,
        _ if rng.one_in(3) => rng.pick(&[16_383, 16_382, 16_376, 16_377]),
        _ => rng.between(1, 64) as usize,
    };
    let dots = dots(rng, width);
    let mut row = vec![0; width.div_ceil(8)];
    for (place, _) in dots.iter().enumerate().filter(|(_, black)| **black) {
        row[place / 8] |= 0x80 >> (place % 8);
    }
    let exact = line_bytes(&dots);
    let mut given = width;
    match rng.below(40) {
        0 | 1 => {
            // A spare bit is set.
            let spare = row.len() * 8 - width;
            if spare > 0 {
                let last = row.len() - 1;
                row[last] |= 1 << rng.index(spare);
            }
        }
        2 => row.push(rng.pick(&[0, 0xFF])),
        3 => {
            row.pop();
        }
        4 => {
            let length = rng.index(60);
            row = rng.bytes(length);
        }
        5 => {
            given = rng.pick(&[
                0,
                16_384,
                16_385,
                usize::MAX,
                width + 1,
                width - 1,
                width + 8,
            ])
        }
        6 if rng.one_in(8) => {
            given = 16_384;
            row = rng.bytes(2048);
        }
        _ => (),
    }
    // The bytes of the width's longest line, of which every run is one dot.
    let longest = width + 6 * width.div_ceil(255);
    let length = match rng.below(20) {
        0 => exact - 1,
        1 => rng.index(exact),
        2 => 0,
        3..=7 => exact + 1 + rng.index(12),
        8 => exact + rng.index(100),
        9 => longest,
        10 => longest - 1,
        11 => longest + rng.index(100),
        _ => exact,
    };
    Row {
        width: given,
        row,
        output: rng.bytes(length),
    }
}

/// A call of the page head writer.
pub fn page_head(rng: &mut Rng) -> PageHead {
    let width = match rng.below(12) {
        0 => 0,
        1 => rng.pick(&[16_384, 16_385, 0x8000, 0xFFFF]),
        2 => rng.pick(&[1, 16_382, 16_383]),
        3 => rng.word(),
        4 => rng.pick(&[4762, 3298, 4900, 2128]),
        _ => rng.between(1, 16_383) as u16,
    };
    let height = match rng.below(12) {
        0 => 0,
        1 => 0xFFFF,
        2 => 1,
        _ => rng.word(),
    };
    let toner = match rng.below(12) {
        0 => rng.pick(&[2, 3, 0x80, 0xFF]),
        _ => rng.below(2) as u8,
    };
    let length = match rng.below(12) {
        0 => 20,
        1 => rng.index(21),
        2 => rng.index(60),
        3 => 22,
        _ => 21,
    };
    PageHead {
        tray: rng.bits() as u32,
        width,
        height,
        format: rng.byte(),
        paper_type: rng.byte(),
        copies: rng.byte(),
        toner,
        output: rng.bytes(length),
    }
}
