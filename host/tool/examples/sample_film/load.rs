//! The load: what the commands of the pages name by its address.

use crate::geometry::{place, Point, COLUMNS, ROWS};
use std::ops::Range;

/// A long number: two words, low word first.
pub fn long(number: usize) -> [u16; 2] {
    [number as u16, (number >> 16) as u16]
}

/// The address of a tile, run group or sample array in the load, and its rows.
#[derive(Clone, Copy)]
pub struct Stored {
    pub address: [u16; 2],
    pub s_size: u16,
}

/// The load's words after their count.
#[derive(Default)]
pub struct Load(pub Vec<u16>);

impl Load {
    pub fn store(&mut self, s_size: u16, words: &[u16]) -> Stored {
        let address = long(self.0.len());
        self.0.extend(words);
        Stored { address, s_size }
    }

    /// A tile eight dots wide, laid from the field's upper left corner.
    pub fn tile(&mut self, lines: [u8; 8]) -> [u16; 2] {
        let lines = lines.map(|line| u16::from(line) << 8);
        let head = [0, ROWS.start, COLUMNS.start, 8, 8];
        self.store(8, &[&head, &lines[..]].concat()).address
    }
}

/// The first row and the run group of the dots that a rule picks.
pub fn runs(
    rows: Range<u16>,
    columns: Range<u16>,
    rule: impl Fn(Point) -> bool,
) -> (u16, Vec<u16>) {
    let picked = |s: u16| -> Vec<u16> { columns.clone().filter(|&f| rule(place(s, f))).collect() };
    let lines: Vec<Vec<u16>> = rows.clone().map(picked).collect();
    let empty = |line: &&Vec<u16>| line.is_empty();
    let above = lines.iter().take_while(empty).count();
    let below = lines.iter().rev().take_while(empty).count();
    let lines = &lines[above..lines.len() - below];
    let mut words = vec![lines.len() as u16];
    for line in lines {
        for run in line.chunk_by(|a, b| a + 1 == *b) {
            words.extend([run[0], run.len() as u16]);
        }
        if line.is_empty() {
            words.extend([0, 0]);
        }
        *words.last_mut().unwrap() |= 0x8000;
    }
    (rows.start + above as u16, words)
}
