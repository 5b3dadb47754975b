//! A band as the gauge sends it: 40 tiles of 16 bytes, plain or coded by runs.

use printbox::strip::{BAND_BYTES, BAND_ROWS, WIDTH};

/// The rows of a band, each dot an index from 0 to 3.
pub type Band = [[u8; WIDTH]; BAND_ROWS];

/// The tiles of a band: 8 dots by 8, twenty side by side in its upper half, then twenty in its lower
/// half. A row of a tile is a byte of the low bits and a byte of the high bits, its leftmost dot
/// highest in both.
pub fn tiles(band: &Band) -> [u8; BAND_BYTES] {
    let mut tiles = [0; BAND_BYTES];
    for (y, row) in band.iter().enumerate() {
        for (x, index) in row.iter().enumerate() {
            let tile = y / 8 * (WIDTH / 8) + x / 8;
            let at = 16 * tile + 2 * (y % 8);
            tiles[at] |= (index & 1) << (7 - x % 8);
            tiles[at + 1] |= (index >> 1) << (7 - x % 8);
        }
    }
    tiles
}

/// The greatest number of equal bytes in one run, and of others.
const RUN: usize = 129;
const OTHERS: usize = 128;

/// The first part of a coding: the byte that leads it, and how many bytes it stands for.
#[derive(Clone, Copy, Default)]
struct Part {
    lead: u8,
    count: usize,
}

/// The shortest coding of some bytes: two to 129 equal ones as a lead byte and one of them, one to
/// 128 others as a lead byte and themselves.
pub fn coded(bytes: &[u8]) -> Vec<u8> {
    // From each place on, the length of the shortest coding and its first part.
    let mut shortest = vec![(0, Part::default()); bytes.len() + 1];
    for at in (0..bytes.len()).rev() {
        let rest = &bytes[at..];
        let equal = rest.iter().take_while(|byte| **byte == rest[0]).count();
        let runs = (2..=equal.min(RUN)).rev().map(|count| {
            let lead = 0x80 | (count - 2) as u8;
            (2 + shortest[at + count].0, Part { lead, count })
        });
        let others = (1..=rest.len().min(OTHERS)).rev().map(|count| {
            let lead = (count - 1) as u8;
            (1 + count + shortest[at + count].0, Part { lead, count })
        });
        let first = runs.chain(others).min_by_key(|(length, _)| *length);
        shortest[at] = first.expect("one byte at least");
    }

    let mut coded = Vec::new();
    let mut at = 0;
    while at < bytes.len() {
        let Part { lead, count } = shortest[at].1;
        let written = if lead < 0x80 { count } else { 1 };
        coded.push(lead);
        coded.extend(&bytes[at..at + written]);
        at += count;
    }
    coded
}

#[cfg(test)]
mod tests {
    use super::*;

    fn expanded(mut coded: &[u8]) -> Vec<u8> {
        let mut bytes = Vec::new();
        while let [lead, rest @ ..] = coded {
            let count = usize::from(lead & 0x7F);
            let (part, rest) = rest.split_at(if *lead < 0x80 { count + 1 } else { 1 });
            bytes.extend(match lead {
                0x80.. => vec![part[0]; count + 2],
                _ => part.to_vec(),
            });
            coded = rest;
        }
        bytes
    }

    /// The example of the printer's description, and runs at their limits.
    #[test]
    fn codings() {
        let example = [
            0, 0, 0, 0, 255, 0, 255, 0, 0, 255, 0, 255, 255, 255, 255, 255,
        ];
        let expected = [0x82, 0, 6, 255, 0, 255, 0, 0, 255, 0, 0x83, 255];
        assert_eq!(coded(&example), expected);
        assert_eq!(coded(&[]), []);
        assert_eq!(coded(&[7]), [0, 7]);
        assert_eq!(coded(&[7; 2]), [0x80, 7]);
        assert_eq!(coded(&[7; 129]), [0xFF, 7]);
        assert_eq!(coded(&[7; 640]).len(), 10);
        let different: Vec<u8> = (0..=255).collect();
        assert_eq!(
            coded(&different[..128]),
            [&[127], &different[..128]].concat()
        );
        assert_eq!(coded(&different[..129]).len(), 131);
        // No band's coding has over 645 bytes.
        let band: Vec<u8> = different.iter().cycle().copied().take(640).collect();
        assert_eq!(coded(&band).len(), 645);
    }

    /// Short strings of two letters: every way to cut one into parts is tried, and none is shorter.
    #[test]
    fn shortest() {
        for length in 1..=10 {
            for letters in 0..1u32 << length {
                let bytes: Vec<u8> = (0..length).map(|at| (letters >> at & 1) as u8).collect();
                let cost = |cuts: u32| {
                    let at: Vec<usize> = (0..length).collect();
                    let parts = at.chunk_by(|_, next| cuts >> next & 1 == 0);
                    let cost = |part: &[usize]| match part.len() {
                        2.. if part.iter().all(|at| bytes[*at] == bytes[part[0]]) => 2,
                        count => 1 + count,
                    };
                    parts.map(cost).sum::<usize>()
                };
                let least = (0..1 << length).step_by(2).map(cost).min();
                let coded = coded(&bytes);
                assert_eq!(Some(coded.len()), least, "{bytes:?}");
                assert_eq!(expanded(&coded), bytes);
            }
        }
    }

    /// Bytes with runs of all lengths.
    #[test]
    fn long_runs() {
        let mut rng = generate::Rng::new(1);
        for _ in 0..300 {
            let mut bytes = Vec::new();
            while bytes.len() < 640 {
                let count = rng.pick(&[1, 2, 3, 30, 127, 128, 129, 130, 131, 258, 259]);
                bytes.extend(vec![rng.byte(); count]);
                let count = rng.pick(&[0, 1, 2, 30, 126, 127, 128, 129, 130]);
                bytes.extend(rng.bytes(count));
            }
            bytes.truncate(640);
            let coded = coded(&bytes);
            assert!(coded.len() <= 645);
            assert_eq!(expanded(&coded), bytes);
        }
    }

    /// One dot of each index in a corner of a tile.
    #[test]
    fn dots_in_tiles() {
        let mut band: Band = [[0; WIDTH]; BAND_ROWS];
        band[0][0] = 1;
        band[7][15] = 2;
        band[8][159] = 3;
        band[15][8] = 3;
        let mut expected = [0; BAND_BYTES];
        expected[0] = 0x80;
        expected[16 + 15] = 1;
        (expected[16 * 39], expected[16 * 39 + 1]) = (1, 1);
        (expected[16 * 21 + 14], expected[16 * 21 + 15]) = (0x80, 0x80);
        assert_eq!(tiles(&band), expected);
    }
}
