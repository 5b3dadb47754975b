//! Padding, bit by bit: an array of two lines with one bit set, at each place of its lines. In the
//! sheet, in the load and in a tile, check and draw refuse it with 15 at the command's code where
//! the bit is padding, and pass it where it is a dot; where nothing names the array they pass both.

mod common;

use common::{answer, Answer, Entry};

/// The dots of a line: of one word, of two, and as many as there can be.
const WIDTHS: [usize; 7] = [1, 15, 16, 17, 31, 32, 65_535];
const LINES: usize = 2;

/// A film of one line of 16 dots in one band, whose command stands at place 14.
const CODE: u64 = 14;

/// Where the array stands, and whether the command names it.
#[derive(Clone, Copy, Debug, PartialEq)]
enum Home {
    Sheet,
    Load,
    Tile,
    LoadUnnamed,
}

const HOMES: [Home; 4] = [Home::Sheet, Home::Load, Home::Tile, Home::LoadUnnamed];

fn bytes(words: &[u16]) -> Vec<u8> {
    words.iter().flat_map(|word| word.to_be_bytes()).collect()
}

/// Sheet and load with an array whose bits are 0, and the place of its first line in its file.
fn film(home: Home, width: usize) -> ([Vec<u8>; 2], usize) {
    let mut array = vec![LINES as u16, width as u16];
    array.resize(2 + LINES * width.div_ceil(16), 0);
    let (command, load, line) = match home {
        Home::Sheet => ([&[9, 0, 0], &array[..]].concat(), vec![], 19),
        Home::Load => (vec![10, 0, 0, 0, 0], array, 4),
        Home::Tile => (vec![4, 0, 0, 0], [&[0, 0, 0], &array[..]].concat(), 7),
        // The command names an array of one dot that stands before it.
        Home::LoadUnnamed => {
            let load = [&[1, 1, 0x8000], &array[..]].concat();
            (vec![10, 0, 0, 0, 0], load, 7)
        }
    };
    let herald = [0xAAAA, 1, 0, 600, 600, 1, 16, 1, 0xFFFF, 0, 1, 1, 1];
    let sheet = [&herald[..], &[command.len() as u16], &command].concat();
    let load = [&[load.len() as u16, 0], &load[..]].concat();
    ([bytes(&sheet), bytes(&load)], line)
}

/// Sets each bit of the lines alone; answers how often it was refused.
fn each_bit(home: Home, width: usize) -> usize {
    let (mut files, first_line) = film(home, width);
    let line_bits = 16 * width.div_ceil(16);
    let mut refused = 0;
    for bit in 0..LINES * line_bits {
        let file = &mut files[usize::from(home != Home::Sheet)];
        let (byte, mask) = (2 * first_line + bit / 8, 0x80 >> (bit % 8));
        file[byte] |= mask;
        let inputs = [&files[0][..], &files[1]];
        let is_padding = home != Home::LoadUnnamed && bit % line_bits >= width;
        let (check, draw) = (
            answer(Entry::FilmCheck, inputs, 0),
            answer(Entry::FilmDraw { page: 0, band: 0 }, inputs, 2),
        );
        let told = format!("{home:?}, {width} dots, bit {bit}");
        if is_padding {
            let expected = Answer::Refused(15, CODE);
            assert_eq!((check, draw), (expected, expected), "{told}");
            refused += 1;
        } else {
            assert_eq!(check, Answer::Done(1, 0), "{told}");
            assert!(matches!(draw, Answer::Done(1, _)), "{told}: {draw:?}");
        }
        files[usize::from(home != Home::Sheet)][byte] &= !mask;
    }
    refused
}

#[test]
fn one_bit_at_each_place() {
    for home in HOMES {
        for width in WIDTHS {
            let refused = each_bit(home, width);
            let padding = LINES * (16 * width.div_ceil(16) - width);
            let expected = if home == Home::LoadUnnamed {
                0
            } else {
                padding
            };
            assert_eq!(refused, expected, "{home:?}, {width} dots");
            println!("{home:?}, lines of {width} dots: {refused} bits refused");
        }
    }
}

/// An array in the load that many commands name is looked at for each: each is refused alone.
#[test]
fn named_by_many() {
    let load = bytes(&[6, 0, 1, 4, 0xF000, 1, 4, 0xF001]);
    for commands in 1..50 {
        for bad in 0..commands {
            let words: Vec<u16> = (0..commands)
                .flat_map(|i| [10, if i == bad { 3 } else { 0 }, 0, 0, 0])
                .collect();
            let herald = [0xAAAA, 1, 0, 600, 600, 1, 16, 1, 6, 0, 1, 1, 1];
            let sheet = bytes(&[&herald[..], &[words.len() as u16], &words].concat());
            let told = Answer::Refused(15, CODE + 5 * bad);
            assert_eq!(answer(Entry::FilmCheck, [&sheet, &load], 0), told);
        }
    }
}
