use super::{bytes, load, sheet, NO_LOAD};
use crate::{film_check, film_draw, Answer};

const HERALD: [u16; 12] = [0xAAAA, 1, 0, 0, 0, 4, 16, 2, 0, 0, 1, 1];

/// The check's answer to the herald with some words changed.
fn herald(changes: &[(usize, u16)], load: &[u8]) -> Answer {
    let mut words = HERALD;
    for (place, word) in changes {
        words[*place] = *word;
    }
    film_check(&bytes(&words), load)
}

/// The check's answer to one band with these commands.
fn commands(words: &[u16], load_words: &[u16]) -> Answer {
    film_check(&sheet(4, 16, 4, &[words]), &load(load_words))
}

#[test]
fn before_the_walk() {
    let good = bytes(&HERALD);
    assert_eq!(film_check(&good, &[0; 3]), Answer::Refused(1, 0));
    assert_eq!(film_check(&good[..23], &[]), Answer::Refused(1, 0));
    assert_eq!(film_check(&good[..22], &[]), Answer::Refused(2, 0));
    assert_eq!(film_check(&good, &[]), Answer::Refused(4, 8));
    assert_eq!(film_check(&good, &NO_LOAD), Answer::Refused(6, 12));
    assert_eq!(herald(&[(0, 0x5555), (1, 2)], &[]), Answer::Refused(2, 0));
    assert_eq!(herald(&[(1, 2)], &[]), Answer::Refused(2, 1));
    assert_eq!(herald(&[(5, 0)], &[]), Answer::Refused(3, 5));
    assert_eq!(herald(&[(5, 32_769)], &[]), Answer::Refused(3, 5));
    assert_eq!(herald(&[(6, 0), (7, 0)], &[]), Answer::Refused(3, 6));
    assert_eq!(herald(&[(6, 32_769)], &[]), Answer::Refused(3, 6));
    assert_eq!(herald(&[(7, 0)], &[]), Answer::Refused(3, 7));
    assert_eq!(herald(&[(7, 5), (10, 0)], &[]), Answer::Refused(3, 7));
    assert_eq!(herald(&[(10, 0)], &[]), Answer::Refused(3, 10));
    // Band bytes: 16 · 4096 is the limit, and copies come before them.
    let wide = [(5, 17), (6, 32_768), (7, 17)];
    assert_eq!(herald(&wide, &[]), Answer::Refused(3, 7));
    let limit = [(5, 17), (6, 32_768), (7, 16)];
    assert_eq!(herald(&limit, &[]), Answer::Refused(4, 8));
    let no_copies = [(5, 17), (6, 32_768), (7, 17), (10, 0)];
    assert_eq!(herald(&no_copies, &[]), Answer::Refused(3, 10));
    // The count is not the length; over maxLoadWords; never wraps.
    assert_eq!(herald(&[(8, 9)], &bytes(&[1, 0])), Answer::Refused(4, 8));
    assert_eq!(herald(&[], &load(&[7])), Answer::Refused(4, 8));
    assert_eq!(herald(&[(8, 1)], &load(&[7])), Answer::Refused(6, 12));
    let wrapping = bytes(&[0xFFFF, 0xFFFF]);
    let all = [(8, 0xFFFF), (9, 0xFFFF)];
    assert_eq!(herald(&all, &wrapping), Answer::Refused(4, 8));
    assert_eq!(herald(&[(11, 0)], &NO_LOAD), Answer::Refused(5, 11));
}

#[test]
fn length_limit() {
    let mut long = bytes(&HERALD);
    long.extend(bytes(&[2, 0, 0]));
    long.resize(16_777_216, 0);
    assert_eq!(film_check(&long, &NO_LOAD), Answer::Refused(10, 15));
    let mut row = [9; 4];
    assert_eq!(
        film_draw(&long, &NO_LOAD, 0, 1, &mut row),
        Answer::Done(2, 0)
    );
    assert_eq!(row, [0; 4]);
    long.resize(16_777_218, 0);
    assert_eq!(film_check(&long, &NO_LOAD), Answer::Refused(1, 0));
    let drawn = film_draw(&long, &NO_LOAD, usize::MAX, 0, &mut row);
    assert_eq!(drawn, Answer::Refused(1, 0));
}

#[test]
fn the_walk() {
    let walk = |rest: &[u16]| {
        let mut words = HERALD.to_vec();
        words.extend(rest);
        film_check(&bytes(&words), &NO_LOAD)
    };
    assert_eq!(walk(&[3]), Answer::Refused(5, 12));
    assert_eq!(walk(&[2]), Answer::Refused(6, 13));
    assert_eq!(walk(&[2, 0]), Answer::Refused(6, 14));
    assert_eq!(walk(&[2, 0, 0]), Answer::Done(1, 0));
    assert_eq!(walk(&[2, 0, 0, 0]), Answer::Refused(10, 15));
    assert_eq!(walk(&[2, 2, 99]), Answer::Refused(6, 13));
    assert_eq!(walk(&[2, 1, 99, 0]), Answer::Refused(7, 14));
    assert_eq!(walk(&[2, 1, 2, 1, 3]), Answer::Done(1, 0));
}

#[test]
fn in_one_command() {
    assert_eq!(commands(&[0], &[]), Answer::Refused(7, 14));
    assert_eq!(commands(&[11], &[]), Answer::Refused(7, 14));
    assert_eq!(commands(&[0x0102], &[]), Answer::Refused(7, 14));
    assert_eq!(commands(&[2, 1, 0], &[]), Answer::Refused(6, 15));
    assert_eq!(commands(&[1, 0xFFFF, 255], &[]), Answer::Done(1, 0));
    assert_eq!(commands(&[1, 0, 256], &[]), Answer::Refused(8, 16));
    assert_eq!(commands(&[1, 5, 1, 1, 5, 1], &[]), Answer::Done(1, 0));
    assert_eq!(commands(&[1, 5, 1, 1, 9, 0], &[]), Answer::Refused(8, 18));
    // A cut command is 6 before 13, and a tile's mode comes before the load.
    assert_eq!(commands(&[4, 2, 0], &[]), Answer::Refused(6, 14));
    assert_eq!(commands(&[4, 2, 9, 9], &[]), Answer::Refused(13, 15));
    assert_eq!(commands(&[6, 0, 1, 0, 0, 0], &[]), Answer::Refused(6, 14));
    let one_row = [2, 6, 0, 1, 0, 0, 0, 0];
    assert_eq!(commands(&one_row, &[]), Answer::Done(1, 0));
    // Groups and arrays of the sheet.
    assert_eq!(commands(&[7, 0], &[]), Answer::Refused(6, 14));
    assert_eq!(commands(&[7, 0, 0], &[]), Answer::Done(1, 0));
    assert_eq!(commands(&[7, 0, 1, 5, 5], &[]), Answer::Refused(6, 14));
    assert_eq!(commands(&[7, 0, 1, 5, 5, 5], &[]), Answer::Refused(6, 14));
    assert_eq!(commands(&[7, 0, 1, 5, 0x8000], &[]), Answer::Done(1, 0));
    assert_eq!(commands(&[9, 0, 0, 0xFFFF, 0], &[]), Answer::Done(1, 0));
    assert_eq!(commands(&[9, 0, 0, 1, 17, 0], &[]), Answer::Refused(6, 14));
    assert_eq!(commands(&[9, 0, 0, 1, 17, 0, 0], &[]), Answer::Done(1, 0));
    // Groups, arrays and tiles of the load.
    assert_eq!(commands(&[8, 0, 0, 0], &[]), Answer::Refused(9, 14));
    assert_eq!(commands(&[8, 1, 0, 0], &[0]), Answer::Refused(9, 14));
    assert_eq!(commands(&[8, 0, 0, 0], &[0]), Answer::Done(1, 0));
    assert_eq!(commands(&[8, 0, 0], &[]), Answer::Refused(6, 14));
    let top = [10, 0xFFFF, 0xFFFF, 0, 0];
    assert_eq!(commands(&top, &[0, 0]), Answer::Refused(9, 14));
    assert_eq!(commands(&[10, 0, 0, 0, 0], &[5, 0]), Answer::Done(1, 0));
    assert_eq!(commands(&[10, 0, 0, 0, 0], &[1, 1]), Answer::Refused(9, 14));
    let tile = [4, 1, 0, 0];
    assert_eq!(commands(&tile, &[0, 0, 0, 1, 1, 0]), Answer::Done(1, 0));
    assert_eq!(commands(&tile, &[0, 0, 0, 1, 1]), Answer::Refused(9, 14));
    assert_eq!(commands(&tile, &[0, 0, 0, 0, 1, 0]), Answer::Refused(9, 14));
    assert_eq!(commands(&tile, &[0, 0, 0, 1, 0, 0]), Answer::Refused(9, 14));
    let high = [4, 0, 0xFFFF, 0xFFFF];
    assert_eq!(commands(&high, &[0; 9]), Answer::Refused(9, 14));
}

#[test]
fn padding() {
    let refused = Answer::Refused(15, 14);
    let samples = |array: &[u16]| commands(&[&[9, 0, 0], array].concat(), &[]);
    assert_eq!(samples(&[1, 4, 0xF001]), refused);
    assert_eq!(samples(&[1, 4, 0x0800]), refused);
    assert_eq!(samples(&[1, 4, 0xF000]), Answer::Done(1, 0));
    assert_eq!(samples(&[1, 16, 0xFFFF]), Answer::Done(1, 0));
    assert_eq!(samples(&[2, 17, 0xFFFF, 0x8000, 0, 0x4000]), refused);
    assert_eq!(samples(&[1, 17, 0xFFFF, 0x8000]), Answer::Done(1, 0));
    assert_eq!(samples(&[2, 4, 0xF001]), Answer::Refused(6, 14));
    // Where it is painted does not matter.
    assert_eq!(commands(&[9, 9, 99, 1, 4, 0xF001], &[]), refused);
    // In the load, where a command names it.
    let load = [1, 4, 0xF000, 0, 0, 0, 1, 4, 0xF001, 2, 4, 0xF001];
    assert_eq!(commands(&[10, 0, 0, 0, 0], &load), Answer::Done(1, 0));
    assert_eq!(commands(&[10, 6, 0, 0, 0], &load), refused);
    assert_eq!(commands(&[10, 9, 0, 0, 0], &load), Answer::Refused(9, 14));
    assert_eq!(commands(&[4, 0, 3, 0], &load), refused);
    assert_eq!(commands(&[4, 2, 3, 0], &load), Answer::Refused(13, 15));
    assert_eq!(commands(&[4, 0, 6, 0], &load), Answer::Refused(9, 14));
}

#[test]
fn draw_order() {
    let drawn = |words: &[u16], page, band, room: usize| {
        let mut all = HERALD.to_vec();
        all.extend(words);
        let mut buffer = vec![0xA5; room];
        let answer = film_draw(&bytes(&all), &NO_LOAD, page, band, &mut buffer);
        if let Answer::Refused(..) = answer {
            assert!(buffer.iter().all(|byte| *byte == 0xA5));
        }
        answer
    };
    // 11 and 12 before any fault of the walk; the band's number is held against the herald.
    assert_eq!(drawn(&[9], 1, 0, 0), Answer::Refused(11, 0));
    assert_eq!(drawn(&[9], 0, 2, 0), Answer::Refused(11, 0));
    assert_eq!(
        drawn(&[9], usize::MAX, usize::MAX, 0),
        Answer::Refused(11, 0)
    );
    assert_eq!(drawn(&[9], 0, 1, 3), Answer::Refused(12, 0));
    assert_eq!(drawn(&[9], 0, 1, 4), Answer::Refused(5, 12));
    // An earlier band: its extent counts, its commands do not.
    assert_eq!(drawn(&[2, 9, 0], 0, 1, 4), Answer::Refused(6, 13));
    assert_eq!(drawn(&[2, 1, 99, 0], 0, 1, 4), Answer::Done(2, 0));
    assert_eq!(drawn(&[2, 1, 99, 0], 0, 0, 4), Answer::Refused(7, 14));
    // A fault of its own in the last command; later counts are not looked at.
    assert_eq!(
        drawn(&[2, 6, 5, 0, 9, 0, 9, 0, 0], 0, 0, 4),
        Answer::Refused(7, 19)
    );
    assert_eq!(
        drawn(&[2, 5, 5, 0, 9, 0, 9, 0xFFFF], 0, 0, 5),
        Answer::Done(2, 18)
    );
    assert_eq!(drawn(&[2, 0], 0, 1, 4), Answer::Refused(6, 14));
}

#[test]
fn a_partial_last_band() {
    let sheet = sheet(5, 16, 3, &[&[], &[5, 4, 1, 0, 16]]);
    let mut buffer = [0x11; 5];
    assert_eq!(
        film_draw(&sheet, &NO_LOAD, 0, 0, &mut buffer),
        Answer::Refused(12, 0)
    );
    assert_eq!(
        film_draw(&sheet, &NO_LOAD, 0, 1, &mut buffer),
        Answer::Done(2, 16)
    );
    assert_eq!(buffer, [0, 0, 0xFF, 0xFF, 0x11]);
}
