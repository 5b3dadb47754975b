use super::{bytes, load, picture, sheet, NO_LOAD};
use crate::{film_check, film_draw, Answer};

#[test]
fn starred_masks() {
    // R, R0, T1, T2, T3.
    assert_eq!(
        picture(4, 8, &[5, 1, 2, 1, 3], &NO_LOAD),
        [0, 0x7000, 0x7000, 0]
    );
    assert_eq!(picture(2, 8, &[5, 0, 2, 1, 0], &NO_LOAD), [0, 0]);
    assert_eq!(picture(2, 8, &[5, 0, 0, 1, 3], &NO_LOAD), [0, 0]);
    assert_eq!(
        picture(3, 8, &[6, 0, 3, 0, 2, 3, 2], &NO_LOAD),
        [0xC000, 0x3000, 0x1800]
    );
    assert_eq!(
        picture(3, 8, &[6, 0, 3, 3, 1, 0, 1], &NO_LOAD),
        [0x1000, 0x2000, 0x8000]
    );
    assert_eq!(
        picture(2, 16, &[6, 0, 1, 1, 3, 9, 9], &NO_LOAD),
        [0x7000, 0]
    );
}

#[test]
fn listing() {
    let words = [
        0xAAAA, 1, 0, 0x258, 0x258, 4, 0x10, 2, 0, 0, 1, 1, 2, 5, 5, 1, 2, 1, 3, 5, 5, 1, 2, 1, 3,
    ];
    let listed = bytes(&words);
    assert_eq!(film_check(&listed, &NO_LOAD), Answer::Done(1, 0));
    let mut rows = [0xFF; 4];
    assert_eq!(
        film_draw(&listed, &NO_LOAD, 0, 0, &mut rows),
        Answer::Done(2, 3)
    );
    assert_eq!(rows, [0, 0, 0x70, 0]);
    assert_eq!(
        film_draw(&listed, &NO_LOAD, 0, 1, &mut rows),
        Answer::Done(2, 3)
    );
    assert_eq!(rows, [0x70, 0, 0, 0]);
    // "refused 7 at 14".
    let mut wrong = words;
    wrong[14] = 0;
    assert_eq!(film_check(&bytes(&wrong), &NO_LOAD), Answer::Refused(7, 14));
}

#[test]
fn trapezoids() {
    // No rows; one row, cut by the film's end, and of no dots; begun in a point; far past 65,535 on
    // the film's right.
    assert_eq!(picture(2, 16, &[6, 0, 0, 1, 3, 1, 3], &NO_LOAD), [0, 0]);
    assert_eq!(
        picture(3, 16, &[6, 1, 1, 14, 0xFFFF, 0, 0], &NO_LOAD),
        [0, 3, 0]
    );
    assert_eq!(picture(2, 16, &[6, 0, 1, 1, 0, 0, 16], &NO_LOAD), [0, 0]);
    assert_eq!(
        picture(3, 16, &[6, 0, 3, 2, 0, 0, 4], &NO_LOAD),
        [0, 0x6000, 0xF000]
    );
    assert_eq!(
        picture(2, 16, &[6, 0, 2, 0, 0xFFFF, 0xFFFF, 0xFFFF], &NO_LOAD),
        [0xFFFF, 0]
    );
    // Edges of thirds: b is 0, 1/3, 2/3, 1 and t is 1, 4/3, 5/3, 2.
    assert_eq!(
        picture(4, 16, &[6, 0, 4, 0, 1, 1, 1], &NO_LOAD),
        [0x8000, 0x4000, 0x4000, 0x4000]
    );
    // And back: b is 1, 2/3, 1/3, 0.
    assert_eq!(
        picture(4, 16, &[6, 0, 4, 1, 1, 0, 1], &NO_LOAD),
        [0x4000, 0x4000, 0x4000, 0x8000]
    );
}

#[test]
fn sums_never_wrap() {
    assert_eq!(
        picture(2, 16, &[5, 1, 0xFFFF, 15, 0xFFFF], &NO_LOAD),
        [0, 1]
    );
    assert_eq!(
        picture(2, 16, &[5, 0xFFFF, 0xFFFF, 0xFFFF, 0xFFFF], &NO_LOAD),
        [0, 0]
    );
}

#[test]
fn spare_bits_stay_clear() {
    let rows = picture(1, 17, &[5, 0, 1, 0, 99], &NO_LOAD);
    assert_eq!(rows, [0xFFFF_8000]);
}

#[test]
fn runs_and_samples() {
    // Two lines; the first has a run of no dots and two that overlap.
    let group = [2, 3, 0, 1, 3, 2, 0x8004, 0, 0x8001];
    let mut commands = vec![7, 1];
    commands.extend(group);
    assert_eq!(picture(4, 16, &commands, &NO_LOAD), [0, 0x7C00, 0x8000, 0]);
    let mut words = vec![9];
    words.extend(group);
    assert_eq!(
        picture(4, 16, &[8, 1, 0, 2], &load(&words)),
        [0, 0, 0x7C00, 0x8000]
    );
    assert_eq!(
        picture(3, 16, &[9, 1, 2, 1, 3, 0xA000], &NO_LOAD),
        [0, 0x2800, 0]
    );
    assert_eq!(
        picture(3, 16, &[10, 0, 0, 1, 2], &load(&[1, 3, 0xA000])),
        [0, 0x2800, 0]
    );
}

#[test]
fn tiles() {
    // A tile of two lines and three dots, 100 and 011, from (1, 2), each repeat one dot further.
    let tile = load(&[1, 1, 2, 2, 3, 0x8000, 0x6000]);
    let all = [5, 0, 5, 0, 16];
    let mut opaque = vec![4, 0, 0, 0];
    opaque.extend(all);
    let rows = [
        0,
        0b0010_0100_1001_0010,
        0b0001_1011_0110_1101,
        0b0001_0010_0100_1001,
        0b0000_1101_1011_0110,
    ];
    assert_eq!(picture(5, 16, &opaque, &tile), rows);
    // On ink: an opaque tile clears where C is 0, also off its corner; a transparent one never.
    let mut on_ink = all.to_vec();
    on_ink.extend(&opaque);
    assert_eq!(picture(5, 16, &on_ink, &tile), rows);
    on_ink[6] = 1;
    assert_eq!(picture(5, 16, &on_ink, &tile), [0xFFFF; 5]);
    // Ink is opaque again after a tile; clear clears.
    let mut then = opaque.clone();
    then.extend([2, 5, 0, 1, 0, 4, 3, 5, 1, 1, 0, 4]);
    assert_eq!(picture(2, 16, &then, &tile), [0xF000, rows[1] & 0x0FFF]);
}

#[test]
fn colour_and_priority_are_not_carried() {
    let band: &[u16] = &[5, 0, 2, 0, 4, 1, 5, 0, 3];
    let two = sheet(2, 16, 1, &[band, band]);
    assert_eq!(film_check(&two, &NO_LOAD), Answer::Done(1, 0));
    let mut row = [0; 2];
    assert_eq!(
        film_draw(&two, &NO_LOAD, 0, 1, &mut row),
        Answer::Done(1, 4)
    );
    assert_eq!(row, [0xF0, 0]);
}
