//! Writes a sample tolerance film: a sheet of two pages, and its load.
//!
//!     cargo run -p printbox-tool --example sample_film -- film.sheet film.load
//!
//! Page 0 is for a pallet stone, page 1 for a tooth of an escape wheel, both fifty times as large.
//! A part passes when the edge of its shadow stays in the hatched zone between the limit lines.

mod film;
mod font;
mod geometry;
mod load;
mod page;
mod parts;

use film::Film;
use geometry::{DOTS_PER_INCH, IMAGE_F_SIZE, IMAGE_S_SIZE};
use load::long;
use page::{Page, BAND_S_SIZE};
use std::{env, fs, process};

/// The sheet of these pages, with a load of so many words at most.
fn sheet(pages: &[Page], load_words: usize) -> Vec<u16> {
    let [low, high] = long(load_words);
    let mut sheet = vec![0xAAAA, 1, 0, DOTS_PER_INCH, DOTS_PER_INCH];
    sheet.extend([IMAGE_S_SIZE, IMAGE_F_SIZE, BAND_S_SIZE, low, high, 1]);
    sheet.push(pages.len() as u16);
    for page in pages {
        sheet.push(IMAGE_S_SIZE.div_ceil(BAND_S_SIZE));
        for first in (0..IMAGE_S_SIZE).step_by(BAND_S_SIZE.into()) {
            let commands = page.band(first);
            sheet.push(commands.len() as u16);
            sheet.extend(commands);
        }
    }
    sheet
}

fn write(path: &str, words: &[u16]) {
    let bytes: Vec<u8> = words.iter().flat_map(|word| word.to_be_bytes()).collect();
    if let Err(error) = fs::write(path, bytes) {
        eprintln!("sample_film: {path}: {error}");
        process::exit(2);
    }
}

fn main() {
    let paths: Vec<String> = env::args().skip(1).collect();
    let [sheet_path, load_path] = &paths[..] else {
        eprintln!("usage: sample_film SHEET LOAD");
        process::exit(2);
    };
    let mut film = Film::new();
    let mut pages = [
        parts::pallet_stone(&mut film),
        parts::escape_tooth(&mut film),
    ];
    film.frame(&mut pages[0], "PALLET STONE", "FILM 0417-0");
    film.frame(&mut pages[1], "ESCAPE WHEEL TOOTH", "FILM 0417-1");
    write(sheet_path, &sheet(&pages, film.load.0.len()));
    let count = long(film.load.0.len());
    write(load_path, &[&count, &film.load.0[..]].concat());
}
