//! Writes the stored cases as inputs of the fuzzer, a folder for each target: seeds FOLDER.

use fuzz::common::cases::{case, FILM, GDI, P1, P5};
use fuzz::common::strip_cases::{self, STRIP};
use fuzz::common::Entry;
use fuzz::{film, gdi, strip};
use std::collections::BTreeSet;
use std::fs;
use std::path::Path;

/// By how many bytes a buffer is longer than it should be, as a signed byte.
fn longer(length: usize, should: usize) -> i8 {
    let difference = length as i64 - should as i64;
    difference.clamp(i8::MIN.into(), i8::MAX.into()) as i8
}

fn main() {
    let folder = std::env::args_os().nth(1).expect("a folder for the seeds");
    let mut seeds: [(&str, BTreeSet<Vec<u8>>); 5] = [
        "film_check",
        "film_draw",
        "gdi_check",
        "gdi_read_line",
        "strip_receive",
    ]
    .map(|target| (target, BTreeSet::new()));
    let films = FILM.lines().chain(P1.lines()).chain(P5.lines());
    for line in films.chain(GDI.lines()) {
        let case = case(line).expect("a case that can be read");
        let [first, second] = &case.inputs;
        let [film_checks, film_draws, gdi_checks, gdi_lines, _] = &mut seeds;
        match case.entry {
            Entry::FilmCheck => {
                film_checks.1.extend(film::check_seeds(first, second));
                film_draws
                    .1
                    .extend(film::draw_seeds(first, second, 0, 0, 0));
            }
            Entry::FilmDraw { page, band } => {
                film_checks.1.extend(film::check_seeds(first, second));
                film_draws
                    .1
                    .extend(film::draw_seeds(first, second, page, band, 0));
                film_draws
                    .1
                    .extend(film::draw_seeds(first, second, page, band, -1));
            }
            Entry::GdiCheck => gdi_checks.1.extend(gdi::check_seeds(first)),
            Entry::GdiReadLine {
                offset,
                left,
                width,
            } => {
                gdi_checks.1.extend(gdi::check_seeds(first));
                let other = longer(case.buffer.len(), width.div_ceil(8));
                gdi_lines
                    .1
                    .extend(gdi::read_line_seeds(first, offset, left, width, other));
            }
            _ => {}
        }
    }
    let strips = &mut seeds[4].1;
    for line in STRIP.lines() {
        let case = strip_cases::case(line).expect("a case that can be read");
        strips.extend(strip::receive_seeds(&case.ops));
    }
    strips.extend(strip::page_seeds());
    for (target, inputs) in seeds {
        let folder = Path::new(&folder).join(target);
        fs::create_dir_all(&folder).expect("a folder for the target");
        for (number, input) in inputs.iter().enumerate() {
            fs::write(folder.join(format!("{number:04}")), input).expect("a seed is written");
        }
        println!("{target}: {} seeds", inputs.len());
    }
}
