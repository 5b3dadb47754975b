//! Inputs of a small size: they pass the check, and library, reference and peers agree on them.

use crate::clock::{race, Who};
use crate::draws::{self, blank, differing_trapezoids, draw, draw_reference, drawn};
use crate::ffi::{self, Bits, Rectangles};
use crate::filter::{self, Raster};
use crate::peers::{self, Corners};
use crate::sheet::{Film, Size, BAND_LINES};
use crate::subjects::{Entry, Scale};
use crate::{inputs, jobs};
use printbox::{film, FILE_BYTES};
use reference::Answer;

/// Pages of several bands and cells; of one whole cell; and within one.
const SIZES: [Size; 4] = [
    Size {
        width: 730,
        height: 260,
    },
    Size {
        width: 238,
        height: 119,
    },
    Size {
        width: 299,
        height: 200,
    },
    Size {
        width: 61,
        height: 30,
    },
];

fn films(size: Size) -> [Film; 4] {
    [
        inputs::rectangle_film(size),
        inputs::trapezoid_film(size),
        inputs::run_film(size),
        inputs::sample_film(size),
    ]
}

#[test]
fn films_are_drawn_alike() {
    for size in SIZES {
        for film in films(size) {
            assert_eq!(film::check(&film.sheet, &film.load), Ok(1));
            let (mut page, mut other) = (blank(size), vec![0xEE; blank(size).len()]);
            let dots = draw(&film, &mut page);
            assert_eq!(dots, draw_reference(&film, &mut other));
            assert!(page == other, "{size:?}");
            let ones: u32 = page.iter().map(|byte| byte.count_ones()).sum();
            assert_eq!(dots, ones as usize);
        }
    }
    // The largest has ink in a plausible share, in its last band too.
    for film in films(SIZES[0]) {
        let page = drawn(&film);
        let dots = draw(&film, &mut blank(film.size));
        assert!((10..50).contains(&(dots * 100 / film.size.dots())));
        let last = &page[2 * BAND_LINES * film.size.row_bytes()..];
        assert!(last.iter().any(|&byte| byte != 0));
    }
}

#[test]
fn inputs_are_the_same_at_every_call() {
    for (one, other) in films(SIZES[0]).iter().zip(films(SIZES[0])) {
        assert!(one.sheet == other.sheet && one.load == other.load);
    }
}

/// Sheets for the check have the length that was asked for, and pass.
#[test]
fn sheets_for_the_check() {
    let size = SIZES[0];
    for make in [inputs::mixed_film, inputs::padded_film] {
        for (length, pages) in [(20_000, 1), (20_002, 1), (65_536, 2), (131_072, 3)] {
            let film = make(length, pages, size);
            assert_eq!(film.sheet.len(), length);
            assert_eq!(film::check(&film.sheet, &film.load), Ok(pages));
            assert_eq!(
                reference::film_check(&film.sheet, &film.load),
                Answer::Done(pages as u64, 0)
            );
        }
        for (scale, part, pages) in [
            (Scale::Full, 1, 4),
            (Scale::Quarter, 4, 1),
            (Scale::Sixteenth, 16, 1),
        ] {
            let film = scale.sheet(make);
            assert_eq!(film.sheet.len(), FILE_BYTES / part);
            assert_eq!(film::check(&film.sheet, &film.load), Ok(pages));
        }
    }
}

/// Of a sheet of samples every word of an array is the last of a line, and its last bit is padding.
#[test]
fn padded_sheets() {
    let mut film = inputs::padded_film(20_000, 1, SIZES[0]);
    let last = film.sheet.len() - 1;
    film.sheet[last] |= 1;
    let refusal = film::check(&film.sheet, &film.load).expect_err("a padding bit");
    assert_eq!(refusal.number, 15);
}

/// A sheet for the check can be drawn too, as the reference draws it.
#[test]
fn mixed_sheets_are_drawn_alike() {
    let film = inputs::mixed_film(6000, 1, SIZES[3]);
    let (mut page, mut other) = (blank(film.size), blank(film.size));
    assert_eq!(draw(&film, &mut page), draw_reference(&film, &mut other));
    assert!(page == other);
}

#[test]
fn jobs_are_written_and_read_alike() {
    for size in SIZES {
        let (rows, _) = jobs::rows(size);
        let (mut job, mut other) = (vec![0; jobs::room(size)], vec![0; jobs::room(size)]);
        let length = jobs::write_library(size, &rows, &mut job);
        assert_eq!(length, jobs::write_reference(size, &rows, &mut other));
        assert!(job == other, "{size:?}");
        job.truncate(length);
        let (mut read, mut other) = (vec![0; rows.len()], vec![0; rows.len()]);
        let end = jobs::read_library(size, &job, &mut read);
        assert_eq!(end, jobs::read_reference(size, &job, &mut other));
        assert_eq!(end, length - 12);
        assert!(read == rows && other == rows, "{size:?}");
    }
}

#[test]
fn pixman_draws_alike() {
    if peers::PIXMAN.is_none() {
        return println!("skipped: pixman is not installed");
    }
    for size in SIZES {
        let mut bits = Bits::new(size);
        let list = Rectangles::new(size, &inputs::rectangles(size));
        ffi::pixman_rectangles(&mut bits, &list);
        let film = inputs::rectangle_film(size);
        assert!(peers::film_rows(&bits) == drawn(&film), "{size:?}");
        let film = inputs::trapezoid_film(size);
        assert_eq!(differing_trapezoids(&film, Corners::Moved), 0, "{size:?}");
    }
    let film = inputs::trapezoid_film(SIZES[0]);
    assert_ne!(differing_trapezoids(&film, Corners::Plain), 0);
}

#[test]
fn libtiff_reads_what_it_writes() {
    if peers::LIBTIFF.is_none() {
        return println!("skipped: libtiff is not installed");
    }
    for size in SIZES {
        // The rows are held against those that are read.
        let file = jobs::tiff_file(size, &jobs::rows(size).0);
        assert!(file.starts_with(b"II") || file.starts_with(b"MM"));
    }
}

#[test]
fn filter_writes_the_rows() {
    let Some(path) = filter::installed().expect("a filter that is named is there") else {
        return println!("skipped: the filter is not installed");
    };
    let size = SIZES[3];
    let (rows, _) = jobs::rows(size);
    let raster = Raster::new("test", size.width, &rows);
    filter::hold(&filter::job(&path, &raster), size.width, &rows);
}

/// The subjects as the program runs them, but for their size and rounds.
#[test]
fn subjects() {
    let size = SIZES[2];
    let mut linked = vec![Who::Library, Who::Reference, Who::Memory];
    let timed = |mut entry: Entry| {
        let times = race(&mut entry.competitors, 2);
        assert!(times
            .iter()
            .all(|times| times.rounds.iter().all(Option::is_some)));
        times.iter().map(|times| times.who).collect::<Vec<Who>>()
    };

    let entry = draws::check(inputs::mixed_film(20_000, 1, size));
    assert_eq!(entry.input.units(), 20_000);
    assert_eq!(timed(entry), linked);
    let entry = draws::page(inputs::run_film(size), Vec::new());
    assert_eq!(entry.input.units(), 299 * 200);
    assert_eq!(timed(entry), linked);

    linked.extend(peers::PIXMAN.map(|_| Who::Pixman));
    assert_eq!(timed(draws::rectangles(size)), linked);
    assert_eq!(timed(draws::trapezoids(size)), linked);

    linked.truncate(3);
    linked.extend(peers::LIBTIFF.map(|_| Who::Libtiff));
    assert_eq!(timed(jobs::write(size, None)), linked);
    assert_eq!(timed(jobs::read(size)), linked);
}
