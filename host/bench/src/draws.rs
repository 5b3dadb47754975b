//! The check of a sheet and the draws of pages.

use crate::clock::{Competitor, Who};
use crate::ffi::{self, Bits, Rectangles};
use crate::peers::{self, Corners};
use crate::sheet::{Film, Size, BAND_LINES};
use crate::subjects::{Entry, Input};
use crate::table::grouped;
use crate::{inputs, memory};
use printbox::film;
use reference::Answer;
use std::hint::black_box;
use std::rc::Rc;

/// The check of a sheet, whose answer is the number of pages.
pub fn check(film: Film) -> Entry {
    let input = Input {
        bytes: film.sheet.len(),
        commands: Some(film.commands),
        dots: None,
    };
    let [film, second, third] = shared(film);
    let library = move |_: &mut Vec<u8>| check_library(&film);
    let reference = move |_: &mut Vec<u8>| check_reference(&second);
    let pass = move |_: &mut Vec<u8>| memory::sum(black_box(&third.sheet)) as usize;
    let mut competitors = vec![
        Competitor::new(Who::Library, Vec::new(), library),
        Competitor::new(Who::Reference, Vec::new(), reference),
        Competitor::new(Who::Memory, Vec::new(), pass),
    ];
    assert_eq!(competitors[0].once(), competitors[1].once(), "the pages");
    Entry {
        input,
        competitors,
        seen: Vec::new(),
    }
}

pub fn check_library(film: &Film) -> usize {
    film::check(&film.sheet, &film.load).expect("a sheet that passes the check")
}

pub fn check_reference(film: &Film) -> usize {
    match reference::film_check(&film.sheet, &film.load) {
        Answer::Done(pages, 0) => pages as usize,
        other => panic!("the reference checks the sheet: {other:?}"),
    }
}

/// One for each competitor.
pub fn shared<T, const N: usize>(one: T) -> [Rc<T>; N] {
    let one = Rc::new(one);
    std::array::from_fn(|_| Rc::clone(&one))
}

/// The bands of a page, each at its place among the page's bytes.
fn bands(size: Size, page: &mut [u8]) -> impl Iterator<Item = (usize, &mut [u8])> {
    page.chunks_mut(BAND_LINES * size.row_bytes()).enumerate()
}

/// Draws all bands of the page and answers its dots.
pub fn draw(film: &Film, page: &mut [u8]) -> usize {
    bands(film.size, page)
        .map(|(band, rows)| {
            let drawn = film::draw(&film.sheet, &film.load, 0, band, rows);
            drawn.expect("a sheet that passes the check").dots
        })
        .sum()
}

/// The same by the reference.
pub fn draw_reference(film: &Film, page: &mut [u8]) -> usize {
    bands(film.size, page)
        .map(
            |(band, rows)| match reference::film_draw(&film.sheet, &film.load, 0, band, rows) {
                Answer::Done(_, dots) => dots as usize,
                other => panic!("the reference draws band {band}: {other:?}"),
            },
        )
        .sum()
}

/// An empty page for a film.
pub fn blank(size: Size) -> Vec<u8> {
    vec![0; size.row_bytes() * size.height]
}

/// The draw of a page beside these peers.
pub fn page(film: Film, peers: Vec<Competitor>) -> Entry {
    assert_eq!(check_library(&film), 1);
    let [film, first, second] = shared(film);
    let blank = || blank(film.size);
    let mut competitors = vec![
        Competitor::new(Who::Library, blank(), move |page| draw(&first, page)),
        Competitor::new(Who::Reference, blank(), move |page| {
            draw_reference(&second, page)
        }),
        Competitor::new(Who::Memory, blank(), |page| memory::fill_and_count(page)),
    ];
    competitors.extend(peers);
    let dots = competitors[0].once();
    assert_eq!(dots, competitors[1].once(), "the reference's dots");
    assert!(
        competitors[0].output == competitors[1].output,
        "the reference's rows"
    );
    Entry {
        input: Input {
            bytes: film.sheet.len(),
            commands: Some(film.commands),
            dots: Some((film.size.dots(), dots)),
        },
        competitors,
        seen: Vec::new(),
    }
}

/// The page that the library draws.
pub fn drawn(film: &Film) -> Vec<u8> {
    let mut page = blank(film.size);
    draw(film, &mut page);
    page
}

/// The page of rectangles, which pixman fills on its page.
pub fn rectangles(size: Size) -> Entry {
    let film = inputs::rectangle_film(size);
    if peers::PIXMAN.is_none() {
        return page(film, Vec::new());
    }
    let list = Rectangles::new(size, &inputs::rectangles(size));
    let mut bits = Bits::new(size);
    ffi::pixman_rectangles(&mut bits, &list);
    assert!(
        peers::film_rows(&bits) == drawn(&film),
        "pixman's rectangles"
    );
    let pixman = Competitor::new(Who::Pixman, Vec::new(), move |_| {
        ffi::pixman_rectangles(&mut bits, &list);
        0
    });
    page(film, vec![pixman])
}

/// The page of trapezoids, which pixman draws on its page.
pub fn trapezoids(size: Size) -> Entry {
    let film = inputs::trapezoid_film(size);
    if peers::PIXMAN.is_none() {
        return page(film, Vec::new());
    }
    let [moved, plain] = [Corners::Moved, Corners::Plain]
        .map(|corners| grouped(differing_trapezoids(&film, corners)));
    let seen = format!(
        "Of the trapezoid page's {} dots pixman gives {moved} another value than the library where \
         the corners are moved by half a dot, as they are when it is timed, and {plain} where they \
         are not.",
        grouped(size.dots()),
    );
    let list = peers::pixman_trapezoids(&inputs::trapezoids(size), Corners::Moved);
    let mut bits = Bits::new(size);
    let pixman = Competitor::new(Who::Pixman, Vec::new(), move |_| {
        ffi::pixman_trapezoids(&mut bits, &list);
        0
    });
    let mut entry = page(film, vec![pixman]);
    entry.seen.push(seen);
    entry
}

/// How many dots of the film of trapezoids pixman draws otherwise.
pub fn differing_trapezoids(film: &Film, corners: Corners) -> usize {
    let list = peers::pixman_trapezoids(&inputs::trapezoids(film.size), corners);
    let mut bits = Bits::new(film.size);
    ffi::pixman_trapezoids(&mut bits, &list);
    let pairs = peers::film_rows(&bits).into_iter().zip(drawn(film));
    pairs.map(|(a, b)| (a ^ b).count_ones() as usize).sum()
}
