//! The two parts: a pallet stone and a tooth of an escape wheel.

use crate::film::Film;
use crate::geometry::{between, column, distance, place, polar, row, thin, to_line, Point};
use crate::geometry::{HEIGHT, ROWS, WIDTH};
use crate::page::{Colour, Page};

/// The stone leans by its draw of 12 degrees. Its limits are straight, so they are trapezoids.
pub fn pallet_stone(film: &mut Film) -> Page {
    let mut page = Page::default();
    let corner = (665.0, 290.0);
    // Locking face, impulse face, bevel, back: where each faces, and how far it is from the corner.
    let sides = [(-12.0, 0.0), (60.5, 0.0), (114.0, 324.0), (168.0, 400.0)];
    let zones = film.zones([0x01, 0x02, 0x04, 0x08, 0x10, 0x20, 0x40, 0x80]);
    let zones = zones.map(|(colour, reach)| {
        let sides = sides.map(|(degrees, far)| (polar((0.0, 0.0), 1.0, degrees), far + reach));
        let meet = |i: usize| {
            let ((a, a_far), (b, b_far)) = (sides[i], sides[i + 1]);
            row(corner.1 + (a_far * b.0 - b_far * a.0) / (a.1 * b.0 - b.1 * a.0))
        };
        (colour, sides, [0, 1, 2].map(meet))
    });
    // All zones are cut at the same rows, so that a limit line is equally wide along its length.
    let mut rows: Vec<u16> = zones.iter().flat_map(|zone| zone.2).collect();
    rows.push(ROWS.end);
    rows.sort();
    rows.dedup();
    for (colour, sides, [_, top, _]) in zones {
        page.colour = colour;
        let columns = |s: u16| {
            let up = place(s, 0).1 - corner.1;
            let x = sides.map(|(facing, far)| corner.0 + (far - facing.1 * up) / facing.0);
            let right = column(x[0].min(x[1]));
            column(x[2].max(x[3])).min(right)..right
        };
        for pair in rows.windows(2).filter(|pair| pair[0] >= top) {
            page.trapezoid((pair[0], pair[1]), columns(pair[0]), columns(pair[1]));
        }
    }
    (page.colour, page.priority) = (Colour::Ink, 1);
    page.centre_line((0.0, corner.1), (WIDTH, corner.1));
    page.centre_line((corner.0, HEIGHT), (corner.0, 0.0));
    film.datum(&mut page, corner, -90.0, 12.0);
    let zone = polar(corner, 220.0, 150.5);
    film.leader(&mut page, 530.0, (530.0, 500.0), zone);
    page
}

/// The locking face has an undercut of 24 degrees. The tooth's limits are curved, so they are runs.
pub fn escape_tooth(film: &mut Film) -> Page {
    let mut page = Page::default();
    let [centre, heel, corner]: [Point; 3] = [(470.0, -1800.0), (425.0, 522.0), (585.0, 480.0)];
    let radial = f64::atan2(corner.1 - centre.1, corner.0 - centre.0).to_degrees();
    let face = |length: f64| polar(corner, length, radial - 180.0 - 24.0);
    let rim = |degrees: i32| polar(centre, 1918.0, degrees.into());
    let curve = |a: Point, b: Point, c: Point| {
        let parts = (0..=12).map(|i| f64::from(i) / 12.0);
        parts.map(move |t| between(between(a, b, t), between(b, c, t), t))
    };
    let mut outline: Vec<Point> = (100..110).rev().map(rim).collect();
    let (foot, neck) = (polar(rim(100), 235.0, 10.0), (431.0, 370.0));
    outline.extend(curve(rim(100), foot, neck));
    outline.extend(curve(neck, (449.0, 438.0), (440.0, 470.0)));
    outline.extend([heel, corner]);
    outline.extend(curve(face(300.0), face(405.0), rim(88)));
    outline.extend((70..88).rev().map(rim));
    let reach = |p: Point| {
        let crossed = outline.windows(2).filter(|side| {
            let (a, b) = (side[0], side[1]);
            (a.0 > p.0) != (b.0 > p.0) && p.1 < between(a, b, (p.0 - a.0) / (b.0 - a.0)).1
        });
        // Inside, an odd number of sides is above.
        let sign = if crossed.count() % 2 == 1 { -1.0 } else { 1.0 };
        sign * to_line(p, &outline)
    };
    let hatch = [0x80, 0x40, 0x20, 0x10, 0x08, 0x04, 0x02, 0x01];
    for (colour, limit) in film.zones(hatch) {
        page.colour = colour;
        film.runs(&mut page, |p| reach(p) <= limit);
    }
    (page.colour, page.priority) = (Colour::Ink, 1);
    for tip in [corner, heel] {
        let radius = distance(centre, tip);
        film.runs(&mut page, |p| {
            let along = f64::atan2(p.0 - centre.0, p.1 - centre.1) * radius;
            let dash = along.rem_euclid(54.0);
            thin(distance(centre, p) - radius) && (dash < 34.0 || (41.0..47.0).contains(&dash))
        });
    }
    page.centre_line(polar(centre, 2402.0, radial), polar(centre, 1803.0, radial));
    film.datum(&mut page, corner, radial - 180.0, 24.0);
    film.leader(&mut page, 185.0, (280.0, 340.0), outline[17]);
    page
}
