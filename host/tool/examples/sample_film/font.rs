//! Lettering: strokes drawn with a round pen into sample arrays of the load.

use crate::geometry::{between, to_line, Point};
use crate::load::{Load, Stored};

/// Each glyph's strokes, x and y of a point as digits of base 36 in 1/16 of the height, y down. A
/// stroke of more than two points is smoothed.
const GLYPHS: &str = "\
    0 08-00-a0-ag-0g-08; 1 04-40 40-4g; 2 04-00-a0-a6-0g 0g-ag; 3 02-00-a0-a8-58 48-58-a7-ag-0g-0e;
    4 70-0b 0b-ab 76-7g; 5 90-10 10-08 08-26-a6-ag-0g-0e; 6 80-04-0b 0b-0g-ag-a6-06-0b;
    7 00-a0 a0-3g; 8 50-90-98-18-10-50 58-a8-ag-0g-08-58; 9 2g-ac-a5 a5-a0-00-0a-aa-a5;
    A 0g-60 60-cg 2b-ab; C a3-a0-00-08-0g-ag-ad; D 00-0g 00-40-a0-a8-ag-4g-0g;
    E 00-0g 00-90 08-78 0g-9g; F 00-0g 00-90 08-78; H 00-0g a0-ag 08-a8; I 00-0g; L 00-0g 0g-9g;
    M 0g-00 00-6b 6b-c0 c0-cg; N 0g-00 00-ag ag-a0; O 08-00-c0-cg-0g-08; P 0g-00 00-50-a0-a8-58-08;
    S a3-a0-00-08-a8-ag-0g-0d; T 00-a0 50-5g; W 00-3g 3g-64 64-9g 9g-c0; µ 05-0k 0c-0g-8g-8c 85-8g;
    m 05-0g 09-05-75-79 79-7g 79-75-e5-e9 e9-eg; × 05-8d 85-0d; ± 54-5c 08-a8 0f-af;
    ° 03-00-60-66-06-03; - 09-69; . 0g-0g";

/// Letters with their sample arrays and widths, and the gap between two.
pub struct Font {
    pub glyphs: Vec<(char, Stored, u16)>,
    pub gap: u16,
}

impl Font {
    /// Draws the glyphs with a round pen, at this many dots for 1/16 of their height.
    pub fn new(load: &mut Load, unit: f64, pen: f64) -> Font {
        let dots = |digit: u8| f64::from(char::from(digit).to_digit(36).unwrap()) * unit + pen;
        let stroke = |points: &str| {
            let point = |xy: &str| (dots(xy.as_bytes()[0]), dots(xy.as_bytes()[1]));
            let mut line: Vec<Point> = points.split('-').map(point).collect();
            for _ in 0..4 {
                let cut = |ends: &[Point]| [0.25, 0.75].map(|part| between(ends[0], ends[1], part));
                let middle = line.windows(2).flat_map(cut).collect();
                line = [vec![line[0]], middle, vec![line[line.len() - 1]]].concat();
            }
            line
        };
        let draw = |glyph: &str| {
            let mut parts = glyph.split_whitespace();
            let letter = parts.next().unwrap().chars().next().unwrap();
            let lines: Vec<Vec<Point>> = parts.map(stroke).collect();
            let width = lines.iter().flatten().fold(0.0, |x, p| p.0.max(x)) + pen;
            // Twenty, as a letter may reach below the line.
            let (s_size, f_size) = ((20.0 * unit + 2.0 * pen) as u16, width.ceil() as u16);
            let bit = |s: u16, f: u16| {
                let dot = (f64::from(f) + 0.5, f64::from(s) + 0.5);
                u16::from(lines.iter().any(|line| to_line(dot, line) <= pen))
            };
            let mut array = vec![s_size, f_size];
            for s in 0..s_size {
                for f in (0..f_size).step_by(16) {
                    array.push((0..16).map(|i| bit(s, f + i) << (15 - i)).sum());
                }
            }
            (letter, load.store(s_size, &array), f_size)
        };
        let glyphs = GLYPHS.split(';').map(draw).collect();
        let gap = (4.0 * unit) as u16;
        Font { glyphs, gap }
    }
}
