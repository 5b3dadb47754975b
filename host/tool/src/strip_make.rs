//! `strip make`: a stream that prints a picture, as a pocket gauge would send it.
//!
//! The library has no writer of packets, so no proof covers this.

use crate::arguments::{shown, Arguments};
use crate::failure::{Failure, Outcome, Status};
use crate::input::{name, open};
use crate::netpbm::{bad, Bad, Size};
use crate::output::{hold_target, to_target};
use crate::pgm::Reader;
use crate::strip_coding::{coded, tiles, Band};
use printbox::strip::{BANDS, BAND_ROWS, WIDTH};
use std::ffi::OsStr;
use std::io::{BufRead, BufReader};

/// The commands of packets.
const INITIALIZE: u8 = 0x01;
const PRINT: u8 = 0x02;
const DATA: u8 = 0x04;

/// What the options say of every picture.
struct Options {
    is_plain: bool,
    palette: u8,
    before: u8,
    after: u8,
    density: u8,
}

pub fn run(arguments: &Arguments) -> Outcome<Status> {
    if !arguments.has("-o") {
        return Err(arguments.bad("-o FILE is missing"));
    }
    let (before, after) = margins(arguments)?;
    let options = Options {
        is_plain: arguments.has("--plain"),
        palette: palette(arguments)?,
        before,
        after,
        density: arguments.number("--density", 0..=255)?.unwrap_or(64) as u8,
    };
    hold_target(arguments)?;

    let path = &arguments.files[0];
    let mut reader = Reader::new(BufReader::new(open(path)?));
    let stream = options.stream(&mut reader);
    let stream = stream.map_err(|bad| bad.of_file(&name(path)))?;
    to_target(arguments, |output| output.write_all(&stream))?;
    Ok(Status::Done)
}

/// The palette: the shade of index 0 in the highest two bits. 1B hex is each index's own shade.
fn palette(arguments: &Arguments) -> Outcome<u8> {
    let Some(text) = arguments.text("--palette") else {
        return Ok(0x1B);
    };
    let is_hex = text.len() == 2 && text.bytes().all(|digit| digit.is_ascii_hexdigit());
    match u8::from_str_radix(&text, 16) {
        Ok(palette) if is_hex => Ok(palette),
        _ => Err(Failure::trouble(format!(
            "--palette takes two hexadecimal digits, and not {}",
            shown(OsStr::new(&text))
        ))),
    }
}

/// The margins before and after a picture.
fn margins(arguments: &Arguments) -> Outcome<(u8, u8)> {
    let Some(text) = arguments.text("--margins") else {
        return Ok((1, 3));
    };
    let number = |text: &str| {
        let is_decimal = text.bytes().all(|digit| digit.is_ascii_digit());
        text.parse()
            .ok()
            .filter(|margin| is_decimal && *margin < 16)
    };
    let both = text.split_once(',');
    let both = both.and_then(|(before, after)| number(before).zip(number(after)));
    both.ok_or_else(|| {
        Failure::trouble(format!(
            "--margins takes two numbers from 0 to 15 with a comma between, and not {}",
            shown(OsStr::new(&text))
        ))
    })
}

impl Options {
    /// The stream that prints the pictures of a file.
    fn stream(&self, reader: &mut Reader<impl BufRead>) -> Result<Vec<u8>, Bad> {
        let mut stream = Stream(Vec::new());
        while let Some(size) = reader.next_picture()? {
            self.add_picture(&mut stream, reader, size)?;
        }
        match stream.0.len() {
            0 => bad("no picture in it"),
            _ => Ok(stream.0),
        }
    }

    /// Adds the pages of a picture, which follow each other with no margin between.
    fn add_picture(
        &self,
        stream: &mut Stream,
        reader: &mut Reader<impl BufRead>,
        size: Size,
    ) -> Result<(), Bad> {
        if size.width != WIDTH || size.height == 0 {
            return bad(format!(
                "a picture of {size} dots, and a strip has {WIDTH} by 1 or more"
            ));
        }
        let pages = size.height.div_ceil(BANDS * BAND_ROWS);
        let mut rows = size.height;
        for page in 0..pages {
            stream.packet(INITIALIZE, 0, &[]);
            for _ in 0..BANDS.min(rows.div_ceil(BAND_ROWS)) {
                let band = self.band(reader, rows.min(BAND_ROWS))?;
                rows = rows.saturating_sub(BAND_ROWS);
                self.add_band(stream, &band);
            }
            stream.packet(DATA, 0, &[]);
            let before = if page == 0 { self.before } else { 0 };
            let after = if page + 1 == pages { self.after } else { 0 };
            let body = [1, before << 4 | after, self.palette, self.density];
            stream.packet(PRINT, 0, &body);
        }
        Ok(())
    }

    /// Reads so many rows of a band. The others are white.
    fn band(&self, reader: &mut Reader<impl BufRead>, rows: usize) -> Result<Band, Bad> {
        let mut band = [[self.index(1, 1); WIDTH]; BAND_ROWS];
        let mut greys = [0; WIDTH];
        for row in &mut band[..rows] {
            reader.row(&mut greys)?;
            *row = greys.map(|grey| self.index(grey, reader.white));
        }
        Ok(band)
    }

    /// The index whose shade is nearest to a grey; of two that are equally near, the lighter one.
    fn index(&self, grey: u16, white: u16) -> u8 {
        let distance = |index: &u8| {
            let shade = self.palette >> (6 - 2 * index) & 3;
            // Both in thirds: shade 0 is white, 3 is black.
            let third = u32::from(3 - shade) * u32::from(white);
            ((3 * u32::from(grey)).abs_diff(third), shade)
        };
        (0..4).min_by_key(distance).expect("four indexes")
    }

    fn add_band(&self, stream: &mut Stream, band: &Band) {
        let plain = tiles(band);
        if !self.is_plain {
            let coded = coded(&plain);
            if coded.len() < plain.len() {
                return stream.packet(DATA, 1, &coded);
            }
        }
        stream.packet(DATA, 0, &plain);
    }
}

/// A stream that is being made.
struct Stream(Vec<u8>);

impl Stream {
    /// Adds a packet and two clock bytes.
    fn packet(&mut self, command: u8, indicator: u8, body: &[u8]) {
        let [low, high] = (body.len() as u16).to_le_bytes();
        let start = self.0.len() + 2;
        self.0.extend([0x88, 0x33, command, indicator, low, high]);
        self.0.extend(body);
        // A body has at most 640 bytes of at most 255 each, so the sum may pass 65,535.
        let add = |sum: u16, byte: &u8| sum.wrapping_add((*byte).into());
        let sum = self.0[start..].iter().fold(0, add);
        self.0.extend(sum.to_le_bytes());
        self.0.extend([0, 0]);
    }
}
