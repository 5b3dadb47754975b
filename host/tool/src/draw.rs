//! `draw`: pages and bands as pictures.

use crate::arguments::Arguments;
use crate::failure::{Failure, Outcome, Status};
use crate::input::{name, read, read_load};
use crate::output::{hold_target, say, to_file, to_target, Progress};
use crate::pbm::Picture;
use crate::sheet::Herald;
use crate::sheet_faults;
use printbox::film::{self, BAND_BYTES};
use printbox::Refusal;
use std::fs;
use std::path::Path;

/// A sheet with its load, and a buffer that serves for every band.
struct Film {
    sheet: Vec<u8>,
    load: Vec<u8>,
    buffer: Vec<u8>,
}

pub fn run(arguments: &Arguments) -> Outcome<Status> {
    let page = number(arguments, "--page")?;
    let band = number(arguments, "--band")?;
    let folder = arguments.path("--all");
    if folder.is_none() {
        hold_target(arguments)?;
    } else if page.is_some() || band.is_some() || arguments.has("-o") {
        return Err(arguments.bad("--all goes without --page, --band and -o"));
    }
    let path = &arguments.files[0];
    let mut film = Film {
        sheet: read(path)?,
        load: read_load(arguments.path("--load"))?,
        buffer: vec![0; BAND_BYTES],
    };
    let drawn = match folder {
        Some(folder) => draw_all(&mut film, folder),
        None => draw_one(&mut film, arguments, page.unwrap_or(0), band),
    };
    match drawn {
        Ok(()) => Ok(Status::Done),
        Err(Stop::Failure(failure)) => Err(failure),
        Err(Stop::Refusal(refusal)) => {
            let line = sheet_faults::line(&refusal, &film.sheet, &film.load);
            Err(Failure::refused(format!("{}: {line}", name(path))))
        }
    }
}

/// Why nothing more is drawn.
enum Stop {
    Refusal(Refusal),
    Failure(Failure),
}

impl From<Refusal> for Stop {
    fn from(refusal: Refusal) -> Stop {
        Stop::Refusal(refusal)
    }
}

impl From<Failure> for Stop {
    fn from(failure: Failure) -> Stop {
        Stop::Failure(failure)
    }
}

fn number(arguments: &Arguments, option: &str) -> Outcome<Option<usize>> {
    let number = arguments.number(option, 0..=u64::MAX)?;
    Ok(number.map(|number| number as usize))
}

/// Draws a page or a band of it. Faults elsewhere in the sheet do not hinder that; they are named.
fn draw_one(
    film: &mut Film,
    arguments: &Arguments,
    page: usize,
    band: Option<usize>,
) -> Result<(), Stop> {
    let picture = match band {
        Some(band) => film.band(page, band)?,
        None => film.page(page, |_| ())?,
    };
    if let Err(refusal) = film::check(&film.sheet, &film.load) {
        let name = name(&arguments.files[0]);
        let line = sheet_faults::line(&refusal, &film.sheet, &film.load);
        say(&format!("{name}: drawn, but the check says: {line}"));
    }
    Ok(to_target(arguments, |output| picture.write(output))?)
}

/// Draws every page into a folder. The sheet is checked first, so that no page is refused when
/// others are drawn.
fn draw_all(film: &mut Film, folder: &Path) -> Result<(), Stop> {
    let pages = film::check(&film.sheet, &film.load)?;
    let bands = Herald::of(&film.sheet).map_or(0, Herald::bands);
    fs::create_dir_all(folder).map_err(|error| Failure::of_file(&name(folder), &error))?;
    let digits = (pages - 1).to_string().len();
    let progress = Progress::new();
    for page in 0..pages {
        let picture = film.page(page, |band| {
            progress.show(|| format!("{page} of {pages} pages, {band} of {bands} bands"));
        })?;
        let file = folder.join(format!("page-{page:0digits$}.pbm"));
        to_file(&file, |output| picture.write(output))?;
    }
    Ok(())
}

impl Film {
    /// The picture of a page: its bands from 0 on, up to the first that the sheet has not. Before
    /// each, `progress` gets the number of those that are drawn.
    fn page(&mut self, page: usize, mut progress: impl FnMut(usize)) -> Result<Picture, Refusal> {
        let mut picture = Picture::new(0);
        for band in 0.. {
            progress(band);
            match self.add_band(page, band, &mut picture) {
                Err(Refusal { number: 11, .. }) if band > 0 => break,
                other => other?,
            }
        }
        Ok(picture)
    }

    fn band(&mut self, page: usize, band: usize) -> Result<Picture, Refusal> {
        let mut picture = Picture::new(0);
        self.add_band(page, band, &mut picture)?;
        Ok(picture)
    }

    /// Draws a band and adds its rows to a picture.
    fn add_band(&mut self, page: usize, band: usize, picture: &mut Picture) -> Result<(), Refusal> {
        let drawn = film::draw(&self.sheet, &self.load, page, band, &mut self.buffer)?;
        let herald = Herald::of(&self.sheet).expect("a sheet that is drawn has a herald");
        picture.width = herald.image_f_size;
        for row in self.buffer.chunks(herald.row_bytes()).take(drawn.rows) {
            picture.push(row);
        }
        Ok(())
    }
}
