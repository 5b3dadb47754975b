//! `list`: every band of every page as text, in the format of the listing program.

use crate::arguments::Arguments;
use crate::failure::{Failure, Outcome, Status};
use crate::input::{read, read_load};
use crate::sheet::Herald;
use printbox::film::{self, BAND_BYTES};
use std::io::{self, BufWriter, Write};

pub fn run(arguments: &Arguments) -> Outcome<Status> {
    let sheet = read(&arguments.files[0])?;
    let load = read_load(arguments.path("--load"))?;
    let mut output = BufWriter::new(io::stdout().lock());
    list(&sheet, &load, &mut output)
        .and_then(|status| output.flush().map(|()| status))
        .map_err(|error| Failure::of_standard_output(&error))
}

fn list(sheet: &[u8], load: &[u8], output: &mut impl Write) -> io::Result<Status> {
    let (pages, herald) = match (film::check(sheet, load), Herald::of(sheet)) {
        (Ok(pages), Some(herald)) => (pages, herald),
        (Ok(_), None) => unreachable!("a sheet that passes the check has a herald"),
        (Err(refusal), _) => {
            writeln!(output, "{refusal}")?;
            return Ok(Status::Refused);
        }
    };
    let bands = herald.bands();
    writeln!(output, "pages {pages} bands {bands}")?;
    let mut buffer = vec![0; BAND_BYTES];
    let mut text = String::new();
    for page in 0..pages {
        for band in 0..bands {
            let film::Drawn { rows, dots } = match film::draw(sheet, load, page, band, &mut buffer)
            {
                Ok(drawn) => drawn,
                Err(refusal) => unreachable!("a checked sheet: page {page} band {band} {refusal}"),
            };
            writeln!(output, "page {page} band {band} rows {rows} dots {dots}")?;
            for row in buffer.chunks(herald.row_bytes()).take(rows) {
                text.clear();
                for byte in row {
                    text.push(hex_digit(byte >> 4));
                    text.push(hex_digit(byte & 15));
                }
                writeln!(output, "{text}")?;
            }
        }
    }
    Ok(Status::Done)
}

fn hex_digit(number: u8) -> char {
    char::from(b"0123456789ABCDEF"[usize::from(number)])
}
