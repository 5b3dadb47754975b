//! PGM pictures: P5 (raw) is written; P5 and P2 (plain) are read, and PBM pictures as greys. 0 is
//! black.

use crate::netpbm::{bad, ends_early, Bad, Size};
use crate::pbm::{self, row_bytes};
use std::io::{self, BufRead, Write};

/// Writes rows of greys from 0 to 255 as P5.
pub fn write(width: usize, rows: &[u8], output: &mut dyn Write) -> io::Result<()> {
    write!(output, "P5\n{width} {}\n255\n", rows.len() / width)?;
    output.write_all(rows)
}

/// The pictures of a file, one after another: [`Reader::next_picture`], then as many rows as it has.
pub struct Reader<R> {
    dots: pbm::Reader<R>,
    /// Whether the present picture has greys, and not dots.
    has_greys: bool,
    /// The grey that is white: the maxval of the present picture, and 1 for a PBM picture.
    pub white: u16,
}

impl<R: BufRead> Reader<R> {
    pub fn new(input: R) -> Reader<R> {
        Reader {
            dots: pbm::Reader::new(input),
            has_greys: false,
            white: 1,
        }
    }

    /// The size of the next picture, or None at the end of the file.
    pub fn next_picture(&mut self) -> Result<Option<Size>, Bad> {
        let Some(start) = self.dots.input.start()? else {
            return Ok(None);
        };
        (self.has_greys, self.dots.is_plain) = match &start {
            b"P5" => (true, false),
            b"P2" => (true, true),
            b"P4" => (false, false),
            b"P1" => (false, true),
            _ => return bad("no PGM or PBM picture: it does not start with P5, P2, P4 or P1"),
        };
        let size = self.dots.input.size()?;
        self.white = 1;
        if self.has_greys {
            let maxval = self.dots.input.head_number("the picture's maxval")?;
            self.white = match u16::try_from(maxval) {
                Ok(white @ 1..) => white,
                _ => {
                    return bad(format!(
                        "the picture's maxval is {maxval}, and not 1 to 65535"
                    ))
                }
            };
        }
        Ok(Some(size))
    }

    /// Reads the next row, which has this many dots: greys from 0 to [`Reader::white`].
    pub fn row(&mut self, row: &mut [u16]) -> Result<(), Bad> {
        if self.has_greys {
            for grey in row {
                *grey = self.grey()?;
            }
            return Ok(());
        }
        let mut dots = vec![0; row_bytes(row.len())];
        self.dots.row(row.len(), &mut dots)?;
        for (dot, grey) in row.iter_mut().enumerate() {
            *grey = (!dots[dot / 8] >> (7 - dot % 8) & 1).into();
        }
        Ok(())
    }

    fn grey(&mut self) -> Result<u16, Bad> {
        let grey = if self.dots.is_plain {
            self.dots.input.number("a grey of the picture")?.0
        } else if self.white > 255 {
            256 * self.raw_byte()? + self.raw_byte()?
        } else {
            self.raw_byte()?
        };
        match u16::try_from(grey) {
            Ok(grey) if grey <= self.white => Ok(grey),
            _ => bad(format!(
                "a grey of the picture is {grey}, over its maxval {}",
                self.white
            )),
        }
    }

    fn raw_byte(&mut self) -> Result<usize, Bad> {
        match self.dots.input.byte()? {
            Some(byte) => Ok(byte.into()),
            None => ends_early(),
        }
    }
}

#[cfg(test)]
mod tests {
    use super::*;

    /// Each picture's width, its white, and its greys.
    fn pictures(file: &[u8]) -> Result<Vec<(usize, u16, Vec<u16>)>, String> {
        let mut reader = Reader::new(file);
        let mut read = || {
            let mut pictures = Vec::new();
            while let Some(size) = reader.next_picture()? {
                let mut greys = vec![0xEEEE; size.width * size.height];
                for row in greys.chunks_mut(size.width) {
                    reader.row(row)?;
                }
                pictures.push((size.width, reader.white, greys));
            }
            Ok(pictures)
        };
        read().map_err(|bad| match bad {
            Bad::Form(what) => what,
            Bad::Input(error) => panic!("{error}"),
        })
    }

    #[test]
    fn written_and_read() {
        let mut file = Vec::new();
        write(3, &[0, 85, 170, 255, 1, 2], &mut file).expect("a vector is written");
        assert_eq!(file, b"P5\n3 2\n255\n\x00\x55\xAA\xFF\x01\x02");
        assert_eq!(
            pictures(&file),
            Ok(vec![(3, 255, vec![0, 85, 170, 255, 1, 2])])
        );
    }

    #[test]
    fn forms_that_are_read() {
        for (file, white, greys) in [
            (&b"P5 2 2 3 \x00\x01\x02\x03"[..], 3, [0, 1, 2, 3]),
            (b"P5#\n2 2#\n3#\n\x00\x01\x02\x03\n", 3, [0, 1, 2, 3]),
            (b"P5 2 2 255 # \n\xFF", 255, [35, 32, 10, 255]),
            (
                b"P5 2 2 256 \x00\xFF\x01\x00\x00\x00\x00\x01",
                256,
                [255, 256, 0, 1],
            ),
            (
                b"P5 2 2 65535 \xFF\xFF\x12\x34\x00\x00\x80\x00",
                65_535,
                [65_535, 0x1234, 0, 0x8000],
            ),
            (b"P2\n2 2\n9\n0 9\n3 4", 9, [0, 9, 3, 4]),
            (
                b"P2 # by hand\n2 2 65535\n65535 1#2\n\t003\r\n4#",
                65_535,
                [65_535, 1, 3, 4],
            ),
            (b"P4 2 2 \x7F\xBF", 1, [1, 0, 0, 1]),
            (b"P1 2 2 01 10", 1, [1, 0, 0, 1]),
        ] {
            assert_eq!(
                pictures(file),
                Ok(vec![(2, white, greys.to_vec())]),
                "{file:?}"
            );
        }
        assert_eq!(pictures(b" \n"), Ok(vec![]));
        // A picture of each form in one file.
        assert_eq!(
            pictures(b"P5 1 1 255 AP2 1 1 9 9 P4 1 1 \x80\nP1 1 1 0"),
            Ok(vec![
                (1, 255, vec![65]),
                (1, 9, vec![9]),
                (1, 1, vec![0]),
                (1, 1, vec![1])
            ])
        );
    }

    #[test]
    fn forms_that_are_not() {
        let none = "no PGM or PBM picture: it does not start with P5, P2, P4 or P1";
        let early = "the picture ends early";
        let over = "a grey of the picture is 4, over its maxval 3";
        for (file, what) in [
            (&b"P6 1 1 255 abc"[..], none),
            (b"P", none),
            (b"5P 1 1 1 1", none),
            (b"P5 1 1 1 \x01rest", none),
            (b"P5 1 1", early),
            (b"P5 1 1 255", early),
            (b"P5 1 1 255 ", early),
            (b"P5 2 1 256 \x00\x01\x00", early),
            (b"P2 2 1 9 1", early),
            (b"P2 2 1 9 1 ", early),
            (b"P4 9 1 \x01", early),
            (
                b"P5 1 1 0 \x00",
                "the picture's maxval is 0, and not 1 to 65535",
            ),
            (
                b"P5 1 1 65536 \x00\x00",
                "the picture's maxval is 65536, and not 1 to 65535",
            ),
            (b"P5 1 1 x", "the picture's maxval is no number"),
            (b"P5 x", "the picture's width is no number"),
            (b"P5 1 1 3 \x04", over),
            (b"P2 1 1 3 4", over),
            (
                b"P2 1 1 65535 65537",
                "a grey of the picture is 65537, over its maxval 65535",
            ),
            (
                b"P5 1 1 256 \x01\x01",
                "a grey of the picture is 257, over its maxval 256",
            ),
            (b"P2 1 1 3 -1", "a grey of the picture is no number"),
            (b"P2 1 1 3 1x", "a grey of the picture is no number"),
            (
                b"P2 1 1 3 1111111111",
                "a grey of the picture has over nine digits",
            ),
        ] {
            assert_eq!(pictures(file), Err(what.to_string()), "{file:?}");
        }
    }
}
