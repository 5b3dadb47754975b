//! PBM pictures: P4 (raw) is written; P4 and P1 (plain) are read. A black dot is 1, and the high bit
//! of a row's first byte is its first dot.

use crate::netpbm::{bad, ends_early, Bad, Input, Size};
use std::io::{self, BufRead, Write};

/// The bytes of a row: one for each 8 dots, rounded up. Both a row of a GDI line and a row of P4
/// have them.
pub use printbox::gdi::row_bytes;

/// A picture in memory, row after row. Spare bits are 0.
#[derive(Debug, PartialEq, Eq)]
pub struct Picture {
    pub width: usize,
    pub height: usize,
    pub rows: Vec<u8>,
}

impl Picture {
    pub fn new(width: usize) -> Picture {
        Picture {
            width,
            height: 0,
            rows: Vec::new(),
        }
    }

    /// Adds a row, of which bytes beyond the width's are left out.
    pub fn push(&mut self, row: &[u8]) {
        self.rows.extend_from_slice(&row[..row_bytes(self.width)]);
        self.height += 1;
    }

    /// Writes it as P4.
    pub fn write(&self, output: &mut dyn Write) -> io::Result<()> {
        write!(output, "P4\n{} {}\n", self.width, self.height)?;
        output.write_all(&self.rows)
    }
}

/// The pictures of a file, one after another: [`Reader::next_picture`], then as many rows as it has.
pub struct Reader<R> {
    pub input: Input<R>,
    /// Whether the dots of the present picture are digits.
    pub is_plain: bool,
}

impl<R: BufRead> Reader<R> {
    pub fn new(input: R) -> Reader<R> {
        Reader {
            input: Input(input),
            is_plain: false,
        }
    }

    /// The size of the next picture, or None at the end of the file.
    pub fn next_picture(&mut self) -> Result<Option<Size>, Bad> {
        self.is_plain = match self.input.start()? {
            None => return Ok(None),
            Some([b'P', b'4']) => false,
            Some([b'P', b'1']) => true,
            Some(_) => return bad("no PBM picture: it does not start with P4 or P1"),
        };
        Ok(Some(self.input.size()?))
    }

    /// Reads the next row of a picture of this width. Spare bits come out as 0.
    pub fn row(&mut self, width: usize, row: &mut [u8]) -> Result<(), Bad> {
        if self.is_plain {
            row.fill(0);
            for dot in 0..width {
                if self.plain_dot()? {
                    row[dot / 8] |= 0x80 >> (dot % 8);
                }
            }
            return Ok(());
        }
        match self.input.0.read_exact(row) {
            Err(error) if error.kind() == io::ErrorKind::UnexpectedEof => ends_early(),
            other => {
                other?;
                if !width.is_multiple_of(8) {
                    row[width / 8] &= 0xFF << (8 - width % 8);
                }
                Ok(())
            }
        }
    }

    fn plain_dot(&mut self) -> Result<bool, Bad> {
        loop {
            match self.input.byte_after_comment()? {
                None => return ends_early(),
                Some(b'0') => return Ok(false),
                Some(b'1') => return Ok(true),
                Some(byte) if byte.is_ascii_whitespace() => {}
                Some(_) => return bad("a dot of the picture is neither 0 nor 1"),
            }
        }
    }
}

#[cfg(test)]
mod tests {
    use super::*;

    fn pictures(file: &[u8]) -> Result<Vec<Picture>, String> {
        let mut reader = Reader::new(file);
        let mut read = || {
            let mut pictures = Vec::new();
            while let Some(Size { width, height }) = reader.next_picture()? {
                let mut picture = Picture::new(width);
                let mut row = vec![0xEE; row_bytes(width)];
                for _ in 0..height {
                    reader.row(width, &mut row)?;
                    picture.push(&row);
                }
                pictures.push(picture);
            }
            Ok(pictures)
        };
        read().map_err(|bad| match bad {
            Bad::Form(what) => what,
            Bad::Input(error) => panic!("{error}"),
        })
    }

    fn picture(width: usize, height: usize, rows: &[u8]) -> Picture {
        Picture {
            width,
            height,
            rows: rows.to_vec(),
        }
    }

    #[test]
    fn written_and_read() {
        let mut drawn = Picture::new(10);
        drawn.push(&[0x12, 0x40, 0x77, 0x77]);
        drawn.push(&[0xFF, 0xC0]);
        let mut file = Vec::new();
        drawn.write(&mut file).expect("a vector is written");
        assert_eq!(file, b"P4\n10 2\n\x12\x40\xFF\xC0");
        assert_eq!(pictures(&file), Ok(vec![drawn]));
    }

    #[test]
    fn forms_that_are_read() {
        let one = picture(3, 2, &[0xA0, 0x40]);
        for file in [
            &b"P4 3 2 \xA0\x40"[..],
            b"P4\n# made by hand\n3\t2\n\xBF\x5F", // spare bits are set
            b"P4\n3 # width\n2# height\n\xA0\x40",
            b"P4#\n3 2#\n\xA0\x40\n",
            b"P1\n3 2\n101\n010\n",
            b"P1 3 2 1 0 1 0#1\n1 0",
        ] {
            assert_eq!(
                pictures(file),
                Ok(vec![picture(3, 2, &one.rows)]),
                "{file:?}"
            );
        }
        assert_eq!(pictures(b""), Ok(vec![]));
        // A row byte may look like a comment or a space.
        assert_eq!(
            pictures(b"P4\n8 2\n# P4 8 1\n\x80"),
            Ok(vec![picture(8, 2, b"# "), picture(8, 1, &[0x80])])
        );
    }

    #[test]
    fn forms_that_are_not() {
        for (file, what) in [
            (
                &b"P5 3 2 255 abc"[..],
                "no PBM picture: it does not start with P4 or P1",
            ),
            (
                b"\x89PNG",
                "no PBM picture: it does not start with P4 or P1",
            ),
            (b"P", "no PBM picture: it does not start with P4 or P1"),
            (b"P4", "the picture ends early"),
            (b"P4\n8", "the picture ends early"),
            (b"P4\n8 1", "the picture ends early"),
            (b"P4\n8 2\n\x01", "the picture ends early"),
            (b"P4\n9 1\n\x01", "the picture ends early"),
            (b"P4\n-8 2\n\x01\x01", "the picture's width is no number"),
            (b"P4\n8 2x\x01\x01", "the picture's height is no number"),
            (
                b"P4\n8888888888 2\n",
                "the picture's width has over nine digits",
            ),
            (b"P1\n2 1\n1", "the picture ends early"),
            (b"P1\n2 1\n12", "a dot of the picture is neither 0 nor 1"),
            (
                b"P4\n8 1\n\x01P7",
                "no PBM picture: it does not start with P4 or P1",
            ),
        ] {
            assert_eq!(pictures(file), Err(what.to_string()), "{file:?}");
        }
    }
}
