//! What the files of PBM and PGM pictures have in common: how a picture starts, its size, numbers and
//! comments.

use crate::failure::Failure;
use std::fmt;
use std::io::{self, BufRead};

/// Why a picture can't be read.
#[derive(Debug)]
pub enum Bad {
    /// What is wrong with it.
    Form(String),
    Input(io::Error),
}

impl From<io::Error> for Bad {
    fn from(error: io::Error) -> Bad {
        Bad::Input(error)
    }
}

impl Bad {
    /// As a failure, of a file that is shown by this name.
    pub fn of_file(self, name: &str) -> Failure {
        match self {
            Bad::Form(what) => Failure::trouble(format!("{name}: {what}")),
            Bad::Input(error) => Failure::of_file(name, &error),
        }
    }
}

pub fn bad<T>(what: impl Into<String>) -> Result<T, Bad> {
    Err(Bad::Form(what.into()))
}

pub fn ends_early<T>() -> Result<T, Bad> {
    bad("the picture ends early")
}

/// The size of a picture, told before its rows are read.
#[derive(Clone, Copy, Debug, PartialEq, Eq)]
pub struct Size {
    pub width: usize,
    pub height: usize,
}

impl fmt::Display for Size {
    fn fmt(&self, f: &mut fmt::Formatter<'_>) -> fmt::Result {
        write!(f, "{} x {}", self.width, self.height)
    }
}

/// A file of pictures, byte by byte.
pub struct Input<R>(pub R);

impl<R: BufRead> Input<R> {
    /// The two bytes that the next picture starts with, or None at the end of the file. Where only
    /// one is left, the second is 0.
    pub fn start(&mut self) -> Result<Option<[u8; 2]>, Bad> {
        let letter = loop {
            match self.byte()? {
                None => return Ok(None),
                Some(byte) if byte.is_ascii_whitespace() => {}
                Some(byte) => break byte,
            }
        };
        Ok(Some([letter, self.byte()?.unwrap_or(0)]))
    }

    /// The size, which stands after the start.
    pub fn size(&mut self) -> Result<Size, Bad> {
        let width = self.head_number("the picture's width")?;
        let height = self.head_number("the picture's height")?;
        Ok(Size { width, height })
    }

    /// A number of the picture's head, with the one byte that ends it.
    pub fn head_number(&mut self, what: &str) -> Result<usize, Bad> {
        match self.number(what)? {
            (number, Some(_)) => Ok(number),
            (_, None) => ends_early(),
        }
    }

    /// A number, and the one byte that ends it, or None where the file ends it.
    pub fn number(&mut self, what: &str) -> Result<(usize, Option<u8>), Bad> {
        let mut byte = self.byte_after_comment()?;
        while byte.is_some_and(|byte| byte.is_ascii_whitespace()) {
            byte = self.byte_after_comment()?;
        }
        let mut number = None;
        while let Some(digit @ b'0'..=b'9') = byte {
            let longer = number.unwrap_or(0) * 10 + usize::from(digit - b'0');
            if longer > 999_999_999 {
                return bad(format!("{what} has over nine digits"));
            }
            number = Some(longer);
            byte = self.byte_after_comment()?;
        }
        match (number, byte) {
            (None, None) => ends_early(),
            (Some(number), end) if end.is_none_or(|end| end.is_ascii_whitespace()) => {
                Ok((number, end))
            }
            _ => bad(format!("{what} is no number")),
        }
    }

    /// The next byte, where a comment up to its line's end counts as that end.
    pub fn byte_after_comment(&mut self) -> Result<Option<u8>, Bad> {
        let mut byte = self.byte()?;
        if byte == Some(b'#') {
            while !matches!(byte, None | Some(b'\n' | b'\r')) {
                byte = self.byte()?;
            }
        }
        Ok(byte)
    }

    pub fn byte(&mut self) -> Result<Option<u8>, Bad> {
        let mut byte = [0];
        match self.0.read(&mut byte)? {
            0 => Ok(None),
            _ => Ok(Some(byte[0])),
        }
    }
}
