//! The printed pages of a stream as pictures in a folder.

use crate::arguments::Arguments;
use crate::failure::{Failure, Outcome};
use crate::input::{name, STANDARD_INPUT};
use crate::output::to_file;
use crate::pgm;
use printbox::strip::WIDTH;
use std::collections::BTreeMap;
use std::ffi::OsString;
use std::fs;
use std::path::{Path, PathBuf};

/// The greys of the four shades: white, light grey, dark grey and black.
const GREYS: [u8; 4] = [255, 170, 85, 0];

/// Makes the folder of `-o`, and refuses files whose pages would have the same names.
pub fn hold_folder(arguments: &Arguments) -> Outcome<()> {
    let Some(folder) = arguments.path("-o") else {
        return Ok(());
    };
    if folder.as_os_str() == STANDARD_INPUT {
        return Err(arguments.bad("-o takes a folder, and not standard output"));
    }
    let mut stems = BTreeMap::new();
    for path in &arguments.files {
        if let Some(other) = stems.insert(stem(path), path) {
            return Err(arguments.bad(format!(
                "the pages of {} and {} would have the same names",
                name(other),
                name(path)
            )));
        }
    }
    fs::create_dir_all(folder).map_err(|error| Failure::of_file(&name(folder), &error))
}

/// What the names of a file's pages start with where there are several files.
fn stem(path: &Path) -> OsString {
    if path.as_os_str() == STANDARD_INPUT {
        return "standard-input".into();
    }
    path.file_stem().unwrap_or_default().to_os_string()
}

/// The pages of a stream that are printed so far.
pub struct Pages {
    folder: PathBuf,
    /// What stands before `page-0.pgm`.
    prefix: OsString,
    count: usize,
}

impl Pages {
    /// Those of a file, or None without `-o`.
    pub fn of(arguments: &Arguments, path: &Path) -> Option<Pages> {
        let mut prefix = OsString::new();
        if arguments.files.len() > 1 {
            prefix = stem(path);
            prefix.push("-");
        }
        Some(Pages {
            folder: arguments.path("-o")?.to_path_buf(),
            prefix,
            count: 0,
        })
    }

    fn path(&self, page: usize, digits: usize) -> PathBuf {
        let mut name = self.prefix.clone();
        name.push(format!("page-{page:0digits$}.pgm"));
        self.folder.join(name)
    }

    /// Writes the picture of a page, whose rows have four dots in a byte. One of no rows has none.
    pub fn add(&mut self, rows: &[u8]) -> Outcome<()> {
        if rows.is_empty() {
            return Ok(());
        }
        let dots = |byte: &u8| [6, 4, 2, 0].map(|shift| GREYS[usize::from(byte >> shift & 3)]);
        let greys: Vec<u8> = rows.iter().flat_map(dots).collect();
        let path = self.path(self.count, 1);
        to_file(&path, |output| pgm::write(WIDTH, &greys, output))?;
        self.count += 1;
        Ok(())
    }

    /// Gives the numbers of all pages as many digits as the last one has.
    pub fn close(self) -> Outcome<()> {
        let digits = self.count.saturating_sub(1).to_string().len();
        for page in 0..self.count {
            let (from, to) = (self.path(page, 1), self.path(page, digits));
            if from != to {
                fs::rename(from, &to).map_err(|error| Failure::of_file(&name(&to), &error))?;
            }
        }
        Ok(())
    }
}
