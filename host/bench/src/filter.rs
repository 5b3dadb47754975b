//! The filter of Debian's printer-driver-sag-gdi, run as a process on a CUPS raster.

use crate::raster::{raster, Page};
use crate::sheet::Size;
use printbox::gdi::{self, row_bytes, Line, Place};
use std::fs::{self, File};
use std::path::{Path, PathBuf};
use std::process::{Command, Stdio};

/// The page that the filter writes, whatever the raster's size.
pub const A4: Size = Size {
    width: 4762,
    height: 6778,
};

/// The filter's place, or None where it is not installed. PRINTBOX_SAGEM_FILTER names another one.
pub fn installed() -> Result<Option<PathBuf>, String> {
    if let Some(named) = std::env::var_os("PRINTBOX_SAGEM_FILTER") {
        let path = PathBuf::from(named);
        if path.is_file() {
            return Ok(Some(path));
        }
        let path = path.display();
        return Err(format!(
            "PRINTBOX_SAGEM_FILTER names {path}, which is no file"
        ));
    }
    let path = PathBuf::from("/usr/lib/cups/filter/rastertosag-gdi");
    Ok(path.is_file().then_some(path))
}

/// A raster in a temporary file, which goes with it.
pub struct Raster {
    path: PathBuf,
}

impl Raster {
    /// A raster of one page of rows.
    pub fn new(name: &str, width: usize, rows: &[u8]) -> Raster {
        let file = format!("printbox-bench-{}-{name}.raster", std::process::id());
        let path = std::env::temp_dir().join(file);
        let page = Page {
            width,
            rows: rows.chunks(row_bytes(width)).map(<[u8]>::to_vec).collect(),
            tray: 0,
            paper_type: 0,
        };
        fs::write(&path, raster(&[page])).expect("the temporary folder has room for a raster");
        Raster { path }
    }
}

impl Drop for Raster {
    fn drop(&mut self) {
        // What is left of a failed removal is a file in the temporary folder.
        let _ = fs::remove_file(&self.path);
    }
}

/// The job that the filter writes of a raster.
pub fn job(filter: &Path, raster: &Raster) -> Vec<u8> {
    let file = File::open(&raster.path).expect("the raster was written");
    let output = Command::new(filter)
        .args(["1", "user", "title", "1", ""])
        .stdin(Stdio::from(file))
        .output()
        .expect("the filter is run");
    let said = String::from_utf8_lossy(&output.stderr);
    assert!(output.status.success(), "the filter failed:\n{said}");
    output.stdout
}

/// Asserts that the job's lines are the rows, white to the right and below of them.
pub fn hold(job: &[u8], width: usize, rows: &[u8]) {
    assert_eq!(gdi::check(job), Ok(1), "the filter's job");
    let mut place = Place {
        offset: 86 + 21,
        left: 0,
    };
    let mut line = vec![0; row_bytes(A4.width)];
    let mut row = rows.chunks_exact(row_bytes(width));
    for s in 0..A4.height {
        match gdi::read_line(job, place, A4.width, &mut line) {
            Ok(Line::Row(next)) => place = next,
            other => panic!("line {s} of the filter's job: {other:?}"),
        }
        let (dots, white) = line.split_at(row_bytes(width));
        match row.next() {
            Some(row) => assert!(dots == row, "line {s} of the filter's job"),
            None => assert!(dots.iter().all(|&byte| byte == 0), "line {s}"),
        }
        assert!(white.iter().all(|&byte| byte == 0), "line {s}");
    }
    assert!(row.next().is_none(), "rows that the job has not");
}
