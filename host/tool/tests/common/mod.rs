//! Running the built tool on real files.

#![allow(dead_code)] // each test uses some of it

pub mod packets;

use std::ffi::OsStr;
use std::fs;
use std::io::Write;
use std::path::{Path, PathBuf};
use std::process::{Command, Output, Stdio};

/// The tool, with these arguments.
pub fn tool<A: AsRef<OsStr>>(arguments: &[A]) -> Command {
    let mut command = Command::new(env!("CARGO_BIN_EXE_printbox"));
    command.args(arguments);
    command
}

/// What a run left: exit status, standard output and standard error.
#[derive(Debug, PartialEq, Eq)]
pub struct Run {
    pub status: i32,
    pub output: String,
    pub error: String,
}

/// Runs the tool with these arguments.
pub fn run<A: AsRef<OsStr>>(arguments: &[A]) -> Run {
    finished(tool(arguments).output().expect("the tool runs"))
}

/// What a finished run left.
pub fn finished(output: Output) -> Run {
    Run {
        status: output.status.code().expect("an exit status"),
        output: String::from_utf8(output.stdout).expect("output in UTF-8"),
        error: String::from_utf8(output.stderr).expect("an error in UTF-8"),
    }
}

/// A run that ends with this status and says this alone.
pub fn ran(status: i32, output: &str, error: &str) -> Run {
    Run {
        status,
        output: output.to_string(),
        error: error.to_string(),
    }
}

/// An empty folder for a test, of its name.
pub fn folder(name: &str) -> PathBuf {
    let folder = Path::new(env!("CARGO_TARGET_TMPDIR")).join(name);
    let _ = fs::remove_dir_all(&folder);
    fs::create_dir_all(&folder).expect("a folder is made");
    folder
}

/// Writes a file in a folder and gives its path as text.
pub fn file(folder: &Path, name: &str, content: &[u8]) -> String {
    let path = folder.join(name);
    fs::write(&path, content).expect("a file is written");
    text(&path)
}

/// Runs the tool with these arguments and this standard input.
pub fn run_on<A: AsRef<OsStr>>(arguments: &[A], input: &[u8]) -> Output {
    let mut child = tool(arguments)
        .stdin(Stdio::piped())
        .stdout(Stdio::piped())
        .stderr(Stdio::piped())
        .spawn()
        .expect("the tool runs");
    let mut standard_input = child.stdin.take().expect("its standard input");
    standard_input.write_all(input).expect("the input is read");
    drop(standard_input);
    child.wait_with_output().expect("it ends")
}

/// The names of all that is in a folder, in order.
pub fn names_in(folder: &Path) -> Vec<String> {
    let entries = fs::read_dir(folder).expect("a folder");
    let mut names: Vec<String> = entries
        .map(|entry| entry.expect("an entry").file_name())
        .map(|name| name.into_string().expect("a name in UTF-8"))
        .collect();
    names.sort();
    names
}

/// A path as text.
pub fn text(path: &Path) -> String {
    path.to_str().expect("a path in UTF-8").to_string()
}

pub fn bytes(words: &[u16]) -> Vec<u8> {
    words.iter().flat_map(|word| word.to_be_bytes()).collect()
}

/// The words of a sheet whose film has so many lines and dots, in bands of so many lines: pages of
/// bands of words.
pub fn sheet_words(lines: u16, dots: u16, band: u16, pages: &[Vec<Vec<u16>>]) -> Vec<u16> {
    let count = pages.len() as u16;
    let mut words = vec![0xAAAA, 1, 0, 600, 600, lines, dots, band, 100, 0, 1, count];
    for bands in pages {
        words.push(bands.len() as u16);
        for commands in bands {
            words.push(commands.len() as u16);
            words.extend(commands);
        }
    }
    words
}

pub fn sheet(lines: u16, dots: u16, band: u16, pages: &[Vec<Vec<u16>>]) -> Vec<u8> {
    bytes(&sheet_words(lines, dots, band, pages))
}

/// The sheet of the requirements: 4 lines of 16 dots in bands of 2, the rectangle of lines 1 and 2,
/// columns 1 to 3.
pub fn small_sheet() -> Vec<u8> {
    let rectangle = vec![5, 1, 2, 1, 3];
    sheet(4, 16, 2, &[vec![rectangle.clone(), rectangle]])
}

/// A PBM picture (P4).
pub fn pbm(width: usize, height: usize, rows: &[u8]) -> Vec<u8> {
    let mut picture = format!("P4\n{width} {height}\n").into_bytes();
    picture.extend(rows);
    picture
}

/// A PGM picture (P5) of so many dots width, in greys up to 255.
pub fn pgm(width: usize, greys: &[u8]) -> Vec<u8> {
    let mut picture = format!("P5\n{width} {}\n255\n", greys.len() / width).into_bytes();
    picture.extend(greys);
    picture
}

/// A sheet of many words that passes the check: one page of 128 bands of ink commands. At the
/// limit, 8,388,608 words, the last band has 65,522.
pub fn long_sheet(words: usize) -> Vec<u8> {
    let mut bands = vec![vec![2; 65_535]; 127];
    bands.push(vec![2; words - 13 - 128 - 127 * 65_535]);
    sheet(128, 16, 1, &[bands])
}

/// A job of so many bytes that is good but for its length: one line, after commands of length 0.
pub fn long_job(bytes: usize) -> Vec<u8> {
    let mut job = vec![0; bytes];
    let mut end = printbox::gdi::write_head(&mut job).expect("a head");
    let head = printbox::gdi::PageHead {
        tray: 0,
        width: 8,
        height: 1,
        format: 0,
        paper_type: 0,
        copies: 1,
        toner: 0,
    };
    end += printbox::gdi::write_page_head(&head, &mut job[end..]).expect("a page head");
    let ends = bytes - 12;
    while end < ends {
        let size = (ends - end - 6).min(65_535);
        let [low, high] = (size as u16).to_le_bytes();
        job[end..end + 6].copy_from_slice(&[0x12, 0, low, high, 0, 0]);
        end += 6 + size;
    }
    job[ends - 1] = 0x48;
    job[ends] = 0x13;
    job[ends + 6] = 0x14;
    job
}

/// A word of a sheet.
pub fn word(sheet: &[u8], at: usize) -> usize {
    usize::from(u16::from_be_bytes([sheet[2 * at], sheet[2 * at + 1]]))
}

/// The listing of a page and its picture, by `reference`.
pub fn reference_page(sheet: &[u8], load: &[u8], page: usize) -> (String, Vec<u8>) {
    let (lines, dots, size) = (word(sheet, 5), word(sheet, 6), word(sheet, 7));
    let mut listing = String::new();
    let mut rows_of_picture = Vec::new();
    let mut buffer = vec![0; 65_536];
    for band in 0..lines.div_ceil(size) {
        let answer = reference::film_draw(sheet, load, page, band, &mut buffer);
        let reference::Answer::Done(rows, ones) = answer else {
            panic!("page {page} band {band}: {answer:?}");
        };
        listing += &format!("page {page} band {band} rows {rows} dots {ones}\n");
        for row in buffer.chunks(2 * dots.div_ceil(16)).take(rows as usize) {
            listing.extend(row.iter().map(|byte| format!("{byte:02X}")));
            listing.push('\n');
            rows_of_picture.extend(&row[..dots.div_ceil(8)]);
        }
    }
    (listing, pbm(dots, lines, &rows_of_picture))
}
