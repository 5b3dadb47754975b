//! The header and the archive in the hands of a C compiler: two C programs that call every entry, the
//! header as C++, and the names that the archive brings into a program.

mod common;

use common::command::run;
use std::path::{Path, PathBuf};
use std::process::Command;

/// What tests/c/draw_band.c prints. Rows, dots and bytes of the two bands are those of the listing
/// in the requirements; the bytes EE beyond the rows stay, and all of them where the band is
/// refused.
const PRINTED: &str = "\
limits: 16777216 65536 16383
film rows: 2 2 4
job parts: 86 21 6
job rows: 1 1 2
room: 7 261 268
film_check: done 1 0
film_draw: done 2 3
00007000EEEE
film_draw: done 2 3
70000000EEEE
film_draw: refused 11 0
EEEEEEEEEEEE
gdi_write_head: done 86 0
gdi_write_page_head: done 21 0
11000F000403020104040000E20C01000403020001
gdi_write_row: done 10 0
120004000000F119B119
gdi_write_page_end: done 6 0
130000000000
gdi_write_document_end: done 6 0
140000000000
gdi_check: done 1 0
gdi_read_line: done 117 0
the row read is the row written
gdi_read_line: page end 123 0
gdi_write_row: done 16773 0
gdi_write_row: refused 27 0
gdi_linefill: done 39498 0
";

/// What tests/c/receive_strip.c prints. A row of the band is FF 00 for each tile, through E4: index
/// 0 is black and index 3 white. The bytes DD beyond the 16 rows stay.
const RECEIVED: &str = "\
sizes: 160 40 16 640 9 5760 648
initialize
reply 81
reply 02
band 1
reply 81
reply 02
page end
reply 81
reply 02
print 1 13 40
reply 81
reply 02
FF00 FF00 FF00 FF00 FF00 FF00 FF00 FF00 FF00 FF00 FF00 FF00 FF00 FF00 FF00 FF00 DDDD \n\
bands 0FBB
refused 31 at 0
refused 32 at 0
refused 33 at 0
refused 35 at 0
band 2
reply 81
reply 02
band 3
reply 81
reply 02
band 4
reply 81
reply 02
band 5
reply 81
reply 02
band 6
reply 81
reply 02
band 7
reply 81
reply 02
band 8
reply 81
reply 02
band 9
reply 81
reply 02
refused 34 at 0
refused 36 at 0
the record stays
inquiry
";

const ARCHIVE: &str = "../target/staticlib/libprintbox.a";

fn in_host(path: &str) -> PathBuf {
    Path::new(env!("CARGO_MANIFEST_DIR")).join(path)
}

/// Compiles a program of tests/c, runs it, and holds what it prints against what it should.
fn prints(name: &str, expected: &str) {
    let program = Path::new(env!("CARGO_TARGET_TMPDIR")).join(name);
    run(Command::new("gcc")
        .args([
            "-std=c99",
            "-Wall",
            "-Wextra",
            "-Wpedantic",
            "-Werror",
            "-O1",
            "-I",
        ])
        .arg(in_host("include"))
        .arg(in_host(&format!("tests/c/{name}.c")))
        .arg(in_host(ARCHIVE))
        .arg("-o")
        .arg(&program));
    let output = run(&mut Command::new(&program));
    assert_eq!(String::from_utf8_lossy(&output.stdout), expected);
}

#[test]
fn films_and_jobs_in_c() {
    prints("draw_band", PRINTED);
}

#[test]
fn a_strip_in_c() {
    prints("receive_strip", RECEIVED);
}

#[test]
fn header_is_cpp_too() {
    if Command::new("g++").arg("--version").output().is_err() {
        println!("skipped: g++ is not installed");
        return;
    }
    run(Command::new("g++")
        .args([
            "-std=c++11",
            "-Wall",
            "-Wextra",
            "-Wpedantic",
            "-Werror",
            "-fsyntax-only",
            "-x",
            "c++",
        ])
        .arg(in_host("include/printbox.h")));
}

/// The archive has no other names that could clash with a program's, and asks nothing of it but
/// `memcpy` and `memset`: it allocates no memory, and it reads and writes no file.
#[test]
fn archive_has_just_the_entries() {
    let output = run(Command::new("nm")
        .args(["--extern-only", "--format=posix"])
        .arg(in_host(ARCHIVE)));
    let listed = String::from_utf8_lossy(&output.stdout);
    let mut names: Vec<String> = listed
        .lines()
        .filter(|line| !line.ends_with(':')) // the file that holds them
        .map(|line| line.split(' ').take(2).collect::<Vec<_>>().join(" "))
        .collect();
    names.sort_unstable();
    let expected = [
        "film_check T",
        "film_draw T",
        "gdi_check T",
        "gdi_linefill T",
        "gdi_read_line T",
        "gdi_write_document_end T",
        "gdi_write_head T",
        "gdi_write_page_end T",
        "gdi_write_page_head T",
        "gdi_write_row T",
        "memcpy U",
        "memset U",
        "strip_new T",
        "strip_receive T",
        "strip_set_status T",
    ];
    assert_eq!(names, expected);
}
