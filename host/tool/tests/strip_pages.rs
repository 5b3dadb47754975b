//! `strip -o`: printed pages as pictures.

mod common;

use common::packets::{coded, initialize, packet, page_end, plain, print};
use common::{file, finished, folder, names_in, pgm, ran, run, run_on, text, tool};
use std::fs;
use std::path::Path;

fn read(path: impl AsRef<Path>) -> Vec<u8> {
    fs::read(path).expect("a file that was written")
}

/// A page of one plain band of these bytes, through this palette.
fn page(body: &[u8], palette: u8) -> Vec<u8> {
    let print = packet(0x02, 0, &[1, 0x13, palette, 64]);
    [initialize(), packet(0x04, 0, body), page_end(), print].concat()
}

/// The lines of such a page that begins at a place.
fn lines(start: usize) -> String {
    format!(
        "at {start}: initialize\nat {}: data, band 1 of 9\nat {}: data, end of page\n\
         at {}: print, 1 band, margins 1 and 3, density 64\n",
        start + 10,
        start + 660,
        start + 670
    )
}

/// A picture of so many bands of one grey.
fn bands(bands: usize, grey: u8) -> Vec<u8> {
    pgm(160, &vec![grey; 160 * 16 * bands])
}

/// Dots of each index at the ends of tiles, through two palettes.
#[test]
fn dots() {
    let folder = folder("strip_dots");
    let mut body = [0; 640];
    (body[0], body[1]) = (0b1010_0001, 0b1100_0001); // the first row's first eight dots: 3 2 1 0 0 0 0 3
    body[16 * 20 + 1] = 0x80; // row 8, dot 0
    body[639] = 1; // the last dot
    for (palette, greys) in [
        (0x1B, [255, 170, 85, 0]),
        (0xE4, [0, 85, 170, 255]),
        (0x2D, [255, 85, 0, 170]),
    ] {
        let mut expected = vec![greys[0]; 160 * 16];
        for (dot, index) in [3, 2, 1, 0, 0, 0, 0, 3].into_iter().enumerate() {
            expected[dot] = greys[index];
        }
        expected[8 * 160] = greys[2];
        expected[16 * 160 - 1] = greys[2];
        let stream = file(&folder, "stream", &page(&body, palette));
        let pages = folder.join("made/here");
        let arguments = ["strip", &stream, "-o", &text(&pages)];
        assert_eq!(run(&arguments), ran(0, &lines(0), ""));
        assert_eq!(names_in(&pages), ["page-0.pgm"]);
        assert!(
            read(pages.join("page-0.pgm")) == pgm(160, &expected),
            "{palette:02X}"
        );
    }
}

/// Two bands, printed twice; a page of none between, which has no picture; then one band.
#[test]
fn prints() {
    let folder = folder("strip_prints");
    let stream = [
        print(),
        plain(0xFF),
        coded(0),
        print(),
        print(),
        initialize(),
        print(),
        plain(0xFF),
        print(),
    ];
    let stream = file(&folder, "stream", &stream.concat());
    let pages = folder.join("pages");
    let margins = "margins 1 and 3, density 64\n";
    let expected = format!(
        "at 0: print, 0 bands, {margins}\
         at 14: data, band 1 of 9\n\
         at 664: data, band 2 of 9\n\
         at 684: print, 2 bands, {margins}\
         at 698: print, 2 bands, {margins}\
         at 712: initialize\n\
         at 722: print, 0 bands, {margins}\
         at 736: data, band 1 of 9\n\
         at 1386: print, 1 band, {margins}"
    );
    assert_eq!(
        run(&["strip", "-o", &text(&pages), &stream]),
        ran(0, &expected, "")
    );
    assert_eq!(names_in(&pages), ["page-0.pgm", "page-1.pgm", "page-2.pgm"]);
    let both = [vec![0; 160 * 16], vec![255; 160 * 16]].concat();
    assert!(read(pages.join("page-0.pgm")) == pgm(160, &both));
    assert!(read(pages.join("page-1.pgm")) == pgm(160, &both));
    assert!(read(pages.join("page-2.pgm")) == bands(1, 0));
}

/// Only prints of no bands: no picture. Without -o: none, in the working folder either.
#[test]
fn no_pictures() {
    let folder = folder("strip_no_pictures");
    let stream = file(&folder, "stream", &packet(0x02, 0, &[1, 0, 0xE4, 0]));
    let pages = folder.join("pages");
    let line = "at 0: print, 0 bands, margins 0 and 0, density 0\n";
    assert_eq!(
        run(&["strip", &stream, "-o", &text(&pages)]),
        ran(0, line, "")
    );
    assert!(names_in(&pages).is_empty());
    let stream = file(&folder, "stream", &page(&[0; 640], 0x1B));
    let output = tool(&["strip", &stream]).current_dir(&pages).output();
    assert_eq!(
        finished(output.expect("the tool runs")),
        ran(0, &lines(0), "")
    );
    assert!(names_in(&pages).is_empty());
}

/// Twenty pages: all numbers have two digits. Again, with ten: these have one.
#[test]
fn twenty_pages() {
    let folder = folder("strip_twenty_pages");
    let pages = folder.join("pages");
    let nine_bands = |page: u8| {
        // Of one index, whose shade the page's palette gives.
        let print = packet(0x02, 0, &[1, 0, page << 6, page]);
        [initialize(), plain(0).repeat(9), print].concat()
    };
    for (count, digits) in [(20, 2), (10, 1), (11, 2)] {
        let _ = fs::remove_dir_all(&pages);
        let stream: Vec<u8> = (0..count).flat_map(nine_bands).collect();
        let stream = file(&folder, "stream", &stream);
        let told = run(&["strip", &stream, "-o", &text(&pages)]);
        assert_eq!((told.status, &*told.error), (0, ""));
        assert_eq!(told.output.lines().count(), 11 * usize::from(count));
        let last = format!("print, 9 bands, margins 0 and 0, density {}\n", count - 1);
        assert!(told.output.ends_with(&last));
        let names: Vec<_> = (0..count)
            .map(|page| format!("page-{page:0digits$}.pgm"))
            .collect();
        assert_eq!(names_in(&pages), names);
        for (page, name) in names.iter().enumerate() {
            let grey = [255, 170, 85, 0][page % 4];
            assert!(read(pages.join(name)) == bands(9, grey), "{name}");
        }
    }
}

/// A refused packet changes no page, and the pages of a cut stream are there.
#[test]
fn damaged() {
    let folder = folder("strip_damaged_pages");
    let mut stream = page(&[0xFF; 640], 0x1B);
    let mut wrong = plain(0);
    wrong[20] = 1;
    stream.extend(wrong);
    stream.extend(packet(0x02, 0, &[1, 0, 0x1B, 0]));
    stream.extend(&page(&[0; 640], 0x1B)[..680]);
    let stream = file(&folder, "stream", &stream);
    let pages = folder.join("pages");
    let expected = lines(0)
        + "at 684: refused 31, checksum 0086, and the sum is 0087\n\
           at 1334: print, 1 band, margins 0 and 0, density 0\n\
           at 1348: initialize\n\
           at 1358: data, band 1 of 9\n\
           at 2008: data, end of page\n\
           ends inside a packet that begins at 2018\n";
    assert_eq!(
        run(&["strip", &stream, "-o", &text(&pages)]),
        ran(1, &expected, "")
    );
    assert_eq!(names_in(&pages), ["page-0.pgm", "page-1.pgm"]);
    assert!(read(pages.join("page-0.pgm")) == bands(1, 0));
    assert!(read(pages.join("page-1.pgm")) == bands(1, 0));
}

#[test]
fn several_files() {
    let folder = folder("strip_pages_of_several_files");
    let pages = folder.join("pages");
    let target = text(&pages);
    let one = file(&folder, "one.bin", &page(&[0; 640], 0x00));
    let two = file(&folder, "two.v1.bin", &page(&[0; 640], 0x40).repeat(11));
    let missing = text(&folder.join("missing"));
    let arguments = ["strip", &one, &two, &missing, "-", "-o", &target];
    let told = finished(run_on(&arguments, &page(&[0; 640], 0x80)));
    assert_eq!(told.status, 2);
    assert_eq!(
        told.error,
        format!("printbox: {missing}: No such file or directory\n")
    );
    let total = "4 streams: 52 packets done, 0 refused, 1 stream can't be read\n";
    assert!(told.output.ends_with(total), "{}", told.output);
    let mut names = vec![
        "one-page-0.pgm".to_string(),
        "standard-input-page-0.pgm".to_string(),
    ];
    names.extend((0..11).map(|page| format!("two.v1-page-{page:02}.pgm")));
    assert_eq!(names_in(&pages), names);
    assert!(read(pages.join(&names[0])) == bands(1, 255));
    assert!(read(pages.join(&names[1])) == bands(1, 85));
    assert!(read(pages.join(&names[12])) == bands(1, 170));

    let pages = folder.join("two");
    let told = run(&["strip", &one, &two, "-o", &text(&pages)]);
    assert_eq!((told.status, &*told.error), (0, ""));
    names.remove(1);
    assert_eq!(names_in(&pages), names);
}

/// Files whose pages would have the same names are not received.
#[test]
fn same_names() {
    let folder = folder("strip_same_names");
    let one = file(&folder, "one.bin", &page(&[0; 640], 0x1B));
    let other = file(&folder, "one.raw", &page(&[0; 640], 0x1B));
    let pages = folder.join("pages");
    let target = text(&pages);
    let more = "`printbox strip --help` tells more";
    assert_eq!(
        run(&["strip", &one, &other, "-o", &target]),
        ran(
            2,
            "",
            &format!(
                "printbox: the pages of {one} and {other} would have the same names; {more}\n"
            )
        )
    );
    assert!(!pages.exists());
    // Without -o there are no names.
    assert_eq!(run(&["strip", &one, &other]).status, 0);
}

/// A folder that can't be made, and a picture that can't be written.
#[test]
fn blocked() {
    let folder = folder("strip_blocked");
    let stream = file(&folder, "stream", &page(&[0; 640], 0x1B));
    let blocked = file(&folder, "blocked", b"");
    assert_eq!(
        run(&["strip", &stream, "-o", &blocked]),
        ran(2, "", &format!("printbox: {blocked}: File exists\n"))
    );
    let below = text(&folder.join("blocked/below"));
    assert_eq!(
        run(&["strip", &stream, "-o", &below]),
        ran(2, "", &format!("printbox: {below}: Not a directory\n"))
    );
    let pages = folder.join("pages");
    fs::create_dir_all(pages.join("page-0.pgm")).expect("a folder is made");
    let told = run(&["strip", &stream, "-o", &text(&pages)]);
    let picture = text(&pages.join("page-0.pgm"));
    let before = &lines(0)[..lines(0).find("at 670").expect("the print")];
    assert_eq!(
        told,
        ran(2, before, &format!("printbox: {picture}: Is a directory\n"))
    );
    // The name that the first of eleven pages gets at the end is taken by a folder with a file in it.
    let taken = folder.join("taken");
    fs::create_dir_all(taken.join("page-00.pgm/file")).expect("a folder is made");
    let eleven = file(&folder, "eleven", &page(&[0; 640], 0x1B).repeat(11));
    let told = run(&["strip", &eleven, "-o", &text(&taken)]);
    let picture = text(&taken.join("page-00.pgm"));
    assert_eq!(told.status, 2);
    assert_eq!(told.error, format!("printbox: {picture}: Is a directory\n"));
}
