//! The sample film and the sample strip, which README shows.

mod common;

use common::{folder, names_in, ran, reference_page, run, text};
use std::fs;
use std::path::{Path, PathBuf};
use std::process::Command;

fn sample(name: &str) -> PathBuf {
    Path::new(env!("CARGO_MANIFEST_DIR"))
        .join("../../sample")
        .join(name)
}

/// It passes the check and is drawn as `reference` draws it; the stored pictures are those pages.
#[test]
fn sample_film() {
    let folder = folder("sample_film");
    let (sheet, load) = (sample("film.sheet"), sample("film.load"));
    let files = ["--load", &text(&load), &text(&sheet)];
    assert_eq!(
        run(&[&["check"], &files[..]].concat()),
        ran(0, "passed, 2 pages of 15 bands\n", "")
    );
    let pages = text(&folder.join("pages"));
    assert_eq!(
        run(&[&["draw", "--all", &pages], &files[..]].concat()),
        ran(0, "", "")
    );
    let pages = folder.join("pages");
    assert_eq!(names_in(&pages), ["page-0.pbm", "page-1.pbm"]);
    let sheet = fs::read(sheet).expect("the sheet");
    let load = fs::read(load).expect("the load");
    for page in 0..2 {
        let drawn = fs::read(pages.join(format!("page-{page}.pbm"))).expect("a page");
        assert!(
            drawn == reference_page(&sheet, &load, page).1,
            "page {page}"
        );
        let stored = sample(&format!("page-{page}.png"));
        match Command::new("pngtopnm").arg(&stored).output() {
            Ok(output) => assert!(output.stdout == drawn, "{}", stored.display()),
            Err(_) => println!("skipped {}: pngtopnm is not there", stored.display()),
        }
    }
}

/// The stream is that of the picture, and prints it; the stored PNG is what it prints, page under
/// page.
#[test]
fn sample_strip() {
    let folder = folder("sample_strip");
    let (picture, stream) = (text(&sample("strip.pgm")), text(&sample("strip.bin")));
    let target = text(&folder.join("made.bin"));
    assert_eq!(
        run(&["strip", "make", &picture, "-o", &target]),
        ran(0, "", "")
    );
    let made = fs::read(target).expect("the stream");
    assert!(made == fs::read(&stream).expect("the stored stream"));
    let pages = folder.join("pages");
    let told = run(&["strip", &stream, "-o", &text(&pages)]);
    assert_eq!((told.status, &*told.error), (0, ""));
    let lines = told.output.lines().filter(|line| line.contains("print"));
    let expected = [
        "at 2707: print, 9 bands, margins 1 and 0, density 64",
        "at 4120: print, 4 bands, margins 0 and 3, density 64",
    ];
    assert_eq!(lines.collect::<Vec<_>>(), expected);
    let mut printed = Vec::new();
    for (name, head) in [
        ("page-0.pgm", "P5\n160 144\n255\n"),
        ("page-1.pgm", "P5\n160 64\n255\n"),
    ] {
        let page = fs::read(pages.join(name)).expect("a page");
        printed.extend(page.strip_prefix(head.as_bytes()).expect("its head"));
    }
    let mut expected = fs::read(picture).expect("the picture").split_off(15);
    expected.resize(160 * 208, 255);
    assert!(printed == expected);
    let stored = sample("strip.png");
    match Command::new("pngtopnm").arg(&stored).output() {
        Ok(output) => {
            let shades = output.stdout.strip_prefix(b"P5\n160 208\n3\n");
            let greys = shades.expect("its head").iter().map(|shade| 85 * shade);
            assert!(greys.eq(printed), "{}", stored.display());
        }
        Err(_) => println!("skipped {}: pngtopnm is not there", stored.display()),
    }
}
