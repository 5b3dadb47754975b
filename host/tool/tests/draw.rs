//! `draw` and `list`.

mod common;

use common::{
    bytes, file, folder, names_in, pbm, ran, reference_page, run, sheet, sheet_words, small_sheet,
    text, tool, word,
};
use generate::Rng;
use std::fs;
use std::path::Path;
use std::process::Command;

/// What the tool writes to standard output, which has to end well.
fn drawn(arguments: &[&str]) -> Vec<u8> {
    let output = tool(arguments).output().expect("the tool runs");
    let error = String::from_utf8_lossy(&output.stderr);
    assert_eq!((output.status.code(), &*error), (Some(0), ""));
    output.stdout
}

fn read(path: &Path) -> Vec<u8> {
    fs::read(path).expect("a file that was written")
}

#[test]
fn pages_and_bands() {
    let folder = folder("pages_and_bands");
    let path = file(&folder, "sheet", &small_sheet());
    let page = pbm(16, 4, &[0, 0, 0x70, 0, 0x70, 0, 0, 0]);
    assert_eq!(drawn(&["draw", &path]), page);
    assert_eq!(drawn(&["draw", &path, "--page", "0"]), page);
    assert_eq!(
        drawn(&["draw", &path, "--band", "0"]),
        pbm(16, 2, &[0, 0, 0x70, 0])
    );
    assert_eq!(
        drawn(&["draw", &path, "--page=0", "--band=1"]),
        pbm(16, 2, &[0x70, 0, 0, 0])
    );
    let target = folder.join("picture.pbm");
    assert_eq!(run(&["draw", &path, "-o", &text(&target)]), ran(0, "", ""));
    assert_eq!(read(&target), page);
    assert_eq!(drawn(&["draw", &path, "-o", "-"]), page);
}

/// A row of 9 dots has 2 bytes in a film of 16, and 2 in a picture; one of 17 dots has 4 and 3. The
/// last band has one line.
#[test]
fn widths() {
    let folder = folder("widths");
    let all = vec![5, 0, 9, 0, 40];
    for (dots, row) in [
        (1, &[0x80][..]),
        (8, &[0xFF]),
        (9, &[0xFF, 0x80]),
        (16, &[0xFF, 0xFF]),
        (17, &[0xFF, 0xFF, 0x80]),
    ] {
        let path = file(
            &folder,
            "sheet",
            &sheet(3, dots, 2, &[vec![all.clone(); 2]]),
        );
        assert_eq!(
            drawn(&["draw", &path]),
            pbm(dots.into(), 3, &row.repeat(3)),
            "{dots} dots"
        );
        assert_eq!(
            drawn(&["draw", &path, "--band", "1"]),
            pbm(dots.into(), 1, row)
        );
    }
}

#[test]
fn refusals() {
    let folder = folder("draw_refusals");
    let path = file(&folder, "sheet", &small_sheet());
    let line = format!(
        "printbox: {path}: refused 11 at 0: no such page or band (the sheet has 1 page of 2 bands)\n"
    );
    let target = file(&folder, "picture.pbm", b"what was there");
    for arguments in [
        &["--page", "1"][..],
        &["--band", "2"],
        &["--page", "18446744073709551615"],
        &["--page", "0", "--band", "18446744073709551615"],
        &["--page", "1", "-o", &target],
    ] {
        let mut all = vec!["draw", &path];
        all.extend(arguments);
        assert_eq!(run(&all), ran(1, "", &line));
    }
    assert_eq!(read(Path::new(&target)), b"what was there");

    let all = folder.join("all");
    let bad = file(&folder, "bad", &small_sheet()[..48]);
    let past_end = "the band runs past the end of the sheet (page 0, band 1)";
    assert_eq!(
        run(&["draw", &bad, "--all", &text(&all)]),
        ran(
            1,
            "",
            &format!("printbox: {bad}: refused 6 at 19: {past_end}\n")
        )
    );
    assert!(!all.exists());
    let here = text(&folder);
    let is_folder = format!("printbox: {here}: Is a directory\n");
    assert_eq!(run(&["draw", &here]), ran(2, "", &is_folder));
    assert_eq!(
        run(&["draw", &path, "--load", &here]),
        ran(2, "", &is_folder)
    );
    assert_eq!(run(&["list", &here]), ran(2, "", &is_folder));
    assert_eq!(run(&["draw", &path, "-o", &here]), ran(2, "", &is_folder));
}

/// A band is drawn where a fault of another one does not concern it; the fault is named.
#[test]
fn a_fault_elsewhere() {
    let folder = folder("a_fault_elsewhere");
    let rectangle = vec![5, 0, 1, 0, 1];
    let pages = [vec![rectangle, vec![99]], vec![vec![], vec![]]];
    let path = file(&folder, "sheet", &sheet(2, 16, 1, &pages));
    let fault = "refused 7 at 20: unknown command code (page 0, band 1, first command)";
    let named = format!("printbox: {path}: drawn, but the check says: {fault}\n");

    let target = folder.join("band.pbm");
    let output = text(&target);
    assert_eq!(
        run(&["draw", &path, "--band", "0", "-o", &output]),
        ran(0, "", &named)
    );
    assert_eq!(read(&target), pbm(16, 1, &[0x80, 0]));
    assert_eq!(
        run(&["draw", &path, "--page", "1", "-o", &output]),
        ran(0, "", &named)
    );
    assert_eq!(read(&target), pbm(16, 2, &[0; 4]));
    // Page 0 has a band that is refused, so there is no picture of it.
    fs::remove_file(&target).expect("the picture is removed");
    assert_eq!(
        run(&["draw", &path, "-o", &output]),
        ran(1, "", &format!("printbox: {path}: {fault}\n"))
    );
    assert!(!target.exists());
}

#[test]
fn every_page() {
    let folder = folder("every_page");
    let pages: Vec<_> = (0..12).map(|f| vec![vec![5, 0, 1, f, 1]]).collect();
    let path = file(&folder, "sheet", &sheet(1, 16, 1, &pages));
    let target = folder.join("made/here");
    let arguments = ["draw", &path, "--all", &text(&target)];
    assert_eq!(run(&arguments), ran(0, "", ""));
    let expected: Vec<_> = (0..12).map(|page| format!("page-{page:02}.pbm")).collect();
    assert_eq!(names_in(&target), expected);
    for (page, name) in expected.iter().enumerate() {
        let row = (0x8000u16 >> page).to_be_bytes();
        assert_eq!(read(&target.join(name)), pbm(16, 1, &row));
    }
    // Again: the files are replaced.
    assert_eq!(run(&arguments), ran(0, "", ""));
    let blocked = file(&folder, "blocked", b"");
    assert_eq!(
        run(&["draw", &path, "--all", &blocked]),
        ran(2, "", &format!("printbox: {blocked}: File exists\n"))
    );
}

/// On a terminal `--all` shows its progress, and a picture is not written there. `script` runs the
/// tool in one.
#[test]
fn on_a_terminal() {
    let folder = folder("on_a_terminal");
    let path = file(&folder, "sheet", &small_sheet());
    let script = |line: &str| {
        let mut command = Command::new("script");
        command.args(["--quiet", "--return", "--command", line, "/dev/null"]);
        command.output()
    };
    if !script("true").is_ok_and(|output| output.status.success()) {
        println!("skipped what needs a terminal: script makes none here");
        return;
    }
    let in_terminal = |arguments: &str| {
        let line = format!("{} {arguments}", env!("CARGO_BIN_EXE_printbox"));
        let output = script(&line).expect("script runs");
        (output.status.code(), output.stdout)
    };
    let all = text(&folder.join("all"));
    let (status, shown) = in_terminal(&format!("draw '{path}' --all '{all}'"));
    let shown = String::from_utf8_lossy(&shown);
    assert_eq!(status, Some(0), "{shown}");
    assert!(
        shown.contains("\r0 of 1 pages, 2 of 2 bands\x1b[K") && shown.ends_with("\r\x1b[K"),
        "{shown:?}"
    );
    let (status, shown) = in_terminal(&format!("draw '{path}'"));
    let shown = String::from_utf8_lossy(&shown);
    assert_eq!(status, Some(2));
    assert_eq!(
        shown.trim_end(),
        "printbox: the output is not for a terminal: give -o FILE, or a pipe"
    );
}

/// The inputs of the listing programs, whose output is stored beside them. One is over the
/// program's own limit of 65,536 bytes, which is not the tool's.
#[test]
fn stored_listings() {
    let crates = Path::new(env!("CARGO_MANIFEST_DIR")).join("../../crates");
    for (name, status) in [
        ("listing", 0),
        ("test_listing_masks", 0),
        ("test_listing_longest", 0),
        ("test_listing_refused", 1),
        ("test_listing_empty", 1),
    ] {
        let input = text(&crates.join(name).join("stdin"));
        let stored = fs::read_to_string(crates.join(name).join("stdout")).expect("its output");
        assert_eq!(run(&["list", &input]), ran(status, &stored, ""), "{name}");
    }
}

/// Random films with their loads: what the tool draws and lists is what `reference` draws, page by
/// page and band by band; and it refuses what `reference` refuses.
#[test]
fn random_films() {
    let folder = folder("random_films");
    let (mut passed, mut refused) = (0, 0);
    for seed in 0.. {
        let film = generate::film(&mut Rng::new(seed));
        let path = file(&folder, "sheet", &film.sheet);
        let load = file(&folder, "load", &film.load);
        let listed = match reference::film_check(&film.sheet, &film.load) {
            reference::Answer::Done(pages, _) if passed < 60 => {
                passed += 1;
                let last = (pages - 1).to_string();
                let (_, picture) = reference_page(&film.sheet, &film.load, pages as usize - 1);
                let arguments = ["draw", &path, "--load", &load, "--page", &last];
                assert_eq!(drawn(&arguments), picture, "seed {seed}");
                ran(0, &reference_listing(&film.sheet, &film.load, pages), "")
            }
            reference::Answer::Refused(number, place) if refused < 60 => {
                refused += 1;
                let line = format!("refused {number} at {place}");
                let checked = run(&["check", &path, "--load", &load]);
                assert!(checked.output.starts_with(&format!("{line}: ")));
                assert_eq!((checked.status, &*checked.error), (1, ""));
                ran(1, &format!("{line}\n"), "")
            }
            _ if passed == 60 && refused == 60 => break,
            _ => continue,
        };
        assert_eq!(
            run(&["list", &path, "--load", &load]),
            listed,
            "seed {seed}"
        );
    }
}

fn reference_listing(sheet: &[u8], load: &[u8], pages: u64) -> String {
    let bands = word(sheet, 5).div_ceil(word(sheet, 7));
    let mut listing = format!("pages {pages} bands {bands}\n");
    for page in 0..pages as usize {
        listing += &reference_page(sheet, load, page).0;
    }
    listing
}

/// The widest film, of 32,768 dots, and the longest, of as many lines, each a band.
#[test]
fn greatest_films() {
    let folder = folder("greatest_films");
    let wide = file(
        &folder,
        "wide",
        &sheet(1, 32_768, 1, &[vec![vec![5, 0, 1, 32_767, 9]]]),
    );
    let mut row = vec![0; 4096];
    row[4095] = 1;
    assert_eq!(drawn(&["draw", &wide]), pbm(32_768, 1, &row));

    let mut bands = vec![vec![]; 32_768];
    bands[32_767] = vec![5, 32_767, 9, 0, 1];
    let long = file(&folder, "long", &sheet(32_768, 1, 1, &[bands]));
    let mut rows = vec![0; 32_768];
    rows[32_767] = 0x80;
    assert_eq!(drawn(&["draw", &long]), pbm(1, 32_768, &rows));
}

/// A sheet over the listing program's limit is listed here.
#[test]
fn a_long_listing() {
    let folder = folder("a_long_listing");
    let words = sheet_words(2, 16, 1, &[vec![vec![2; 40_000], vec![3; 40_000]]]);
    let path = file(&folder, "sheet", &bytes(&words));
    let listing = "pages 1 bands 2\npage 0 band 0 rows 1 dots 0\n0000\n\
                   page 0 band 1 rows 1 dots 0\n0000\n";
    assert_eq!(run(&["list", &path]), ran(0, listing, ""));
}
