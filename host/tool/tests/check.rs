//! `check` and `job check`.

mod common;

use common::{bytes, file, finished, folder, long_job, long_sheet, ran, run, run_on, sheet};
use common::{sheet_words, small_sheet, text};
use printbox::FILE_BYTES;
use std::fs::{self, File};

#[test]
fn one_sheet() {
    let folder = folder("one_sheet");
    let good = file(&folder, "good", &small_sheet());
    assert_eq!(
        run(&["check", &good]),
        ran(0, "passed, 1 page of 2 bands\n", "")
    );

    let pages = vec![vec![vec![]; 40]; 3];
    let forty = file(&folder, "forty", &sheet(40, 16, 1, &pages));
    assert_eq!(
        run(&["check", &forty]),
        ran(0, "passed, 3 pages of 40 bands\n", "")
    );

    let unknown = sheet(2, 16, 2, &[vec![vec![2, 11]]]);
    let unknown = file(&folder, "unknown", &unknown);
    assert_eq!(
        run(&["check", &unknown]),
        ran(
            1,
            "refused 7 at 15: unknown command code (page 0, band 0, second command)\n",
            ""
        )
    );

    let falling = sheet(2, 16, 2, &[vec![vec![1, 9, 0, 1, 5, 0]]]);
    let falling = file(&folder, "falling", &falling);
    let line = "refused 8 at 18: the priority falls from 9 to 5 \
                (page 0, band 0, second command, its low word)\n";
    assert_eq!(run(&["check", &falling]), ran(1, line, ""));
}

#[test]
fn with_a_load() {
    let folder = folder("with_a_load");
    let tiled = sheet(2, 16, 2, &[vec![vec![4, 0, 0, 0]]]);
    let tiled = file(&folder, "tiled", &tiled);
    let load = file(&folder, "load", &bytes(&[6, 0, 0, 0, 0, 1, 1, 0x8000]));
    for arguments in [
        vec!["check", &tiled, "--load", &load],
        vec!["check", "--load", &load, &tiled],
        vec!["check", &format!("--load={load}"), "--", &tiled],
    ] {
        assert_eq!(run(&arguments), ran(0, "passed, 1 page of 1 band\n", ""));
    }
    assert_eq!(
        run(&["check", &tiled]),
        ran(
            1,
            "refused 9 at 14: the tile runs past the load (page 0, band 0, first command)\n",
            ""
        )
    );
    let odd = file(&folder, "odd", &[0; 5]);
    assert_eq!(
        run(&["check", &tiled, "--load", &odd]),
        ran(
            1,
            "refused 1 at 0: the load has an odd number of bytes\n",
            ""
        )
    );
    let missing = text(&folder.join("missing"));
    assert_eq!(
        run(&["check", &tiled, "--load", &missing]),
        ran(
            2,
            "",
            &format!("printbox: {missing}: No such file or directory\n")
        )
    );
}

/// 40 sheets, a different fault in each: two pages of five bands of two rectangles, and in each
/// band four faults.
#[test]
fn forty_damaged_sheets() {
    let folder = folder("forty_damaged_sheets");
    let band = vec![5, 0, 1, 0, 1, 5, 1, 1, 1, 1];
    let good = sheet_words(10, 16, 2, &vec![vec![band; 5]; 2]);
    let mut expected = String::new();
    for number in 0..40 {
        let (page, band, fault) = (number / 20, number / 4 % 5, number % 4);
        let count = 12 + page * (1 + 5 * 11) + 1 + band * 11;
        let mut words = good.clone();
        let (refusal, place, what, command) = match fault {
            0 => {
                words[count + 1] = 11;
                (7, count + 1, "unknown command code", ", first command")
            }
            1 => {
                words[count + 6] = 0;
                (7, count + 6, "unknown command code", ", second command")
            }
            2 => {
                words[count] = 9;
                let what = "the command runs past the end of its band";
                (6, count + 6, what, ", second command")
            }
            _ => {
                words.truncate(count + 10);
                (6, count, "the band runs past the end of the sheet", "")
            }
        };
        let path = file(&folder, &format!("sheet-{number:02}"), &bytes(&words));
        expected += &format!(
            "{path}: refused {refusal} at {place}: {what} (page {page}, band {band}{command})\n"
        );
    }
    expected += "40 sheets: 0 passed, 40 refused\n";
    let folder_name = text(&folder);
    assert_eq!(run(&["check", &folder_name]), ran(1, &expected, ""));

    // A good one among them, and things that are no sheets to be checked.
    let good = file(&folder, "a good one", &bytes(&good));
    file(&folder, ".hidden", b"");
    fs::create_dir(folder.join("more")).expect("a folder is made");
    let load = file(&folder, "sheet-load", &[0; 4]);
    let expected = format!("{good}: passed, 2 pages of 5 bands\n{expected}")
        .replace("40 sheets: 0 passed", "41 sheets: 1 passed");
    assert_eq!(
        run(&["check", &folder_name, "--load", &load]),
        ran(1, &expected, "")
    );
}

#[test]
fn many_files() {
    let folder = folder("many_files");
    let good = file(&folder, "good", &small_sheet());
    let bad = file(&folder, "bad", &small_sheet()[2..]);
    let missing = text(&folder.join("missing"));
    assert_eq!(
        run(&["check", &good, &good]),
        ran(
            0,
            &format!(
                "{good}: passed, 1 page of 2 bands\n\
                 {good}: passed, 1 page of 2 bands\n\
                 2 sheets: 2 passed, 0 refused\n"
            ),
            ""
        )
    );
    // A folder of nothing, or a file that can't be read, keeps none of the others from being checked.
    let empty = folder.join("empty");
    fs::create_dir(&empty).expect("a folder is made");
    let empty = text(&empty);
    assert_eq!(
        run(&["check", &good, &empty, &good]),
        ran(
            2,
            &format!(
                "{good}: passed, 1 page of 2 bands\n\
                 {good}: passed, 1 page of 2 bands\n\
                 3 sheets: 2 passed, 0 refused, 1 can't be read\n"
            ),
            &format!("printbox: {empty}: no files in this folder\n")
        )
    );
    assert_eq!(
        run(&["check", &good, &missing, &bad]),
        ran(
            2,
            &format!(
                "{good}: passed, 1 page of 2 bands\n\
                 {bad}: refused 2 at 0: the password is 0001 hex, and not AAAA\n\
                 3 sheets: 1 passed, 1 refused, 1 can't be read\n"
            ),
            &format!("printbox: {missing}: No such file or directory\n")
        )
    );
}

#[test]
fn no_files() {
    let folder = folder("no_files");
    let missing = text(&folder.join("missing"));
    let not_there = format!("printbox: {missing}: No such file or directory\n");
    assert_eq!(run(&["check", &missing]), ran(2, "", &not_there));
    assert_eq!(run(&["job", "check", &missing]), ran(2, "", &not_there));
    let empty = text(&folder);
    let nothing = format!("printbox: {empty}: no files in this folder\n");
    let total = "0 passed, 0 refused, 1 can't be read\n";
    assert_eq!(
        run(&["check", &empty]),
        ran(2, &format!("1 sheet: {total}"), &nothing)
    );
    assert_eq!(
        run(&["job", "check", &empty]),
        ran(2, &format!("1 job: {total}"), &nothing)
    );
    // A link that leads nowhere is a file that can't be read.
    let link = folder.join("link");
    std::os::unix::fs::symlink(&missing, &link).expect("a link is made");
    let link = text(&link);
    assert_eq!(
        run(&["check", &empty]),
        ran(
            2,
            "1 sheet: 0 passed, 0 refused, 1 can't be read\n",
            &format!("printbox: {link}: No such file or directory\n")
        )
    );
}

#[test]
fn empty_files() {
    let folder = folder("empty_files");
    let empty = file(&folder, "empty", b"");
    assert_eq!(
        run(&["check", &empty]),
        ran(1, "refused 2 at 0: fewer than 12 words (0)\n", "")
    );
    assert_eq!(
        run(&["check", &empty, "--load", &empty]),
        ran(1, "refused 2 at 0: fewer than 12 words (0)\n", "")
    );
    let good = file(&folder, "good", &small_sheet());
    assert_eq!(
        run(&["check", &good, "--load", &empty]),
        ran(1, "refused 4 at 8: the load has no whole count\n", "")
    );
    assert_eq!(
        run(&["job", "check", &empty]),
        ran(
            1,
            "refused 24 at 0: the job ends where bytes are needed (head)\n",
            ""
        )
    );
}

/// Files at the limits and over them, and one that is far too long to be read whole.
#[test]
fn long_files() {
    let folder = folder("long_files");
    let at_limit = file(&folder, "sheet", &long_sheet(FILE_BYTES / 2));
    assert_eq!(
        run(&["check", &at_limit]),
        ran(0, "passed, 1 page of 128 bands\n", "")
    );
    let over = long_sheet(FILE_BYTES / 2 + 1);
    assert_eq!(over.len(), 16_777_218);
    let over = file(&folder, "long sheet", &over);
    let too_long = "refused 1 at 0: the sheet is longer than 16,777,216 bytes\n";
    assert_eq!(run(&["check", &over]), ran(1, too_long, ""));
    assert_eq!(run(&["list", &over]), ran(1, "refused 1 at 0\n", ""));
    assert_eq!(
        run(&["draw", &over]),
        ran(1, "", &format!("printbox: {over}: {too_long}"))
    );
    assert_eq!(
        run(&["check", &at_limit, "--load", &over]),
        ran(
            1,
            "refused 1 at 0: the load is longer than 16,777,216 bytes\n",
            ""
        )
    );

    let job = file(&folder, "job", &long_job(FILE_BYTES));
    assert_eq!(run(&["job", "check", &job]), ran(0, "passed, 1 page\n", ""));
    let over = long_job(FILE_BYTES + 1);
    assert_eq!(over.len(), 16_777_217);
    let over = file(&folder, "long job", &over);
    let too_long = "refused 1 at 0: the job is longer than 16,777,216 bytes\n";
    assert_eq!(run(&["job", "check", &over]), ran(1, too_long, ""));
    assert_eq!(
        run(&["job", "lines", &over]),
        ran(1, "", &format!("printbox: {over}: {too_long}"))
    );

    let huge = folder.join("huge");
    let made = File::create(&huge).and_then(|file| file.set_len(1 << 40));
    if made.is_ok() {
        let huge = text(&huge);
        assert_eq!(run(&["job", "check", &huge]), ran(1, too_long, ""));
    } else {
        println!("skipped a file of 2^40 bytes, for which this file system has no room");
    }
    fs::remove_dir_all(folder).expect("the long files are removed");
}

#[test]
fn jobs() {
    let folder = folder("jobs");
    let good = file(&folder, "good", &long_job(200));
    assert_eq!(
        run(&["job", "check", &good]),
        ran(0, "passed, 1 page\n", "")
    );
    let cut = file(&folder, "bad", &long_job(200)[..150]);
    let fault = "refused 24 at 150: the job ends where bytes are needed (page 0, line 0)";
    assert_eq!(
        run(&["job", "check", &cut]),
        ran(1, &format!("{fault}\n"), "")
    );
    assert_eq!(
        run(&["job", "check", &text(&folder)]),
        ran(
            1,
            &format!("{cut}: {fault}\n{good}: passed, 1 page\n2 jobs: 1 passed, 1 refused\n"),
            ""
        )
    );
}

#[test]
fn standard_input() {
    let output = run_on(&["check", "-"], &small_sheet());
    assert_eq!(finished(output), ran(0, "passed, 1 page of 2 bands\n", ""));
}

/// A name with a line break still makes one line.
#[test]
fn names() {
    let folder = folder("names");
    file(&folder, "two\nlines", &small_sheet());
    let name = text(&folder);
    assert_eq!(
        run(&["check", &name]),
        ran(
            0,
            &format!(
                "{name}/two\\nlines: passed, 1 page of 2 bands\n1 sheet: 1 passed, 0 refused\n"
            ),
            ""
        )
    );
}
