//! Bad arguments, help, and `explain`.

mod common;

use common::{file, folder, ran, run, small_sheet, text};
use std::collections::BTreeSet;
use std::fs;

/// One clear line on standard error, status 2, and nothing else.
#[test]
fn bad_arguments() {
    let folder = folder("bad_arguments");
    let sheet = file(&folder, "sheet", &small_sheet());
    let sheet = sheet.as_str();
    let all = "`printbox --help` lists the commands";
    let of = |command: &str| format!("`printbox {command} --help` tells more");
    let of_draw = of("draw");
    let number = "takes a number from";
    let greatest = "18446744073709551615";
    for (arguments, line) in [
        (&[][..], format!("no command; {all}")),
        (&[""], format!("no command ``; {all}")),
        (&["chek"], format!("no command `chek`; {all}")),
        (&["two\nlines"], format!("no command `two\\nlines`; {all}")),
        (&["--load", "x"], format!("no command `--load`; {all}")),
        (&["job"], format!("job needs check, lines or make; {all}")),
        (&["job", "print"], format!("no command job `print`; {all}")),
        (&["check"], format!("SHEET is missing; {}", of("check"))),
        (
            &["check", "--"],
            format!("SHEET is missing; {}", of("check")),
        ),
        (&["draw"], format!("SHEET is missing; {of_draw}")),
        (&["list"], format!("SHEET is missing; {}", of("list"))),
        (
            &["job", "check"],
            format!("JOB is missing; {}", of("job check")),
        ),
        (
            &["job", "lines"],
            format!("JOB is missing; {}", of("job lines")),
        ),
        (
            &["job", "make"],
            format!("PBM is missing; {}", of("job make")),
        ),
        (
            &["explain"],
            format!("NUMBER is missing; {}", of("explain")),
        ),
        (
            &["draw", sheet, "b"],
            format!("b is one file too many; {of_draw}"),
        ),
        (
            &["list", sheet, "b"],
            format!("b is one file too many; {}", of("list")),
        ),
        (
            &["explain", "1", "2"],
            format!("2 is one file too many; {}", of("explain")),
        ),
        (
            &["draw", sheet, "--pages", "1"],
            format!("there is no option `--pages`; {of_draw}"),
        ),
        (
            &["draw", sheet, "-p"],
            format!("there is no option `-p`; {of_draw}"),
        ),
        (
            &["list", sheet, "--page", "1"],
            format!("there is no option `--page`; {}", of("list")),
        ),
        (
            &["job", "check", sheet, "--load", "x"],
            format!("there is no option `--load`; {}", of("job check")),
        ),
        (
            &["draw", sheet, "--load"],
            format!("--load needs a file; {of_draw}"),
        ),
        (
            &["draw", sheet, "--page"],
            format!("--page needs a number; {of_draw}"),
        ),
        (
            &["draw", sheet, "--page", "--band", "1"],
            format!("--page needs a number; {of_draw}"),
        ),
        (
            &["draw", sheet, "--all"],
            format!("--all needs a folder; {of_draw}"),
        ),
        (
            &["draw", sheet, "-o"],
            format!("-o needs a file; {of_draw}"),
        ),
        (
            &["draw", sheet, "--page", "0", "--page", "0"],
            format!("--page is given twice; {of_draw}"),
        ),
        (
            &["draw", sheet, "--page", "-1"],
            format!("--page {number} 0 to {greatest}, and not `-1`"),
        ),
        (
            &["draw", sheet, "--page", "+1"],
            format!("--page {number} 0 to {greatest}, and not `+1`"),
        ),
        (
            &["draw", sheet, "--page", "one"],
            format!("--page {number} 0 to {greatest}, and not `one`"),
        ),
        (
            &["draw", sheet, "--page="],
            format!("--page {number} 0 to {greatest}, and not ``"),
        ),
        (
            &["draw", sheet, "--band", "18446744073709551616"],
            format!("--band {number} 0 to {greatest}, and not `18446744073709551616`"),
        ),
        (
            &["draw", sheet, "--all", "x", "--page", "0"],
            format!("--all goes without --page, --band and -o; {of_draw}"),
        ),
        (
            &["draw", sheet, "--all", "x", "--band", "0"],
            format!("--all goes without --page, --band and -o; {of_draw}"),
        ),
        (
            &["draw", sheet, "--all", "x", "-o", "y"],
            format!("--all goes without --page, --band and -o; {of_draw}"),
        ),
        (
            &["draw", "-", "--load", "-"],
            format!("standard input can be read only once; {of_draw}"),
        ),
        (
            &["check", "-", "-"],
            format!("standard input can be read only once; {}", of("check")),
        ),
        (
            &["job", "lines", sheet, "--page", "1.5"],
            format!("--page {number} 0 to {greatest}, and not `1.5`"),
        ),
        (
            &["job", "make", sheet],
            format!("-o FILE is missing; {}", of("job make")),
        ),
        (
            &["job", "make", sheet, "-o", "x", "--paper", "A3"],
            "--paper takes one of A4, A5, Letter, Monarch, and not `A3`".to_string(),
        ),
        (
            &["job", "make", sheet, "-o", "x", "--copies", "0"],
            format!("--copies {number} 1 to 255, and not `0`"),
        ),
        (
            &["job", "make", sheet, "-o", "x", "--copies", "256"],
            format!("--copies {number} 1 to 255, and not `256`"),
        ),
        (
            &["job", "make", sheet, "-o", "x", "--tray", "4294967296"],
            format!("--tray {number} 0 to 4294967295, and not `4294967296`"),
        ),
        (
            &["job", "make", sheet, "-o", "x", "--toner-save=1"],
            format!("--toner-save takes no value; {}", of("job make")),
        ),
        (
            &["explain", "0"],
            "no refusal has the number `0`: they are 1 to 13, 15, 21 to 27 and 31 to 36"
                .to_string(),
        ),
        (
            &["explain", "14"],
            "no refusal has the number `14`: they are 1 to 13, 15, 21 to 27 and 31 to 36"
                .to_string(),
        ),
        (
            &["explain", "28"],
            "no refusal has the number `28`: they are 1 to 13, 15, 21 to 27 and 31 to 36"
                .to_string(),
        ),
        (
            &["explain", "+7"],
            "no refusal has the number `+7`: they are 1 to 13, 15, 21 to 27 and 31 to 36"
                .to_string(),
        ),
        (
            &["explain", "263"],
            "no refusal has the number `263`: they are 1 to 13, 15, 21 to 27 and 31 to 36"
                .to_string(),
        ),
    ] {
        let expected = ran(2, "", &format!("printbox: {line}\n"));
        assert_eq!(run(arguments), expected, "{arguments:?}");
    }
}

#[test]
fn bad_arguments_of_strip() {
    let strip = "; `printbox strip --help` tells more";
    let make = "; `printbox strip make --help` tells more";
    let bad = |arguments: &str, line: String| {
        let words: Vec<&str> = arguments.split(' ').collect();
        let expected = ran(2, "", &format!("printbox: {line}\n"));
        assert_eq!(run(&words), expected, "{arguments}");
    };
    for (arguments, line) in [
        ("strip", "FILE is missing"),
        ("strip -o x", "FILE is missing"),
        ("strip a -o", "-o needs a folder"),
        ("strip a -o -", "-o takes a folder, and not standard output"),
        ("strip a --plain", "there is no option `--plain`"),
        ("strip - -", "standard input can be read only once"),
    ] {
        bad(arguments, format!("{line}{strip}"));
    }
    for (arguments, line) in [
        ("strip make", "PICTURE is missing"),
        ("strip make a", "-o FILE is missing"),
        ("strip make a b -o -", "b is one file too many"),
        ("strip make a -o - --plain=1", "--plain takes no value"),
        ("strip make a --density", "--density needs a number"),
        ("strip make a --margins", "--margins needs two numbers"),
        (
            "strip make a --palette",
            "--palette needs two hexadecimal digits",
        ),
    ] {
        bad(arguments, format!("{line}{make}"));
    }
    for (option, takes, values) in [
        (
            "--palette",
            "two hexadecimal digits",
            &["G4", "+4", "4", "0E4", ""][..],
        ),
        (
            "--margins",
            "two numbers from 0 to 15 with a comma between",
            &["3", "1,2,3", "16,3", "3,16", "1,+3", "1,", ""],
        ),
        ("--density", "a number from 0 to 255", &["256", "-1", "x"]),
    ] {
        for value in values {
            let arguments = format!("strip make a -o - {option}={value}");
            bad(
                &arguments,
                format!("{option} takes {takes}, and not `{value}`"),
            );
        }
    }
}

/// Arguments that are not UTF-8 are files like any others, or bad like any others.
#[test]
fn other_bytes() {
    use std::ffi::OsStr;
    use std::os::unix::ffi::OsStrExt;
    let folder = folder("other_bytes");
    let name = folder.join(OsStr::from_bytes(b"sheet-\xFF"));
    fs::write(&name, small_sheet()).expect("a file is written");
    let check = OsStr::new("check");
    assert_eq!(
        run(&[check, name.as_os_str()]),
        ran(0, "passed, 1 page of 2 bands\n", "")
    );
    let option = OsStr::from_bytes(b"--\xFF");
    let more = "`printbox check --help` tells more";
    let line = format!("printbox: there is no option `--\u{FFFD}`; {more}\n");
    assert_eq!(run(&[check, option]), ran(2, "", &line));
}

/// A target that is also read is not written.
#[test]
fn target_is_input() {
    let folder = folder("target_is_input");
    let sheet = file(&folder, "sheet", &small_sheet());
    let same = text(&folder.join("../target_is_input/sheet"));
    let error = format!("printbox: {same} is read, so not written\n");
    assert_eq!(run(&["draw", &sheet, "-o", &same]), ran(2, "", &error));
    assert_eq!(
        run(&["draw", &sheet, "--load", &sheet, "-o", &same]),
        ran(2, "", &error)
    );
    for command in ["job", "strip"] {
        assert_eq!(
            run(&[command, "make", &sheet, "-o", &same]),
            ran(2, "", &error)
        );
    }
    assert_eq!(fs::read(&sheet).expect("the sheet"), small_sheet());
}

#[test]
fn help() {
    for arguments in [
        &["--help"][..],
        &["-h"],
        &["help"],
        &["check", "--help"],
        &["draw", "--help"],
        &["draw", "x", "-h"],
        &["list", "--help"],
        &["job", "--help"],
        &["job", "check", "--help"],
        &["job", "lines", "--help"],
        &["job", "make", "--help"],
        &["strip", "--help"],
        &["strip", "make", "--help"],
        &["explain", "--help"],
    ] {
        let told = run(arguments);
        assert_eq!((told.status, &*told.error), (0, ""), "{arguments:?}");
        let words = arguments
            .iter()
            .take_while(|word| !word.starts_with('-') && **word != "x");
        let words: Vec<&str> = words.copied().filter(|word| *word != "help").collect();
        let start = format!("printbox {}", words.join(" "));
        assert!(told.output.starts_with(start.trim_end()), "{arguments:?}");
        let widest = told.output.lines().map(str::len).max();
        assert!(widest <= Some(100), "{arguments:?}");
    }
    // A command's help is its own, where its word begins another command too.
    let strip = run(&["strip", "--help"]).output;
    assert!(strip.starts_with("printbox strip FILE"));
    assert_eq!(run(&["--version"]), ran(0, "printbox 0.1.0\n", ""));
    // After -- it is a file.
    assert_eq!(
        run(&["check", "--", "--help"]),
        ran(2, "", "printbox: --help: No such file or directory\n")
    );
}

/// A sentence for each number that the header names, and for no other.
#[test]
fn explain() {
    let mut told = Vec::new();
    for number in 0..=255 {
        let sentence = run(&["explain", &number.to_string()]);
        let is_refusal = matches!(number, 1..=13 | 15 | 21..=27 | 31..=36);
        assert_eq!(sentence.status, if is_refusal { 0 } else { 2 }, "{number}");
        if is_refusal {
            assert_eq!(sentence.error, "");
            assert_eq!(sentence.output.lines().count(), 1);
            assert_eq!(sentence.output.matches('.').count(), 1, "one sentence");
            told.push(number);
        }
    }
    let seven = "A command's code is not 1 to 10; the place is the code.\n";
    assert_eq!(run(&["explain", "7"]), ran(0, seven, ""));
    // The help names just these numbers.
    let help = run(&["explain", "--help"]).output;
    let words: Vec<&str> = help.split([' ', '\n', ',', '.']).collect();
    let ranges = words
        .windows(3)
        .filter(|words| words[1] == "to")
        .flat_map(|words| words[0].parse().unwrap()..=words[2].parse().unwrap());
    let single = words.iter().filter_map(|word| word.parse().ok());
    let named: BTreeSet<u8> = ranges.chain(single).collect();
    assert_eq!(Vec::from_iter(named), told);
}
