//! `strip`: a line for each packet.

mod common;

use common::packets::{coded, header, initialize, inquiry, packet, page_end, plain, print};
use common::{file, finished, folder, ran, run, run_on, text};
use std::fs;

#[test]
fn lines() {
    let folder = folder("strip_lines");
    let other_print = packet(0x02, 0, &[0xFF, 0xA9, 0, 255]);
    let stream = [
        initialize(),
        plain(0xA5),
        coded(0),
        page_end(),
        print(),
        inquiry(),
        other_print,
        initialize(),
        plain(0xFF), // the sum passes 65,535
        print(),
    ];
    let path = file(&folder, "stream", &stream.concat());
    let expected = "\
        at 0: initialize\n\
        at 10: data, band 1 of 9\n\
        at 660: data, band 2 of 9\n\
        at 680: data, end of page\n\
        at 690: print, 2 bands, margins 1 and 3, density 64\n\
        at 704: inquiry\n\
        at 714: print, 2 bands, margins 10 and 9, density 255\n\
        at 728: initialize\n\
        at 738: data, band 1 of 9\n\
        at 1388: print, 1 band, margins 1 and 3, density 64\n";
    assert_eq!(run(&["strip", &path]), ran(0, expected, ""));
}

/// Every refusal in every way, between two inquiries: the search goes on after it.
#[test]
fn refusals() {
    let folder = folder("strip_refusals");
    let checksum = |bytes: [u8; 2]| [&inquiry()[..6], &bytes, &[0, 0]].concat();
    let mut wrong = plain(0xFF);
    wrong[647] ^= 0xFF;
    // 516 bytes, and a rest: 124 are missing.
    let begun = [0xFF, 0].repeat(4);
    let body = |rest: &[u8]| packet(0x04, 1, &[&begun[..], rest].concat());
    let data = "data has 00 and 0 or 640, or 01 and 1 to 648";
    let of_data = |came: &str| format!("33, command 04 with {came}, and {data}");
    let expands = |bytes: usize| format!("35, the body expands to {bytes} bytes, and not 640");
    let cut = "35, the body's last run is cut";
    let over = "35, the body expands to over 640 bytes";
    for (bytes, words) in [
        (
            checksum([0x10, 0]),
            "31, checksum 0010, and the sum is 000F",
        ),
        (
            checksum([0x0F, 0xAB]),
            "31, checksum AB0F, and the sum is 000F",
        ),
        // 640 times 255, and 4, 80 and 2 hex: 27E06, of which four digits are kept.
        (wrong, "31, checksum 8106, and the sum is 7E06"),
        (packet(0x07, 0, &[]), "32, there is no command 07"),
        (packet(0x11, 9, &[1; 648]), "32, there is no command 11"),
        (
            header(0x01, 0, 1),
            "33, command 01 with indicator 00 and length 1, and initialize has 00 and 0",
        ),
        (
            header(0x01, 1, 0),
            "33, command 01 with indicator 01 and length 0, and initialize has 00 and 0",
        ),
        (
            header(0x02, 0, 5),
            "33, command 02 with indicator 00 and length 5, and print has 00 and 4",
        ),
        (
            header(0x02, 0xFE, 4),
            "33, command 02 with indicator FE and length 4, and print has 00 and 4",
        ),
        (
            header(0x0F, 0, 0x0300),
            "33, command 0F with indicator 00 and length 768, and inquiry has 00 and 0",
        ),
        (
            header(0x07, 3, 65_535),
            "33, command 07 with indicator 03 and length 65535, and no length is over 648",
        ),
        (
            header(0x04, 0, 639),
            &of_data("indicator 00 and length 639"),
        ),
        (header(0x04, 1, 0), &of_data("indicator 01 and length 0")),
        (
            header(0x04, 1, 649),
            &of_data("indicator 01 and length 649"),
        ),
        (
            header(0x04, 2, 640),
            &of_data("indicator 02 and length 640"),
        ),
        (body(&[]), &expands(516)),
        (body(&[0xF9, 7]), &expands(639)),
        (body(&[0xFB, 7]), &expands(641)),
        (body(&[0, 7]), &expands(517)),
        (body(&[0x82, 7, 2, 1, 2, 3]), &expands(523)),
        (packet(0x04, 1, &[0xFF, 0].repeat(324)), &expands(324 * 129)),
        (packet(0x04, 1, &[0x80]), cut),
        (body(&[0x80]), cut),
        (body(&[2, 7, 7]), cut),
        (body(&[0xFA, 7, 0xFF]), cut), // after just 640
        (body(&[0xFB, 7, 0xFF]), over),
        (body(&[0xFB, 7, 5, 1]), over),
    ] {
        let path = file(
            &folder,
            "stream",
            &[inquiry(), bytes.clone(), inquiry()].concat(),
        );
        let next = 10 + bytes.len();
        let expected = format!("at 0: inquiry\nat 10: refused {words}\nat {next}: inquiry\n");
        assert_eq!(run(&["strip", &path]), ran(1, &expected, ""));
    }
}

/// A tenth band, plain, coded and broken; an empty Data is none. After Initialize there is room.
#[test]
fn a_tenth_band() {
    let folder = folder("strip_a_tenth_band");
    let broken = packet(0x04, 1, &[0xFF, 0]);
    let tenth = [
        plain(0),
        coded(0),
        broken,
        page_end(),
        print(),
        initialize(),
        plain(0),
    ];
    let stream = [plain(0).repeat(9), tenth.concat()].concat();
    let path = file(&folder, "stream", &stream);
    let mut expected = String::new();
    for band in 0..9 {
        expected += &format!("at {}: data, band {} of 9\n", 650 * band, band + 1);
    }
    expected += "\
        at 5850: refused 34, a tenth band\n\
        at 6500: refused 34, a tenth band\n\
        at 6520: refused 34, a tenth band\n\
        at 6532: data, end of page\n\
        at 6542: print, 9 bands, margins 1 and 3, density 64\n\
        at 6556: initialize\n\
        at 6566: data, band 1 of 9\n";
    assert_eq!(run(&["strip", &path]), ran(1, &expected, ""));
}

#[test]
fn standard_input() {
    let stream = [initialize(), plain(1), print()].concat();
    let lines = "at 0: initialize\nat 10: data, band 1 of 9\n\
                 at 660: print, 1 band, margins 1 and 3, density 64\n";
    assert_eq!(
        finished(run_on(&["strip", "-"], &stream)),
        ran(0, lines, "")
    );
    assert_eq!(
        finished(run_on(&["strip", "-"], b"")),
        ran(0, "no packet\n", "")
    );
}

#[test]
fn several_files() {
    let folder = folder("strip_several_files");
    let good = file(&folder, "good", &[initialize(), inquiry()].concat());
    let bad = file(&folder, "bad", &[packet(0x07, 0, &[]), inquiry()].concat());
    let empty = file(&folder, "two\nlines", b"");
    let missing = text(&folder.join("missing"));
    let here = text(&folder);
    let of_good = format!("{good}: at 0: initialize\n{good}: at 10: inquiry\n");
    let of_bad =
        format!("{bad}: at 0: refused 32, there is no command 07\n{bad}: at 10: inquiry\n");
    let of_empty = format!("{here}/two\\nlines: no packet\n");
    assert_eq!(
        run(&["strip", &good, &empty]),
        ran(
            0,
            &format!("{of_good}{of_empty}2 streams: 2 packets done, 0 refused\n"),
            ""
        )
    );
    assert_eq!(
        run(&["strip", &bad, &good, &bad]),
        ran(
            1,
            &format!("{of_bad}{of_good}{of_bad}3 streams: 4 packets done, 2 refused\n"),
            ""
        )
    );
    let total = "4 streams: 3 packets done, 1 refused, 2 streams can't be read\n";
    let errors = format!(
        "printbox: {missing}: No such file or directory\nprintbox: {here}: Is a directory\n"
    );
    assert_eq!(
        run(&["strip", &missing, &bad, &here, &good]),
        ran(2, &format!("{of_bad}{of_good}{total}"), &errors)
    );
    let output = run_on(&["strip", &good, "-"], &inquiry()[..9]);
    let of_input = "standard input: at 0: inquiry\n2 streams: 3 packets done, 0 refused\n";
    assert_eq!(
        finished(output),
        ran(0, &format!("{of_good}{of_input}"), "")
    );
}

#[test]
fn unreadable_files() {
    let folder = folder("strip_unreadable_files");
    let missing = text(&folder.join("missing"));
    assert_eq!(
        run(&["strip", &missing]),
        ran(
            2,
            "",
            &format!("printbox: {missing}: No such file or directory\n")
        )
    );
    let here = text(&folder);
    assert_eq!(
        run(&["strip", &here]),
        ran(2, "", &format!("printbox: {here}: Is a directory\n"))
    );
    assert!(fs::read_dir(&folder).expect("the folder").next().is_none());
}
