//! `strip make`: streams of pictures, and the pictures read back from them.

mod common;

use common::packets::{initialize, packet, page_end};
use common::{file, folder, names_in, pbm, pgm, ran, run, run_on, text};
use generate::Rng;
use std::fs;
use std::path::Path;

fn read(path: impl AsRef<Path>) -> Vec<u8> {
    fs::read(path).expect("a file that was written")
}

/// Makes a stream of a picture's file with these options and gives its bytes.
fn made(folder: &Path, picture: &[u8], options: &[&str]) -> Vec<u8> {
    let picture = file(folder, "picture", picture);
    let target = text(&folder.join("made.bin"));
    let arguments = [&["strip", "make", &picture, "-o", &target], options].concat();
    assert_eq!(run(&arguments), ran(0, "", ""));
    read(target)
}

/// The greys of what a stream prints, page under page, and the margins of each page.
fn printed(folder: &Path, stream: &[u8]) -> (Vec<u8>, Vec<String>) {
    let stream = file(folder, "stream", stream);
    let pages = folder.join("pages");
    let _ = fs::remove_dir_all(&pages);
    let told = run(&["strip", &stream, "-o", &text(&pages)]);
    assert_eq!((told.status, &*told.error), (0, ""));
    let mut greys = Vec::new();
    for name in names_in(&pages) {
        let picture = read(pages.join(name));
        let head = format!("P5\n160 {}\n255\n", picture.len() / 160);
        greys.extend(picture.strip_prefix(head.as_bytes()).expect("its head"));
    }
    let margins = |line: &str| {
        let (_, rest) = line.split_once("margins ")?;
        let (margins, _) = rest.split_once(", ")?;
        Some(margins.to_string())
    };
    (greys, told.output.lines().filter_map(margins).collect())
}

/// Greys filled up with white to whole bands.
fn filled(greys: &[u8]) -> Vec<u8> {
    let mut filled = greys.to_vec();
    filled.resize(greys.len().next_multiple_of(160 * 16), 255);
    filled
}

/// One row with a dot of each grey at its left: the whole stream, coded and plain.
#[test]
fn bytes() {
    let folder = folder("strip_make_bytes");
    let mut row = [255; 160];
    row[..4].copy_from_slice(&[255, 170, 85, 0]);
    let picture = pgm(160, &row);
    // Indexes 0 1 2 3 0 0 0 0, then 638 bytes 0.
    let coded = [&[1, 0x50, 0x30][..], &[0xFF, 0].repeat(4), &[0xF8, 0]].concat();
    let mut plain = [0; 640];
    (plain[0], plain[1]) = (0x50, 0x30);
    let page = |data: Vec<u8>, print: [u8; 4]| {
        [initialize(), data, page_end(), packet(0x02, 0, &print)].concat()
    };
    let print = [1, 0x13, 0x1B, 64];
    assert_eq!(
        made(&folder, &picture, &[]),
        page(packet(0x04, 1, &coded), print)
    );
    assert_eq!(
        made(&folder, &picture, &["--plain"]),
        page(packet(0x04, 0, &plain), print)
    );
    // The other way round: index 3 is white.
    let mut inverted = [0xFF; 640];
    (inverted[0], inverted[1]) = (0xAF, 0xCF);
    let options = [
        "--plain",
        "--palette",
        "e4",
        "--margins",
        "0,15",
        "--density=255",
    ];
    assert_eq!(
        made(&folder, &picture, &options),
        page(packet(0x04, 0, &inverted), [1, 0x0F, 0xE4, 255])
    );
    let options = ["--palette=1B", "--margins=015,0", "--density", "0"];
    assert_eq!(
        made(&folder, &picture, &options),
        page(packet(0x04, 1, &coded), [1, 0xF0, 0x1B, 0])
    );
}

/// Random pictures of 1 to 640 rows, plain and coded, through palettes of all four shades: what is
/// printed is the picture.
#[test]
fn read_back() {
    let folder = folder("strip_make_read_back");
    let mut rng = Rng::new(3);
    for round in 0..120 {
        let rows = match round {
            0..8 => [1, 15, 16, 17, 144, 145, 288, 640][round],
            _ => rng.between(1, 640) as usize,
        };
        let mut greys = Vec::new();
        while greys.len() < 160 * rows {
            let grey = rng.pick(&[0, 85, 170, 255]);
            let longest = rng.pick(&[1, 3, 20, 2000]);
            greys.extend(vec![grey; rng.between(1, longest) as usize]);
        }
        greys.truncate(160 * rows);
        let palette = rng.pick(&["1B", "E4", "2D", "93", "4E", "C6"]);
        let mut options = vec!["--palette", palette];
        if rng.one_in(2) {
            options.push("--plain");
        }
        let stream = made(&folder, &pgm(160, &greys), &options);
        let (printed, margins) = printed(&folder, &stream);
        assert!(printed == filled(&greys), "round {round}, {rows} rows");
        // The pages of a picture follow each other with no margin between.
        let pages = rows.div_ceil(144);
        let of_page = |page: usize| match (page == 0, page + 1 == pages) {
            (true, true) => "1 and 3",
            (true, false) => "1 and 0",
            (false, true) => "0 and 3",
            (false, false) => "0 and 0",
        };
        assert_eq!(margins, (0..pages).map(of_page).collect::<Vec<_>>());
    }
}

/// A band is coded where that makes it shorter, each for itself.
#[test]
fn coded_where_shorter() {
    let folder = folder("strip_make_coded");
    let mut rng = Rng::new(4);
    let noise: Vec<u8> = (0..160 * 16)
        .map(|_| rng.pick(&[0, 85, 170, 255]))
        .collect();
    let picture = pgm(
        160,
        &[vec![255; 160 * 16], noise, vec![0; 160 * 16]].concat(),
    );
    let stream = made(&folder, &picture, &[]);
    // Initialize; ten bytes for a band of one grey; 640 for noise.
    let indicators = [stream[13], stream[30 + 3], stream[30 + 650 + 3]];
    assert_eq!(indicators, [1, 0, 1]);
    assert_eq!(stream.len(), 10 + 20 + 650 + 20 + 10 + 14);
    assert_eq!(
        made(&folder, &picture, &["--plain"]).len(),
        10 + 3 * 650 + 10 + 14
    );
}

/// Greys between the four get the nearest, and of two the lighter, at any maxval.
#[test]
fn maxvals() {
    let folder = folder("strip_make_maxvals");
    for maxval in [
        1, 2, 3, 4, 6, 7, 12, 100, 254, 255, 256, 300, 1000, 65_534, 65_535u32,
    ] {
        let steps = (0..320).map(|step| step * maxval / 319);
        // And those around the middle between two shades.
        let middles = [1, 3, 5].map(|sixth| sixth * maxval / 6);
        let middles = middles
            .into_iter()
            .flat_map(|at| [at, (at + 1).min(maxval)]);
        let mut greys: Vec<u32> = steps.chain(middles).collect();
        greys.resize(480, maxval);
        let nearest = |grey: &u32| {
            let distance = |shade: &u32| (255 * grey).abs_diff(shade * maxval);
            let nearest = [255, 170, 85, 0].into_iter().min_by_key(distance);
            nearest.expect("a shade") as u8
        };
        let expected: Vec<u8> = greys.iter().map(nearest).collect();
        let head = format!("160 3\n{maxval}\n");
        let raw = greys.iter().flat_map(|grey| match maxval {
            ..256 => vec![*grey as u8],
            _ => (*grey as u16).to_be_bytes().to_vec(),
        });
        let raw = [format!("P5\n{head}").into_bytes(), raw.collect()].concat();
        let plain: Vec<String> = greys.iter().map(u32::to_string).collect();
        let plain = format!("P2\n{head}{}", plain.join("\n"));
        let stream = made(&folder, &raw, &[]);
        assert!(
            printed(&folder, &stream).0 == filled(&expected),
            "maxval {maxval}"
        );
        assert!(
            made(&folder, plain.as_bytes(), &[]) == stream,
            "maxval {maxval}, plain"
        );
    }
}

/// A palette that lacks shades: the nearest that it has, and of two the lighter.
#[test]
fn poor_palettes() {
    let folder = folder("strip_make_poor_palettes");
    let mut row = [255; 160];
    row[..4].copy_from_slice(&[255, 170, 85, 0]);
    // The shades of indexes 0 to 3, and what is printed for each of the four greys.
    for (palette, printed_greys) in [
        ("00", [255, 255, 255, 255]),
        ("FF", [0, 0, 0, 0]),
        ("C0", [255, 255, 0, 0]),
        ("22", [255, 255, 85, 85]), // 0 2 0 2: light grey is as near to white as to dark grey
        ("5A", [170, 170, 85, 85]),
        ("D5", [170, 170, 170, 0]), // 3 1 1 1: dark grey is as near to light grey as to black
    ] {
        let stream = made(&folder, &pgm(160, &row), &["--palette", palette]);
        let (printed, _) = printed(&folder, &stream);
        let mut expected = vec![printed_greys[0]; 160 * 16];
        expected[..4].copy_from_slice(&printed_greys);
        assert!(printed == expected, "{palette}");
    }
}

#[test]
fn pbm_pictures() {
    let folder = folder("strip_make_pbm");
    let mut rows = [0; 40];
    (rows[0], rows[19], rows[20]) = (0xA0, 1, 0x80);
    let mut greys = vec![255; 320];
    for black in [0, 2, 159, 160] {
        greys[black] = 0;
    }
    let stream = made(&folder, &pbm(160, 2, &rows), &[]);
    assert!(printed(&folder, &stream).0 == filled(&greys));
    let digits: String = greys
        .iter()
        .map(|grey| if *grey == 0 { '1' } else { '0' })
        .collect();
    assert!(made(&folder, format!("P1\n160 2\n{digits}").as_bytes(), &[]) == stream);
}

/// Each picture of a file is printed with its own margins.
#[test]
fn several_pictures_in_a_file() {
    let folder = folder("strip_make_several_pictures");
    let both = [pgm(160, &[0; 160 * 150]), pbm(160, 1, &[0; 20])].concat();
    let stream = made(&folder, &both, &["--margins", "2,5"]);
    let (printed, margins) = printed(&folder, &stream);
    let expected = [filled(&[0; 160 * 150]), vec![255; 160 * 16]].concat();
    assert!(printed == expected);
    assert_eq!(margins, ["2 and 0", "0 and 5", "2 and 5"]);
}

#[test]
fn pictures_that_make_no_stream() {
    let folder = folder("strip_make_no_stream");
    let target = file(&folder, "made.bin", b"what was there");
    let strip = "and a strip has 160 by 1 or more";
    let good = pgm(160, &[0; 320]);
    for (content, what) in [
        (Vec::new(), "no picture in it".to_string()),
        (
            b"hello".to_vec(),
            "no PGM or PBM picture: it does not start with P5, P2, P4 or P1".to_string(),
        ),
        (
            [&good[..], b"rest"].concat(),
            "no PGM or PBM picture: it does not start with P5, P2, P4 or P1".to_string(),
        ),
        (
            good[..good.len() - 1].to_vec(),
            "the picture ends early".to_string(),
        ),
        (
            pgm(159, &[0; 159]),
            format!("a picture of 159 x 1 dots, {strip}"),
        ),
        (
            pgm(161, &[0; 322]),
            format!("a picture of 161 x 2 dots, {strip}"),
        ),
        (
            pbm(160, 0, &[]),
            format!("a picture of 160 x 0 dots, {strip}"),
        ),
        (pbm(0, 5, &[]), format!("a picture of 0 x 5 dots, {strip}")),
        (
            [&good[..], b"P1 3 1 101"].concat(),
            format!("a picture of 3 x 1 dots, {strip}"),
        ),
        (
            b"P5 160 1 0 ".to_vec(),
            "the picture's maxval is 0, and not 1 to 65535".to_string(),
        ),
        (
            b"P2 160 1 9 10".to_vec(),
            "a grey of the picture is 10, over its maxval 9".to_string(),
        ),
    ] {
        let path = file(&folder, "picture", &content);
        assert_eq!(
            run(&["strip", "make", &path, "-o", &target]),
            ran(2, "", &format!("printbox: {path}: {what}\n"))
        );
    }
    let missing = text(&folder.join("missing"));
    assert_eq!(
        run(&["strip", "make", &missing, "-o", &target]),
        ran(
            2,
            "",
            &format!("printbox: {missing}: No such file or directory\n")
        )
    );
    let here = text(&folder);
    assert_eq!(
        run(&["strip", "make", &here, "-o", &target]),
        ran(2, "", &format!("printbox: {here}: Is a directory\n"))
    );
    assert_eq!(read(target), b"what was there");
}

#[test]
fn standard_input_and_output() {
    let folder = folder("strip_make_standard");
    let picture = pgm(160, &[85; 160]);
    let output = run_on(&["strip", "make", "-", "-o", "-"], &picture);
    assert_eq!(
        (output.status.code(), &output.stderr[..]),
        (Some(0), &b""[..])
    );
    assert!(output.stdout == made(&folder, &picture, &[]));
    let output = run_on(&["strip", "make", "-", "-o", "-"], b"P5 9 9 9");
    assert_eq!((output.status.code(), output.stdout.len()), (Some(2), 0));
    let line = "printbox: standard input: the picture ends early\n";
    assert_eq!(String::from_utf8_lossy(&output.stderr), line);
}
