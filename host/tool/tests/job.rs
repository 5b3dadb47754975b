//! `job lines` and `job make`.

mod common;

use common::{file, folder, pbm, ran, run, text};
use std::fs;
use std::path::Path;

fn read(path: impl AsRef<Path>) -> Vec<u8> {
    fs::read(path).expect("a file that was written")
}

/// Makes a job with these arguments and gives its bytes.
fn made(folder: &Path, arguments: &[&str]) -> Vec<u8> {
    let target = text(&folder.join("made.gdi"));
    let mut all = vec!["job", "make", "-o", &target];
    all.extend(arguments);
    assert_eq!(run(&all), ran(0, "", ""));
    let pages = run(&["job", "check", &target]);
    assert_eq!((pages.status, &*pages.error), (0, ""));
    read(target)
}

/// A picture of so many dots, with some ink everywhere.
fn picture(width: usize, height: usize) -> Vec<u8> {
    let bytes = width.div_ceil(8);
    let mut rows = Vec::new();
    for line in 0..height {
        let mut row: Vec<u8> = (0..bytes).map(|at| (at * 37 + line * 101) as u8).collect();
        row[bytes - 1] &= (0xFF00u16 >> ((width - 1) % 8 + 1)) as u8;
        rows.extend(row);
    }
    pbm(width, height, &rows)
}

#[test]
fn made_and_read() {
    let folder = folder("made_and_read");
    let sizes = [(1, 1), (20, 3), (4762, 4), (16_383, 2), (3, 65_535)];
    let mut files = Vec::new();
    for (at, (width, height)) in sizes.into_iter().enumerate() {
        files.push(file(&folder, &format!("{at}.pbm"), &picture(width, height)));
    }
    let names: Vec<&str> = files.iter().map(String::as_str).collect();
    let job = file(&folder, "job.gdi", &made(&folder, &names));
    assert_eq!(
        run(&["job", "check", &job]),
        ran(0, "passed, 5 pages\n", "")
    );
    for (page, name) in names.iter().enumerate() {
        let target = text(&folder.join("page.pbm"));
        let number = page.to_string();
        assert_eq!(
            run(&["job", "lines", &job, "--page", &number, "-o", &target]),
            ran(0, "", "")
        );
        assert!(read(&target) == read(name), "page {page}");
    }
    assert_eq!(
        run(&["job", "lines", &job, "--page", "5"]),
        ran(
            2,
            "",
            &format!("printbox: --page 5: {job} has 5 pages, counted from 0\n")
        )
    );
}

/// The head of the only page, from byte 86 on.
fn page_head(job: &[u8]) -> &[u8] {
    &job[86..107]
}

#[test]
fn options() {
    let folder = folder("options");
    let small = file(&folder, "small.pbm", &picture(20, 3));
    let fixed = |tray: [u8; 4], size: [u8; 4], rest: [u8; 5]| {
        let head = [&[0x11, 0, 0x0F, 0], &tray[..], &[4, 4, 0, 0], &size, &rest];
        head.concat()
    };
    assert_eq!(
        page_head(&made(&folder, &[&small])),
        fixed([0; 4], [20, 0, 3, 0], [0, 0, 1, 0, 0])
    );
    let all = ["--tray", "16909060", "--copies", "255", "--toner-save"];
    let job = made(&folder, &[&[&*small], &all[..]].concat());
    assert_eq!(
        page_head(&job),
        fixed([4, 3, 2, 1], [20, 0, 3, 0], [0, 0, 255, 0, 1])
    );
    for (paper, size, format) in [
        ("A4", [0x9A, 0x12, 0x7A, 0x1A], 0),
        ("a5", [0xE2, 0x0C, 0x76, 0x12], 4),
        ("Letter", [0x24, 0x13, 0xDC, 0x18], 1),
        ("MONARCH", [0x50, 0x08, 0xA8, 0x10], 8),
    ] {
        let job = made(&folder, &[&small, "--paper", paper]);
        let expected = fixed([0; 4], size, [format, 0, 1, 0, 0]);
        assert_eq!(page_head(&job), expected, "{paper}");
    }
    // Without --paper a picture of a paper's size has its format.
    let monarch = file(&folder, "monarch.pbm", &picture(2128, 4264));
    assert_eq!(page_head(&made(&folder, &[&monarch]))[16], 8);
}

/// A picture stands at the left and top of its paper.
#[test]
fn on_paper() {
    let folder = folder("on_paper");
    let small = file(&folder, "small.pbm", &pbm(9, 2, &[0xFF, 0xFF, 0x81, 0xFF]));
    let job = file(
        &folder,
        "job",
        &made(&folder, &[&small, "--paper", "Monarch"]),
    );
    let target = text(&folder.join("page.pbm"));
    assert_eq!(run(&["job", "lines", &job, "-o", &target]), ran(0, "", ""));
    let mut rows = vec![0; 266 * 4264];
    (rows[0], rows[1]) = (0xFF, 0x80);
    (rows[266], rows[267]) = (0x81, 0x80);
    assert!(read(&target) == pbm(2128, 4264, &rows));

    for (width, height) in [(2129, 1), (1, 4265)] {
        let large = file(&folder, "large.pbm", &picture(width, height));
        let error = format!(
            "printbox: {large}: a picture of {width} x {height} dots is too large for Monarch, \
             2128 x 4264\n"
        );
        let target = text(&folder.join("large.gdi"));
        assert_eq!(
            run(&["job", "make", &large, "--paper", "Monarch", "-o", &target]),
            ran(2, "", &error)
        );
        assert!(!Path::new(&target).exists());
    }
}

#[test]
fn several_pictures_in_a_file() {
    let folder = folder("several_pictures_in_a_file");
    let both = [pbm(8, 1, &[0xF0]), b"P1 # plain\n3 2\n101\n010\n".to_vec()].concat();
    let both = file(&folder, "both.pbm", &both);
    let job = file(&folder, "job", &made(&folder, &[&both]));
    let target = text(&folder.join("page.pbm"));
    for (page, expected) in [("0", pbm(8, 1, &[0xF0])), ("1", pbm(3, 2, &[0xA0, 0x40]))] {
        let arguments = ["job", "lines", &job, "--page", page, "-o", &target];
        assert_eq!(run(&arguments), ran(0, "", ""));
        assert_eq!(read(&target), expected);
    }
}

#[test]
fn pictures_that_make_no_job() {
    let folder = folder("pictures_that_make_no_job");
    let target = text(&folder.join("job.gdi"));
    let limits = "and a page has 1 to 16,383 by 1 to 65,535";
    for (name, content, status, what) in [
        ("empty", Vec::new(), 2, "no picture in it".to_string()),
        (
            "text",
            b"hello".to_vec(),
            2,
            "no PBM picture: it does not start with P4 or P1".to_string(),
        ),
        (
            "short",
            pbm(8, 2, &[1]),
            2,
            "the picture ends early".to_string(),
        ),
        (
            "wide",
            picture(16_384, 1),
            1,
            format!("refused 22 at 0: a picture of 16384 x 1 dots, {limits}"),
        ),
        (
            "wider",
            picture(65_537, 1),
            1,
            format!("refused 22 at 0: a picture of 65537 x 1 dots, {limits}"),
        ),
        (
            "high",
            picture(1, 65_536),
            1,
            format!("refused 22 at 0: a picture of 1 x 65536 dots, {limits}"),
        ),
        (
            "none",
            pbm(0, 5, &[]),
            1,
            format!("refused 22 at 0: a picture of 0 x 5 dots, {limits}"),
        ),
    ] {
        let path = file(&folder, name, &content);
        let error = format!("printbox: {path}: {what}\n");
        assert_eq!(
            run(&["job", "make", &path, "-o", &target]),
            ran(status, "", &error)
        );
    }
    let missing = text(&folder.join("missing"));
    assert_eq!(
        run(&["job", "make", &missing, "-o", &target]),
        ran(
            2,
            "",
            &format!("printbox: {missing}: No such file or directory\n")
        )
    );
    assert!(!Path::new(&target).exists());
}

/// Dots in turn make a line of more bytes than dots: a page of 16,383 by 1,100 makes a job over the
/// limit, and nothing is written.
#[test]
fn a_job_over_the_limit() {
    let folder = folder("a_job_over_the_limit");
    let mut row = vec![0xAA; 2048];
    row[2047] = 0xAA;
    let path = file(&folder, "dots.pbm", &pbm(16_383, 1100, &row.repeat(1100)));
    let target = text(&folder.join("job.gdi"));
    assert_eq!(
        run(&["job", "make", &path, "-o", &target]),
        ran(
            1,
            "",
            "printbox: refused 1 at 0: the job is longer than 16,777,216 bytes\n"
        )
    );
    assert!(!Path::new(&target).exists());
}

#[test]
fn refused_jobs() {
    let folder = folder("refused_jobs");
    let small = file(&folder, "small.pbm", &picture(20, 3));
    let job = made(&folder, &[&small]);
    let cut = file(&folder, "cut", &job[..job.len() - 1]);
    let length = job.len() - 1;
    let what = "the job ends where bytes are needed (after page 0)";
    assert_eq!(
        run(&["job", "lines", &cut]),
        ran(
            1,
            "",
            &format!("printbox: {cut}: refused 24 at {length}: {what}\n")
        )
    );
    let here = text(&folder);
    assert_eq!(
        run(&["job", "lines", &here]),
        ran(2, "", &format!("printbox: {here}: Is a directory\n"))
    );
}

/// The stored job of another maker's filter: A4, 24 lines of which have dots.
#[test]
fn another_makers_job() {
    let folder = folder("another_makers_job");
    let stored = Path::new(env!("CARGO_MANIFEST_DIR")).join("../tests/data/sagem.gdi");
    let target = folder.join("page.pbm");
    let arguments = ["job", "lines", &text(&stored), "-o", &text(&target)];
    assert_eq!(run(&arguments), ran(0, "", ""));
    let picture = read(&target);
    let (head, rows) = picture.split_at(13);
    assert_eq!(head, b"P4\n4762 6778\n");
    assert_eq!(rows.len(), 596 * 6778);
    assert!(rows[..24 * 596].iter().any(|&byte| byte != 0));
    assert!(rows[24 * 596..].iter().all(|&byte| byte == 0));
}
