//! Output that is full, closed or slow.

mod common;

use common::{file, finished, folder, names_in, ran, run, sheet, small_sheet, text, tool};
use std::fs::{self, OpenOptions};
use std::io::Read;
use std::process::{Command, Stdio};
use std::thread;
use std::time::Duration;

/// The commands that write to standard output, on files of a folder.
fn commands(folder: &std::path::Path) -> Vec<Vec<String>> {
    let sheet = file(folder, "sheet", &small_sheet());
    let picture = file(folder, "picture", b"P1 1 1 1");
    let job = text(&folder.join("job"));
    assert_eq!(run(&["job", "make", &picture, "-o", &job]), ran(0, "", ""));
    let strip = file(folder, "strip", &common::pbm(160, 1, &[0; 20]));
    let stream = text(&folder.join("stream"));
    assert_eq!(
        run(&["strip", "make", &strip, "-o", &stream]),
        ran(0, "", "")
    );
    let lines = [
        vec!["check", &sheet],
        vec!["check", &sheet, &sheet],
        vec!["draw", &sheet],
        vec!["list", &sheet],
        vec!["job", "check", &job],
        vec!["job", "lines", &job],
        vec!["job", "make", &picture, "-o", "-"],
        vec!["strip", &stream],
        vec!["strip", &stream, &stream],
        vec!["strip", "make", &strip, "-o", "-"],
        vec!["explain", "7"],
        vec!["--help"],
        vec!["draw", "--help"],
    ];
    let owned = |line: &Vec<&str>| line.iter().map(|word| word.to_string()).collect();
    lines.iter().map(owned).collect()
}

#[test]
fn full() {
    let folder = folder("full");
    for arguments in commands(&folder) {
        let full = OpenOptions::new().write(true).open("/dev/full");
        let output = tool(&arguments)
            .stdout(full.expect("the full device"))
            .output()
            .expect("the tool runs");
        let error = "printbox: standard output: No space left on device\n";
        assert_eq!(finished(output), ran(2, "", error), "{arguments:?}");
    }
}

/// A named pipe is written as it is, and not replaced by a file.
#[test]
fn named_pipe() {
    use std::os::unix::fs::FileTypeExt;
    let folder = folder("named_pipe");
    let path = file(&folder, "sheet", &small_sheet());
    let target = folder.join("pipe");
    let made = Command::new("mkfifo").arg(&target).status();
    assert!(made.expect("mkfifo runs").success());
    // Open for both, so that neither side waits for the other.
    let mut pipe = OpenOptions::new().read(true).write(true).open(&target);
    assert_eq!(run(&["draw", &path, "-o", &text(&target)]), ran(0, "", ""));
    let kind = fs::metadata(&target).expect("the pipe").file_type();
    assert!(kind.is_fifo());
    let mut picture = [0; 16];
    let read = pipe.as_mut().expect("the pipe").read_exact(&mut picture);
    read.expect("the picture");
    assert_eq!(picture, *b"P4\n16 4\n\0\0\x70\0\x70\0\0\0");
}

/// Nobody reads the output: there is no line about it, and the status is 2.
#[test]
fn closed() {
    let folder = folder("closed");
    for arguments in commands(&folder) {
        let (reader, writer) = std::io::pipe().expect("a pipe");
        drop(reader);
        let output = tool(&arguments)
            .stdout(writer)
            .output()
            .expect("the tool runs");
        assert_eq!(finished(output), ran(2, "", ""), "{arguments:?}");
    }
}

/// Standard error that can't be written changes no status.
#[test]
fn closed_error() {
    let (reader, writer) = std::io::pipe().expect("a pipe");
    drop(reader);
    let output = tool(&["check", "no such file"])
        .stderr(writer)
        .output()
        .expect("the tool runs");
    assert_eq!(finished(output), ran(2, "", ""));
}

/// A pipe that is full for a while: the tool waits, and nothing is lost.
#[test]
fn slow() {
    let folder = folder("slow");
    let bands = vec![vec![5, 0, 2000, 0, 2000]; 20];
    let path = file(&folder, "sheet", &sheet(2000, 2000, 100, &[bands]));
    let mut child = tool(&["draw", &path])
        .stdout(Stdio::piped())
        .spawn()
        .expect("the tool runs");
    thread::sleep(Duration::from_millis(100));
    let mut picture = Vec::new();
    let mut output = child.stdout.take().expect("its standard output");
    output.read_to_end(&mut picture).expect("the picture");
    assert_eq!(child.wait().expect("it ends").code(), Some(0));
    assert_eq!(picture, common::pbm(2000, 2000, &[0xFF; 250 * 2000]));
}

/// A file is written whole or not at all, and what stood there keeps its rights; no part of it is
/// left behind. A link keeps leading to it.
#[test]
fn files() {
    use std::os::unix::fs::PermissionsExt;
    let folder = folder("files");
    let path = file(&folder, "sheet", &small_sheet());
    let target = folder.join("picture");
    fs::write(&target, b"what was there").expect("a file is written");
    fs::set_permissions(&target, fs::Permissions::from_mode(0o600)).expect("its rights");
    let link = folder.join("link");
    std::os::unix::fs::symlink(&target, &link).expect("a link is made");
    assert_eq!(run(&["draw", &path, "-o", &text(&link)]), ran(0, "", ""));
    assert!(fs::symlink_metadata(&link).expect("the link").is_symlink());
    assert!(fs::read(&target)
        .expect("the picture")
        .starts_with(b"P4\n16 4\n"));
    let rights = fs::metadata(&target).expect("the picture").permissions();
    assert_eq!(rights.mode() & 0o777, 0o600);

    let nowhere = text(&folder.join("no/such/folder/picture"));
    assert_eq!(
        run(&["draw", &path, "-o", &nowhere]),
        ran(
            2,
            "",
            &format!("printbox: {nowhere}: No such file or directory\n")
        )
    );
    assert_eq!(names_in(&folder), ["link", "picture", "sheet"]);
}
