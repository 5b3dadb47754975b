//! Another maker's strip printer: the GB Printer of mGBA, in Debian's libmgba-dev.
//!
//! tests/c/mgba_printer.c gives it streams byte by byte. On what a good gauge sends, it and the
//! library agree in every reply and every dot; where they differ otherwise, [`differences`] tells.
//!
//! - mGBA hands out a page as indices, in rows like the library's, without the palette, the margins
//!   and the density; here the indices go through the palette that was sent. It does so at the
//!   status byte after the Print packet, and the library at the packet's last byte.
//! - mGBA's status is its own: a band sets 08, a page that is printed sets 06 instead, and
//!   Initialize clears 08 and 04. (`GBPrinterDonePrinting`, which is not called here, would clear
//!   06.) The host of the library's receiver sets the status by the same rule here.

mod common;

use common::command::run;
use generate::Rng;
use printbox::strip::{Event, Print, Receiver, ROW_BYTES};
use std::fs::{self, File};
use std::path::{Path, PathBuf};
use std::process::Command;
use std::sync::OnceLock;

const SEED: u64 = 20_260_301;
const STREAMS: usize = 1_000;

const INITIALIZE: u8 = 0x01;
const PRINT: u8 = 0x02;
const DATA: u8 = 0x04;
const INQUIRY: u8 = 0x0F;

/// A packet with its checksum, and two clock bytes.
fn packet(command: u8, indicator: u8, body: &[u8]) -> Vec<u8> {
    let length = (body.len() as u16).to_le_bytes();
    let summed = [&[command, indicator], &length[..], body].concat();
    let sum = summed
        .iter()
        .fold(0, |sum: u16, &byte| sum.wrapping_add(byte.into()));
    [&[0x88, 0x33], &summed[..], &sum.to_le_bytes(), &[0, 0]].concat()
}

/// The body of a coded band: runs that expand to 640 bytes.
fn coded(rng: &mut Rng) -> Vec<u8> {
    let longest = rng.pick(&[8, 32, 129]);
    loop {
        let mut body = Vec::new();
        let mut left = 640;
        while left > 0 {
            if left > 1 && rng.one_in(2) {
                let run = rng.between(2, left.min(longest));
                body.extend([0x80 | (run - 2) as u8, rng.byte()]);
                left -= run;
            } else {
                let run = rng.between(1, left.min(longest).min(128));
                body.push((run - 1) as u8);
                body.extend(rng.bytes(run as usize));
                left -= run;
            }
        }
        if body.len() <= 648 {
            return body;
        }
    }
}

/// What a good gauge sends for one to three pages.
struct Job {
    packets: Vec<Vec<u8>>,
    /// Of each page its bands, and the body of its Print packet.
    pages: Vec<(u8, [u8; 4])>,
}

fn job(rng: &mut Rng) -> Job {
    let mut packets = Vec::new();
    let mut pages = Vec::new();
    for _ in 0..rng.between(1, 3) {
        let bands = rng.between(1, 9) as u8;
        let print = [1, rng.byte(), rng.byte(), rng.byte()];
        pages.push((bands, print));
        packets.push(packet(INITIALIZE, 0, &[]));
        for _ in 0..bands {
            packets.push(if rng.one_in(2) {
                packet(DATA, 0, &rng.bytes(640))
            } else {
                packet(DATA, 1, &coded(rng))
            });
        }
        packets.push(packet(DATA, 0, &[]));
        packets.push(packet(PRINT, 0, &print));
    }
    for _ in 0..rng.below(8) {
        let anywhere = rng.index(packets.len() + 1);
        packets.insert(anywhere, packet(INQUIRY, 0, &[]));
    }
    Job { packets, pages }
}

/// What came of a stream.
#[derive(Default)]
struct Outcome {
    /// The reply to each byte.
    replies: Vec<u8>,
    /// Each page, with the index of the status byte after its Print packet.
    pages: Vec<(usize, Vec<u8>)>,
    /// The numbers of the refusals, and what Print packets said: the library's alone.
    refused: Vec<u8>,
    prints: Vec<Print>,
}

impl Outcome {
    fn acknowledged(&self) -> usize {
        self.replies.iter().filter(|&&reply| reply == 0x81).count()
    }

    fn summary(&self) -> String {
        let rows: Vec<usize> = self
            .pages
            .iter()
            .map(|(_, dots)| dots.len() / ROW_BYTES)
            .collect();
        let acknowledged = self.acknowledged();
        match &self.refused[..] {
            [] => format!("81 x {acknowledged}, rows {rows:?}"),
            refused => format!("81 x {acknowledged}, rows {rows:?}, refused {refused:?}"),
        }
    }
}

/// What comes of a stream in the library, where the host sets the status that mGBA would have.
fn received(stream: &[u8]) -> Outcome {
    let mut receiver = Receiver::new();
    let mut outcome = Outcome::default();
    let mut status = 0;
    for (at, &byte) in stream.iter().enumerate() {
        let pushed = receiver.push(byte);
        outcome.replies.push(pushed.reply);
        outcome.refused.extend(pushed.refusal.map(|it| it.number));
        match pushed.event {
            Some(Event::Initialize) => status &= !0x0C,
            Some(Event::Band(_)) => status |= 0x08,
            Some(Event::Print(print)) => {
                let rows = receiver.rows(print.bands).to_vec();
                outcome.pages.push((at + 2, rows));
                outcome.prints.push(print);
            }
            _ => {}
        }
        if outcome.pages.last().is_some_and(|page| page.0 == at) {
            status = status & !0x08 | 0x06;
        }
        receiver.set_status(status);
    }
    outcome
}

fn in_target(name: &str) -> PathBuf {
    Path::new(env!("CARGO_TARGET_TMPDIR")).join(name)
}

/// The program over mGBA's printer, or None where mGBA is not installed.
fn program() -> Option<&'static PathBuf> {
    static PROGRAM: OnceLock<Option<PathBuf>> = OnceLock::new();
    let built = PROGRAM.get_or_init(|| {
        let found = Command::new("gcc")
            .args(["-shared", "-include", "mgba/internal/gb/sio/printer.h"])
            .args(["-x", "c", "/dev/null", "-lmgba", "-o"])
            .arg(in_target("mgba_found"))
            .output()
            .expect("gcc is run");
        if !found.status.success() {
            return None;
        }
        let program = in_target("mgba_printer");
        run(Command::new("gcc")
            .args(["-std=c99", "-Wall", "-Wextra", "-Wpedantic", "-Werror"])
            .arg("-O1")
            .arg(Path::new(env!("CARGO_MANIFEST_DIR")).join("tests/c/mgba_printer.c"))
            .args(["-lmgba", "-o"])
            .arg(&program));
        Some(program)
    });
    if built.is_none() {
        println!("skipped: libmgba-dev is not installed");
    }
    built.as_ref()
}

fn bytes(digits: &str) -> Vec<u8> {
    let pairs = (0..digits.len()).step_by(2).map(|i| &digits[i..i + 2]);
    pairs
        .map(|pair| u8::from_str_radix(pair, 16).expect("two hexadecimal digits"))
        .collect()
}

/// What comes of the streams in mGBA, and its version. The streams are handed over in a file.
fn printed(program: &Path, file: &str, streams: &[Vec<u8>]) -> (Vec<Outcome>, String) {
    let file = in_target(file);
    let lines = streams.iter().map(|stream| {
        let digits: String = stream.iter().map(|byte| format!("{byte:02X}")).collect();
        digits + "\n"
    });
    fs::write(&file, lines.collect::<String>()).expect("the streams are written");
    let output = run(Command::new(program).stdin(File::open(&file).expect("they are opened")));

    let text = String::from_utf8(output.stdout).expect("text");
    let mut lines = text.lines();
    let version = lines.next().expect("mGBA's version").to_string();
    let outcomes = lines.map(|line| {
        let mut outcome = Outcome::default();
        for part in line.split(' ') {
            if let Some((rows, dots)) = part.split_once(':') {
                let dots = bytes(dots);
                assert_eq!(rows.parse(), Ok(dots.len() / ROW_BYTES));
                outcome.pages.push((outcome.replies.len(), dots));
            } else {
                outcome.replies.extend(bytes(part));
            }
        }
        outcome
    });
    let outcomes: Vec<Outcome> = outcomes.collect();
    assert_eq!(outcomes.len(), streams.len());
    (outcomes, version)
}

/// Indices, four in a byte, through a palette.
fn shaded(indices: &[u8], palette: u8) -> Vec<u8> {
    let shade = |index: u8| palette >> (6 - 2 * index) & 3;
    indices
        .iter()
        .map(|byte| [6, 4, 2, 0].map(|shift| shade(byte >> shift & 3) << shift))
        .map(|dots| dots.iter().sum())
        .collect()
}

#[test]
fn good_streams() {
    let Some(program) = program() else { return };
    let mut rng = Rng::new(SEED);
    let jobs: Vec<Job> = (0..STREAMS).map(|_| job(&mut rng)).collect();
    let streams: Vec<Vec<u8>> = jobs.iter().map(|job| job.packets.concat()).collect();
    let (theirs, version) = printed(program, "good_streams", &streams);

    let (mut pages, mut bands, mut replies) = (0, 0, 0);
    for (index, (job, theirs)) in jobs.iter().zip(&theirs).enumerate() {
        let ours = received(&streams[index]);
        assert_eq!(ours.refused, [], "stream {index}");
        assert_eq!(ours.acknowledged(), job.packets.len(), "stream {index}");
        assert!(ours.replies == theirs.replies, "replies of stream {index}");
        assert_eq!(ours.pages.len(), job.pages.len(), "stream {index}");
        assert_eq!(theirs.pages.len(), job.pages.len(), "stream {index}");
        for (number, &(sent, [_, margins, palette, density])) in job.pages.iter().enumerate() {
            let (at, indices) = &theirs.pages[number];
            assert!(
                ours.pages[number] == (*at, shaded(indices, palette)),
                "page {number} of stream {index}"
            );
            let print = Print {
                bands: sent,
                margins,
                density,
            };
            assert_eq!(
                ours.prints[number], print,
                "page {number} of stream {index}"
            );
            bands += u64::from(sent);
        }
        pages += job.pages.len();
        replies += ours.replies.len();
    }
    println!(
        "mGBA {version}: {STREAMS} streams, {pages} pages of {bands} bands, {replies} replies"
    );
}

/// What mGBA 0.10.1 takes otherwise than the library.
///
/// It misses a mark after a further 88. It looks at no checksum. It acknowledges unknown commands,
/// and indicators and lengths that do not fit; Data with an indicator over 1 is coded too, and what
/// Data has or expands to is kept, be it less or more than a band, up to 18 bands in all. It frees
/// the room when it prints, and hands out no page without bands.
#[test]
fn differences() {
    let Some(program) = program() else { return };
    let initialize = || packet(INITIALIZE, 0, &[]);
    let band = || packet(DATA, 0, &[0xA5; 640]);
    let print = || packet(PRINT, 0, &[1, 0x13, 0xE4, 0x40]);
    let inquiry = || packet(INQUIRY, 0, &[]);
    let page = |data: Vec<u8>| [initialize(), data, print()].concat();
    let wrong_sum = |mut packet: Vec<u8>| {
        let low = packet.len() - 4;
        packet[low] ^= 1;
        packet
    };
    let run_of_80 = [0xCE, 0];
    // What is sent, and what comes of it in the library and in mGBA.
    let cases = [
        (
            "88 88 33",
            [vec![0x88], inquiry()].concat(),
            "81 x 1, rows []",
            "81 x 0, rows []",
        ),
        (
            "Inquiry, a wrong checksum",
            wrong_sum(inquiry()),
            "81 x 0, rows [], refused [31]",
            "81 x 1, rows []",
        ),
        (
            "Data, a wrong checksum",
            page(wrong_sum(band())),
            "81 x 2, rows [0], refused [31]",
            "81 x 3, rows [16]",
        ),
        (
            "a second Initialize, a wrong checksum",
            page([band(), wrong_sum(initialize())].concat()),
            "81 x 3, rows [16], refused [31]",
            "81 x 4, rows []",
        ),
        (
            "an unknown command",
            packet(0x07, 0, &[]),
            "81 x 0, rows [], refused [32]",
            "81 x 1, rows []",
        ),
        (
            "Inquiry, indicator 1",
            packet(INQUIRY, 1, &[]),
            "81 x 0, rows [], refused [33]",
            "81 x 1, rows []",
        ),
        (
            "coded Data, indicator 2",
            page(packet(DATA, 2, &run_of_80.repeat(8))),
            "81 x 2, rows [0], refused [33]",
            "81 x 3, rows [16]",
        ),
        (
            "Print, 5 bytes",
            [initialize(), band(), packet(PRINT, 0, &[0; 5])].concat(),
            "81 x 2, rows [], refused [33]",
            "81 x 3, rows [16]",
        ),
        (
            "Data, half a band",
            page(packet(DATA, 0, &[0xA5; 320])),
            "81 x 2, rows [0], refused [33]",
            "81 x 3, rows [8]",
        ),
        (
            "Data, two bands",
            page(packet(DATA, 0, &[0xA5; 1280])),
            "81 x 2, rows [0], refused [33]",
            "81 x 3, rows [32]",
        ),
        (
            "coded Data, half a band",
            page(packet(DATA, 1, &run_of_80.repeat(4))),
            "81 x 2, rows [0], refused [35]",
            "81 x 3, rows [8]",
        ),
        (
            "coded Data, two bands",
            page(packet(DATA, 1, &run_of_80.repeat(16))),
            "81 x 2, rows [0], refused [35]",
            "81 x 3, rows [32]",
        ),
        (
            "ten bands",
            page(band().repeat(10)),
            "81 x 11, rows [144], refused [34]",
            "81 x 12, rows [160]",
        ),
        (
            "nineteen bands",
            page(band().repeat(19)),
            "81 x 11, rows [144], refused [34, 34, 34, 34, 34, 34, 34, 34, 34, 34]",
            "81 x 21, rows [288]",
        ),
        (
            "Print twice",
            [page(band()), print()].concat(),
            "81 x 4, rows [16, 16]",
            "81 x 4, rows [16]",
        ),
        (
            "Data after Print",
            [page(band()), band(), print()].concat(),
            "81 x 5, rows [16, 32]",
            "81 x 5, rows [16, 16]",
        ),
        (
            "Print without bands",
            page(vec![]),
            "81 x 2, rows [0]",
            "81 x 2, rows []",
        ),
    ];

    let streams: Vec<Vec<u8>> = cases.iter().map(|case| case.1.clone()).collect();
    let (outcomes, version) = printed(program, "differences", &streams);
    if version != "0.10.1" {
        println!("skipped: the differences are those of mGBA 0.10.1, and this is {version}");
        return;
    }
    for ((what, stream, ours, theirs), outcome) in cases.iter().zip(&outcomes) {
        assert_eq!(received(stream).summary(), *ours, "{what}: the library");
        assert_eq!(outcome.summary(), *theirs, "{what}: mGBA");
    }
    println!("mGBA {version}: {} differences", cases.len());
}
