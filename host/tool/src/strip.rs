//! `strip`: captured streams of a pocket gauge, received packet by packet, and the printed pages as
//! pictures.

use crate::arguments::Arguments;
use crate::english::count;
use crate::failure::{Failure, Outcome, Status};
use crate::input::{name, open};
use crate::output::say;
use crate::strip_faults;
use crate::strip_pages::{hold_folder, Pages};
use printbox::strip::{Event, Print, Receiver, Record, BANDS};
use printbox::Refusal;
use std::io::{self, BufReader, Read, Write};
use std::path::Path;

pub fn run(arguments: &Arguments) -> Outcome<Status> {
    hold_folder(arguments)?;
    let mut output = io::stdout().lock();
    let mut print = |line: String| {
        writeln!(output, "{line}").map_err(|error| Failure::of_standard_output(&error))
    };
    if let [path] = &arguments.files[..] {
        let received = receive(path, Pages::of(arguments, path), &mut print)?;
        return match received.unread {
            Some(failure) => Err(failure),
            None if received.refused > 0 => Ok(Status::Refused),
            None => Ok(Status::Done),
        };
    }

    let (mut done, mut refused, mut unread) = (0, 0, 0);
    for path in &arguments.files {
        let pages = Pages::of(arguments, path);
        let name = name(path);
        let received = receive(path, pages, &mut |line| print(format!("{name}: {line}")))?;
        done += received.done;
        refused += received.refused;
        if let Some(failure) = received.unread {
            unread += 1;
            say(&failure.line.unwrap_or_default());
        }
    }
    let streams = count(arguments.files.len(), "stream");
    let packets = count(done, "packet");
    let mut total = format!("{streams}: {packets} done, {refused} refused");
    if unread > 0 {
        total += &format!(", {} can't be read", count(unread, "stream"));
    }
    print(total)?;
    Ok(match (unread, refused) {
        (0, 0) => Status::Done,
        (0, _) => Status::Refused,
        _ => Status::Trouble,
    })
}

/// How a stream was received.
#[derive(Default)]
struct Received {
    /// The packets that acted.
    done: usize,
    refused: usize,
    /// Why it was not read to its end.
    unread: Option<Failure>,
}

/// Receives a stream, and prints a line for each packet. A failure is of the output.
fn receive(
    path: &Path,
    mut pages: Option<Pages>,
    print: &mut dyn FnMut(String) -> Outcome<()>,
) -> Outcome<Received> {
    let mut received = Received::default();
    let input = match open(path) {
        Ok(input) => BufReader::new(input),
        Err(failure) => {
            received.unread = Some(failure);
            return Ok(received);
        }
    };
    let mut stream = Stream::new();
    for byte in input.bytes() {
        let byte = match byte {
            Ok(byte) => byte,
            Err(error) => {
                received.unread = Some(Failure::of_file(&name(path), &error));
                break;
            }
        };
        let Some((start, told)) = stream.push(byte) else {
            continue;
        };
        let line = match told {
            Ok(event) => {
                received.done += 1;
                if let (Event::Print(print), Some(pages)) = (event, &mut pages) {
                    pages.add(stream.receiver.rows(print.bands))?;
                }
                words(event)
            }
            Err(refusal) => {
                received.refused += 1;
                strip_faults::words(&refusal, stream.record(), byte)
            }
        };
        print(format!("at {start}: {line}"))?;
    }
    if received.unread.is_none() {
        if let Some(start) = stream.unfinished() {
            print(format!("ends inside a packet that begins at {start}"))?;
        } else if received.done + received.refused == 0 {
            print("no packet".to_string())?;
        }
    }
    if let Some(pages) = pages {
        pages.close()?;
    }
    Ok(received)
}

/// What a packet did, in words.
fn words(event: Event) -> String {
    match event {
        Event::Initialize => "initialize".to_string(),
        Event::Band(band) => format!("data, band {band} of {BANDS}"),
        Event::PageEnd => "data, end of page".to_string(),
        Event::Inquiry => "inquiry".to_string(),
        Event::Print(Print {
            bands,
            margins,
            density,
        }) => format!(
            "print, {}, margins {} and {}, density {density}",
            count(bands.into(), "band"),
            margins >> 4,
            margins & 15
        ),
    }
}

/// A receiver, and where the packets of its stream begin, which the tool sees by itself.
struct Stream {
    receiver: Receiver,
    /// How many bytes have come.
    length: u64,
    /// Where the last mark begins whose packet has not ended, or what may be one.
    start: Option<u64>,
}

impl Stream {
    fn new() -> Stream {
        Stream {
            receiver: Receiver::new(),
            length: 0,
            start: None,
        }
    }

    fn record(&self) -> &Record {
        self.receiver.record()
    }

    /// Whether the receiver searches for a mark.
    fn is_searching(&self) -> bool {
        self.record().phase == 0
    }

    /// Takes one byte. Where it ends a packet, or is the length of one that is refused there: where
    /// the packet begins, and what it did.
    fn push(&mut self, byte: u8) -> Option<(u64, Result<Event, Refusal>)> {
        let at = self.length;
        self.length += 1;
        // A mark is 88 33, and a second 88 counts as a first.
        let is_second = self.start.is_some_and(|start| start + 1 == at);
        if self.is_searching() || (is_second && byte == 0x88) {
            self.start = Some(at);
        }
        let pushed = self.receiver.push(byte);
        let told = match (pushed.event, pushed.refusal) {
            (Some(event), _) => Ok(event),
            (None, Some(refusal)) => Err(refusal),
            (None, None) => return None,
        };
        self.start.take().map(|start| (start, told))
    }

    /// Where the packet begins that the stream ends in.
    fn unfinished(&self) -> Option<u64> {
        self.start.filter(|_| !self.is_searching())
    }
}
