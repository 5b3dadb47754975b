//! The strip printer's receiver: operations on one record through the library, and against the
//! plain reading of `reference`.

use super::guarded::Memory;
use super::strip_cases::{taken, Op, Taken};
use printbox::strip::{receive, set_status, Record};
use printbox::{strip, Refusal};
use reference::strip::{is_not_taken, read, Answer, Event, Place, Reading};
use std::fmt;

/// The answer of most bytes.
pub const PLAIN: Answer = Answer::Reply(0);

/// Operations on a new record, and what the two lent buffers hold at first.
pub struct Session<'a> {
    pub bands: &'a [u8],
    pub dots: &'a [u8],
    pub ops: &'a [Op],
}

/// A record of the library, and the buffers that are lent to it.
pub struct Line<M> {
    pub record: Record,
    pub bands: M,
    pub dots: M,
}

/// An answer of the library in the form of an answer of `reference`.
pub fn told(answer: Result<strip::Answer, Refusal>) -> Result<Answer, String> {
    Ok(match answer {
        Ok(strip::Answer::Reply(reply)) => Answer::Reply(reply),
        Ok(strip::Answer::Acted(event)) => Answer::Acted(match event {
            strip::Event::Initialize => Event::Initialize,
            strip::Event::Band(waiting) => Event::Band(waiting),
            strip::Event::PageEnd => Event::PageEnd,
            strip::Event::Inquiry => Event::Inquiry,
            strip::Event::Print(strip::Print {
                bands,
                margins,
                density,
            }) => Event::Print {
                bands,
                margins,
                density,
            },
        }),
        Err(Refusal { number, place: 0 }) => Answer::Refused(number),
        Err(refusal) => return Err(format!("{refusal}")),
    })
}

/// Calls the library with a byte. It has to be refused with 36 as stated, and this leaves the
/// record.
pub fn call(
    record: &mut Record,
    byte: u8,
    bands: &mut [u8],
    dots: &mut [u8],
) -> Result<Answer, String> {
    let (waiting, body) = (record.bands.into(), record.have.into());
    if !is_not_taken(bands.len(), dots.len(), waiting, body) {
        return match told(receive(record, byte, bands, dots))? {
            Answer::Refused(36) => Err("36, and the byte could be taken".to_string()),
            answer => Ok(answer),
        };
    }
    let before = *record;
    match told(receive(record, byte, bands, dots))? {
        Answer::Refused(36) if *record == before => Ok(Answer::Refused(36)),
        Answer::Refused(36) => Err("36 changed the record".to_string()),
        answer => Err(format!("{answer:?} instead of 36")),
    }
}

impl<M: Memory> Line<M> {
    pub fn new(bands: &[u8], dots: &[u8]) -> Line<M> {
        Line {
            record: Record::new(),
            bands: M::new(bands),
            dots: M::new(dots),
        }
    }

    pub fn push(&mut self, byte: u8) -> Result<Answer, String> {
        call(&mut self.record, byte, self.bands.lent(), self.dots.lent())
    }

    /// A call with buffers of other lengths: they hold what the line's own hold, as far as they
    /// reach, and what they hold after the call is put back there.
    fn push_lent(&mut self, byte: u8, bands: usize, dots: usize) -> Result<Answer, String> {
        const BEYOND: u8 = 0xB7;
        let other = |own: &M, length: usize| -> Result<M, String> {
            let mut content = own.content()?.to_vec();
            content.resize(length, BEYOND);
            Ok(M::new(&content))
        };
        let mut bands = other(&self.bands, bands)?;
        let mut dots = other(&self.dots, dots)?;
        let answer = call(&mut self.record, byte, bands.lent(), dots.lent())?;
        for (own, other) in [(&mut self.bands, &bands), (&mut self.dots, &dots)] {
            let (own, other) = (own.lent(), other.content()?);
            let (same, beyond) = other.split_at(own.len().min(other.len()));
            own[..same.len()].copy_from_slice(same);
            if beyond.iter().any(|byte| *byte != BEYOND) {
                return Err("bytes beyond nine bands were written".to_string());
            }
        }
        Ok(answer)
    }

    fn set_status(&mut self, status: u8) -> Result<(), String> {
        let before = self.record;
        set_status(&mut self.record, status);
        if self.record != (Record { status, ..before }) {
            return Err("a status changed the record".to_string());
        }
        Ok(())
    }
}

impl Session<'_> {
    /// Makes the calls of the library, with buffers in memory of this kind. `seen` is told of each
    /// call what it is answered, and sees the line after it.
    pub fn play<M: Memory>(
        &self,
        mut seen: impl FnMut(Answer, &Line<M>) -> Result<(), String>,
    ) -> Result<Line<M>, String> {
        let mut line = Line::new(self.bands, self.dots);
        let mut before = line.record;
        for op in self.ops {
            match *op {
                Op::Bytes(ref bytes) => {
                    for &byte in bytes {
                        let answer = line.push(byte)?;
                        seen(answer, &line)?;
                    }
                }
                Op::Lent { byte, bands, dots } => {
                    let answer = line.push_lent(byte, bands, dots)?;
                    seen(answer, &line)?;
                }
                Op::Status(status) => line.set_status(status)?,
                Op::Bands(count) => {
                    before = line.record;
                    line.record.bands = count;
                }
                Op::Body(count) => {
                    before = line.record;
                    line.record.have = count;
                }
                Op::Undo => line.record = before,
            }
        }
        Ok(line)
    }

    /// The bytes that are taken, and their plain reading. None where a byte is taken by a record
    /// that somebody wrote.
    pub fn reading(&self) -> Option<(Taken, Reading)> {
        let taken = taken(self.ops, self.bands.len(), self.dots.len(), is_not_taken)?;
        let reading = read(&taken.bytes, &taken.status);
        Some((taken, reading))
    }

    /// The answer of each call and where the record stands at the end, where library and
    /// `reference` agree on these, and on both buffers before and after each call that is not
    /// answered a plain 0; else the operations and what is wrong, as text.
    pub fn agreed_in<M: Memory>(&self) -> Result<(Vec<Answer>, Place), String> {
        self.compared::<M>()
            .map_err(|difference| format!("{self}\n{difference}"))
    }

    fn compared<M: Memory>(&self) -> Result<(Vec<Answer>, Place), String> {
        let (taken, reading) = self.reading().ok_or("somebody wrote the record")?;
        let answers: Vec<Answer> = taken
            .answers(&reading.answers, Answer::Refused(36))
            .collect();
        let mut buffers = Buffers {
            bands: self.bands.to_vec(),
            dots: self.dots.to_vec(),
        };
        let mut writes = reading.writes.iter().peekable();
        let mut calls = 0;
        let line = self.play::<M>(|library, line| {
            let number = calls;
            calls += 1;
            let reference = answers[number];
            if library != reference {
                return Err(format!(
                    "call {number}: library {library:?}, reference {reference:?}"
                ));
            }
            if let Some(write) = writes.next_if(|write| taken.calls[number] == Some(write.at)) {
                write.put(&mut buffers.bands, &mut buffers.dots);
            }
            if reference != PLAIN || answers.get(number + 1).is_some_and(|next| *next != PLAIN) {
                buffers
                    .held(line)
                    .map_err(|fault| format!("call {number}, {reference:?}: {fault}"))?;
            }
            Ok(())
        })?;
        if calls != answers.len() {
            return Err(format!("{calls} calls instead of {}", answers.len()));
        }
        buffers.held(&line)?;
        if buffers.bands[..reading.waiting.len()] != reading.waiting {
            return Err("reference: other bands wait than were written".to_string());
        }
        if line.record.status != taken.last_status {
            return Err(format!("the status is {:02x}", line.record.status));
        }
        stands(&line.record, &reading)?;
        Ok((answers, reading.place))
    }
}

/// What the two lent buffers have to hold.
struct Buffers {
    bands: Vec<u8>,
    dots: Vec<u8>,
}

impl Buffers {
    /// Holds them against the line's.
    fn held<M: Memory>(&self, line: &Line<M>) -> Result<(), String> {
        for (name, lent, expected) in [
            ("band", &line.bands, &self.bands),
            ("dot", &line.dots, &self.dots),
        ] {
            let lent = lent.content()?;
            if lent != expected {
                let at = lent.iter().zip(expected).position(|(a, b)| a != b);
                return Err(format!("the {name} buffer differs at {at:?}"));
            }
        }
        Ok(())
    }
}

/// The number of a place in `Record::phase`.
pub fn phase(place: Place) -> u8 {
    match place {
        Place::Searching => 0,
        Place::Marking => 1,
        Place::Header(have) => 2 + have as u8,
        Place::Body(_) => 6,
        Place::Checksum(have) => 7 + have as u8,
        Place::Clock(have) => 9 + have as u8,
    }
}

/// Holds a record against the reading that it stands at the end of: the fields that the rest of the
/// packet depends on.
fn stands(record: &Record, reading: &Reading) -> Result<(), String> {
    let same = |name: &str, library: usize, reference: usize| {
        if library == reference {
            return Ok(());
        }
        let place = reading.place;
        Err(format!(
            "at {place:?}: {name} {library}, reference {reference}"
        ))
    };
    same("phase", record.phase.into(), phase(reading.place).into())?;
    same("bands", record.bands.into(), reading.waiting.len() / 640)?;
    // What is there of header and body, and the low byte of a length or checksum that is cut.
    let open = &reading.open[..];
    let (sizes, low) = match reading.place {
        Place::Searching | Place::Marking | Place::Clock(_) => return Ok(()),
        Place::Header(3) => (None, Some(open[2])),
        Place::Header(_) => (None, None),
        Place::Body(have) => {
            let size = usize::from(u16::from_le_bytes([open[2], open[3]]));
            (Some((size, have)), None)
        }
        Place::Checksum(have) => {
            let size = open.len() - have - 4;
            let low = (have == 1).then(|| open[open.len() - 1]);
            (Some((size, size)), low)
        }
    };
    if let Some(&command) = open.first() {
        same("command", record.command.into(), command.into())?;
    }
    if let Some(&indicator) = open.get(1) {
        same("indicator", record.indicator.into(), indicator.into())?;
    }
    if let Some(low) = low {
        same("low byte", record.low.into(), low.into())?;
    }
    if let Some((size, have)) = sizes {
        same("size", record.size.into(), size)?;
        same("body bytes", record.have.into(), have)?;
        if record.body[..have] != open[4..4 + have] {
            return Err("the body differs".to_string());
        }
        let sum: usize = open[..4 + have].iter().map(|byte| usize::from(*byte)).sum();
        same("sum", record.sum.into(), sum % 65_536)?;
    }
    Ok(())
}

impl fmt::Display for Session<'_> {
    fn fmt(&self, f: &mut fmt::Formatter<'_>) -> fmt::Result {
        let ops: Vec<String> = self.ops.iter().map(Op::to_string).collect();
        write!(
            f,
            "buffers of {} and {} bytes: {}",
            self.bands.len(),
            self.dots.len(),
            ops.join(",")
        )
    }
}
