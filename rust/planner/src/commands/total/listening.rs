//! Reads the file from its first octet to its last, or to where it breaks.

use super::asked::Asked;
use super::progress::Progress;
use crate::arguments::fault;
use crate::capture::{datagram, Broken, Capture, Form, Packet, Source};
use crate::commands::Streams;
use crate::fault::Fault;
use crate::hex::spaced;
use crate::telegrams::{lines, Crowded, Ledger};
use std::fs::File;
use std::io::{self, BufRead, BufReader, Cursor, Read};

/// As much as is read at once.
const BUFFER: usize = 1 << 16;
/// By so many octets a text is told from what is none.
const FIRST: u64 = 16;
/// No frame's line is as long; a file without lines is not held in memory.
const LONGEST_LINE: usize = 1 << 16;

const EXPECTED: &str = "a capture (pcap or pcapng) or a text of frames";
const CROWDED: &str = "at most 4096 ways that telegrams come by";

/// What was heard.
pub struct Heard {
    /// Of whom.
    pub ledger: Ledger,
    /// Whether the file is a capture, or else a text.
    pub is_capture: bool,
    /// Packets, or lines.
    pub items: u64,
    /// Where the file could not be read on.
    pub stopped: Option<Stopped>,
}

/// Where a file could not be read on.
pub struct Stopped {
    /// In a capture, the octet from 0 and the packet from 1.
    pub packet: Option<(u64, u64)>,
    /// In a text, the line from 1.
    pub line: Option<usize>,
    /// What was expected there.
    pub expected: String,
    /// What was found.
    pub found: String,
}

/// Listens to the file that is asked about. A fault is one that nothing could be read for.
pub fn listen(asked: &Asked, streams: &mut Streams<'_>) -> io::Result<Result<Heard, Fault>> {
    let Some(name) = &asked.file else {
        let progress = Progress::new(None);
        let mut input = BufReader::with_capacity(BUFFER, &mut *streams.input);
        return Listener::new(asked, progress, streams.errors).begin(&mut input);
    };
    let file = match File::open(name) {
        Ok(file) => file,
        Err(error) => return Ok(Err(fault(name, EXPECTED, &error.to_string()))),
    };
    let size = file.metadata().ok().map(|known| known.len());
    let mut input = BufReader::with_capacity(BUFFER, file);
    Listener::new(asked, Progress::new(size), streams.errors).begin(&mut input)
}

struct Listener<'a> {
    asked: &'a Asked,
    progress: Progress,
    errors: &'a mut dyn io::Write,
    ledger: Ledger,
    items: u64,
}

impl<'a> Listener<'a> {
    fn new(asked: &'a Asked, progress: Progress, errors: &'a mut dyn io::Write) -> Listener<'a> {
        Listener {
            asked,
            progress,
            errors,
            ledger: Ledger::new(asked.question.clone()),
            items: 0,
        }
    }

    /// The first octets say what the file is.
    fn begin(mut self, input: &mut dyn BufRead) -> io::Result<Result<Heard, Fault>> {
        let name = self.asked.name();
        let mut first = Vec::new();
        if let Err(error) = (&mut *input).take(FIRST).read_to_end(&mut first) {
            return Ok(Err(fault(&name, EXPECTED, &error.to_string())));
        }
        let form = Form::of(&first[..first.len().min(4)]);
        if let Some(found) = stranger(form, &first) {
            return Ok(Err(fault(&name, EXPECTED, &found)));
        }
        let is_capture = form != Form::Other;
        if let Err(fault) = self.asked.fits(is_capture) {
            return Ok(Err(fault));
        }
        let mut whole = Cursor::new(first).chain(input);
        let stopped = match form {
            Form::Pcap => Capture::pcap(Source::new(&mut whole)).map(|file| self.capture(file)),
            Form::Pcapng => Ok(self.capture(Capture::pcapng(Source::new(&mut whole)))),
            _ => Ok(self.text(&mut whole)),
        };
        let stopped = stopped.unwrap_or_else(|broken| Ok(Some(broken.into())))?;
        self.progress.end(self.errors)?;
        Ok(Ok(Heard {
            ledger: self.ledger,
            is_capture,
            items: self.items,
            stopped,
        }))
    }

    /// Every packet of a capture.
    fn capture(&mut self, mut capture: Capture<'_>) -> io::Result<Option<Stopped>> {
        loop {
            let octet = capture.octet();
            let packet = match capture.packet() {
                Ok(Some(packet)) => packet,
                Ok(None) => return Ok(None),
                Err(broken) => return Ok(Some(broken.into())),
            };
            self.items += 1;
            if let Err(Crowded) = self.packet(&packet) {
                return Ok(Some(Stopped {
                    packet: Some((octet, self.items)),
                    line: None,
                    expected: CROWDED.into(),
                    found: "another".into(),
                }));
            }
            self.progress
                .at(self.errors, octet, self.items, "packets")?;
        }
    }

    fn packet(&mut self, packet: &Packet<'_>) -> Result<(), Crowded> {
        match datagram(packet, self.asked.port()) {
            Ok(datagram) => self.ledger.datagram(&datagram, packet.time),
            Err(unread) => {
                self.ledger.aside.unread(unread);
                Ok(())
            }
        }
    }

    /// Every line of a text.
    fn text(&mut self, input: &mut dyn BufRead) -> io::Result<Option<Stopped>> {
        let (mut line, mut octet) = (Vec::new(), 0);
        for number in 1.. {
            line.clear();
            let most = LONGEST_LINE as u64 + 1;
            let read = (&mut *input).take(most).read_until(b'\n', &mut line);
            let found = match read {
                Ok(0) => return Ok(None),
                Ok(size) if size > LONGEST_LINE => Err((LINE, "a longer one".into())),
                Ok(size) => {
                    octet += size as u64;
                    self.line(&line, number == 1)
                }
                Err(error) => Err((EXPECTED, error.to_string())),
            };
            if let Err((expected, found)) = found {
                return Ok(Some(Stopped {
                    packet: None,
                    line: Some(number),
                    expected: expected.into(),
                    found,
                }));
            }
            self.items += 1;
            self.progress.at(self.errors, octet, self.items, "lines")?;
        }
        Ok(None)
    }

    fn line(&mut self, line: &[u8], is_first: bool) -> Result<(), (&'static str, String)> {
        let text = String::from_utf8_lossy(line);
        // Some editors put a mark before the first line.
        let text = match is_first {
            true => text.trim_start_matches('\u{feff}'),
            false => &text,
        };
        let read = lines::read(text, self.asked.question.place);
        let Some(line) = read.map_err(|faulty| (faulty.expected, faulty.found))? else {
            return Ok(());
        };
        let heard = self.ledger.line(&line.octets, self.asked.kind, line.time);
        heard.map_err(|Crowded| (CROWDED, "another".into()))
    }
}

/// What a file is that is neither a capture nor a text.
fn stranger(form: Form, first: &[u8]) -> Option<String> {
    const MARK: &[u8] = "\u{feff}".as_bytes();
    let is_odd = |octet: &u8| octet.is_ascii_control() && !octet.is_ascii_whitespace();
    let begins_odd = first.first().is_some_and(|octet| !octet.is_ascii());
    let is_text = !first.iter().any(is_odd) && (first.starts_with(MARK) || !begins_odd);
    match form {
        Form::Compressed(by) => Some(format!("a file that {by} has compressed")),
        Form::Other if first.is_empty() => Some("an empty file".into()),
        Form::Other if !is_text => Some(format!("a file that begins with {}", spaced(first))),
        _ => None,
    }
}

const LINE: &str = "a line of at most 65536 octets";

impl From<Broken> for Stopped {
    fn from(broken: Broken) -> Stopped {
        Stopped {
            packet: Some((broken.octet, broken.packet)),
            line: None,
            expected: broken.expected,
            found: broken.found,
        }
    }
}
