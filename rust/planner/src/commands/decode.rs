//! `klumdray decode`.

use super::Streams;
use crate::arguments::{fault, quoted, Arguments, Known};
use crate::fault::{Fault, Status};
use crate::frame::{paragraph, record, tell, Kind, Told};
use crate::hex;
use std::fs::File;
use std::io::{self, BufRead, BufReader, Read, Write};

/// What `klumdray decode --help` says.
pub const HELP: &str = "\
klumdray decode: what a TP1 frame, a cEMI message, a routing datagram, a tunnelling request or its
acknowledgement says, or why it is refused

  klumdray decode HEX..       octets, two hex digits each; spaces, colons or hyphens may stand
                              between octets, and 0x before them
  klumdray decode FILE        a file with one frame a line; # begins a comment, blank lines are
                              skipped; a name that reads as HEX needs --file
  klumdray decode [-]         the same from standard input

  --tp1, --cemi, --routing, --tunnelling-request, --tunnelling-ack
                              read as this kind; otherwise the five are told apart
  --file FILE                 read this file, whatever its name
  --json                      one JSON object a line, for scripts

A refused frame is shown with the refusal's number and words, the octets that the refusal comes from
(the first octet is 0) and what was expected there.

In JSON an accepted frame has refusal 0; a refused one has its number, words, place and expected.
Where octets may be of none of the five kinds, or of more than one, kind and refusal are null and
refusals has each reader's number. A frame from a file or standard input has its line.

Of a tunnelling datagram channel and counter are told as they stand in it; whether the channel is
open, and the counter the one awaited, is known to who keeps the channels.

Examples:
  klumdray decode BC 00 00 12 34 B4 00 80 56 78 9A E5
  klumdray decode --cemi --json frames.txt

Exit status: 0 every frame is accepted; 1 a frame is refused; 2 a file, a line or an argument cannot
be read.
";

const KNOWN: [Known; 7] = [
    Known {
        name: "--tp1",
        value: None,
    },
    Known {
        name: "--cemi",
        value: None,
    },
    Known {
        name: "--routing",
        value: None,
    },
    Known {
        name: "--tunnelling-request",
        value: None,
    },
    Known {
        name: "--tunnelling-ack",
        value: None,
    },
    Known {
        name: "--file",
        value: Some("a file's name"),
    },
    Known {
        name: "--json",
        value: None,
    },
];

/// Where frames come from.
enum Source {
    Words(String),
    File {
        name: String,
        /// What the name was expected to be.
        expected: &'static str,
    },
    StandardInput,
}

/// Runs the command.
pub fn run(words: &[String], streams: &mut Streams<'_>) -> io::Result<Status> {
    let understood = Arguments::read(words, &KNOWN)
        .and_then(|arguments| Ok((source(&arguments)?, kind(&arguments)?, arguments)));
    let (source, kind, arguments) = match understood {
        Ok(understood) => understood,
        Err(fault) => return streams.faulty(&[fault]),
    };
    let mut decoder = Decoder {
        kind,
        json: arguments.has("--json"),
        status: Status::Answered,
        begun: false,
        streams: Streams {
            input: &mut io::empty(),
            output: &mut *streams.output,
            errors: &mut *streams.errors,
        },
    };
    match source {
        Source::Words(text) => decoder.frame("HEX", &text, None)?,
        Source::File { name, expected } => decoder.file(&name, expected)?,
        Source::StandardInput => decoder.lines("standard input", &mut *streams.input)?,
    }
    Ok(decoder.status)
}

fn kind(arguments: &Arguments) -> Result<Option<Kind>, Fault> {
    let flag = |kind: &Kind| format!("--{}", kind.token().replace('_', "-"));
    let mut given = Kind::ALL
        .into_iter()
        .filter(|kind| arguments.has(&flag(kind)));
    match (given.next(), given.next()) {
        (kind, None) => Ok(kind),
        (_, Some(second)) => Err(fault(&flag(&second), "one kind", "a second")),
    }
}

fn source(arguments: &Arguments) -> Result<Source, Fault> {
    let file = |name: &str, expected| Source::File {
        name: name.into(),
        expected,
    };
    match (arguments.value("--file"), &arguments.plain[..]) {
        (Some(name), []) => Ok(file(name, "a file of frames")),
        (Some(_), [word, ..]) => Err(fault("--file", "nothing beside it", &quoted(word))),
        (None, []) => Ok(Source::StandardInput),
        (None, [word]) if word == "-" => Ok(Source::StandardInput),
        (None, [word]) if !hex::is_meant(word) => Ok(file(word, "hex digits or a file of frames")),
        (None, words) => Ok(Source::Words(words.join(" "))),
    }
}

/// Decodes frame by frame and keeps how the command ends.
struct Decoder<'a> {
    kind: Option<Kind>,
    json: bool,
    status: Status,
    /// Whether a frame has been written.
    begun: bool,
    streams: Streams<'a>,
}

impl Decoder<'_> {
    fn file(&mut self, name: &str, expected: &str) -> io::Result<()> {
        match File::open(name) {
            Ok(file) => self.lines(name, file),
            Err(error) => self.faulty(fault(name, expected, &error.to_string())),
        }
    }

    fn lines(&mut self, name: &str, input: impl Read) -> io::Result<()> {
        let mut input = BufReader::new(input);
        let mut line = Vec::new();
        for number in 1.. {
            // Whoever types frames, or pipes them from a bus, sees each answer at once.
            if input.buffer().is_empty() {
                self.streams.output.flush()?;
            }
            line.clear();
            match input.read_until(b'\n', &mut line) {
                Ok(0) => break,
                Ok(_) => self.line(name, &line, number)?,
                Err(error) => {
                    self.faulty(fault(name, "a file of frames", &error.to_string()))?;
                    break;
                }
            }
        }
        Ok(())
    }

    fn line(&mut self, name: &str, line: &[u8], number: usize) -> io::Result<()> {
        let text = String::from_utf8_lossy(line);
        match text.split('#').next().map(str::trim) {
            None | Some("") => Ok(()),
            Some(text) => self.frame(name, text, Some(number)),
        }
    }

    fn frame(&mut self, place: &str, text: &str, line: Option<usize>) -> io::Result<()> {
        match hex::read(text) {
            Ok(octets) => self.octets(&octets, line),
            Err(word) => self.faulty(Fault {
                line,
                ..fault(
                    place,
                    "two hex digits for each octet",
                    &quoted(&short(word)),
                )
            }),
        }
    }

    fn octets(&mut self, octets: &[u8], line: Option<usize>) -> io::Result<()> {
        let told = tell(octets, self.kind);
        if !matches!(told, Told::Accepted(_)) {
            self.status = self.status.max(Status::Refused);
        }
        let output = &mut self.streams.output;
        if self.json {
            return writeln!(output, "{}", record(octets, &told, line));
        }
        let gap = if self.begun { "\n" } else { "" };
        self.begun = true;
        write!(output, "{gap}{}", paragraph(octets, &told, line))
    }

    fn faulty(&mut self, fault: Fault) -> io::Result<()> {
        // On a terminal a fault stands behind the answers to the lines before it.
        self.streams.output.flush()?;
        self.status = self.status.max(self.streams.faulty(&[fault])?);
        Ok(())
    }
}

/// The beginning of a word that may be as long as a file.
fn short(word: &str) -> String {
    const LONGEST: usize = 24;
    match word.char_indices().nth(LONGEST) {
        Some((end, _)) => format!("{}..", &word[..end]),
        None => word.into(),
    }
}
