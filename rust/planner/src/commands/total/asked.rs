//! What the command's words ask.

use crate::address::{number, Group};
use crate::arguments::{fault, quoted, Arguments, Known};
use crate::calendar::Offset;
use crate::fault::Fault;
use crate::frame::Kind;
use crate::litres;
use crate::telegrams::Question;

const KNOWN: [Known; 10] = [
    known("--group", Some(GROUP)),
    known("--start", Some(START)),
    known("--by", Some(BY)),
    known("--offset", Some(OFFSET)),
    known("--way", Some(WAY)),
    known("--port", Some(PORT)),
    known("--tp1", None),
    known("--cemi", None),
    known("--routing", None),
    known("--json", None),
];

const fn known(name: &'static str, value: Option<&'static str>) -> Known {
    Known { name, value }
}

const GROUP: &str = "a group address such as 2/2/52, 2/564, 4660 or 1234h";
const START: &str = "litres such as 8760.00, with at most two decimals";
const BY: &str = "month";
const OFFSET: &str = "an offset such as +01:00";
const WAY: &str = "a way's number, or several as 1,2";
const PORT: &str = "a UDP port from 1 to 65535";
const KNXNET_IP: u16 = 3671;

/// What the command's words ask.
pub struct Asked {
    /// The file's name; none is standard input.
    pub file: Option<String>,
    /// What is asked of the telegrams.
    pub question: Question,
    /// The port, if it is given.
    given_port: Option<u16>,
    /// What the lines of a text are; none to tell them apart.
    pub kind: Option<Kind>,
    /// Whether JSON is wanted.
    pub json: bool,
}

impl Asked {
    /// Reads the words.
    pub fn read(words: &[String]) -> Result<Asked, Fault> {
        let arguments = Arguments::read(words, &KNOWN)?;
        let file = match &arguments.plain[..] {
            [file] => Some(file.clone()).filter(|file| file != "-"),
            [] => return Err(fault("total", "a capture or a text of frames", "none")),
            [_, other, ..] => return Err(fault("total", "one file", &quoted(other))),
        };
        let group = arguments.read_value("--group", GROUP, Group::read)?;
        let group = group.ok_or_else(|| fault("total", "--group and a group", "no --group"))?;
        let start = arguments.read_value("--start", START, litres::read)?;
        let by = arguments.read_value("--by", BY, |by| (by == BY).then_some(()))?;
        let offset = arguments.read_value("--offset", OFFSET, Offset::read)?;
        let chosen = arguments.read_value("--way", WAY, ways)?;
        Ok(Asked {
            file,
            question: Question {
                group: group.0,
                start: start.unwrap_or_default(),
                by_month: by.is_some(),
                place: offset.unwrap_or_default(),
                chosen: chosen.unwrap_or_default(),
            },
            given_port: arguments.read_value("--port", PORT, port)?,
            kind: kind(&arguments)?,
            json: arguments.has("--json"),
        })
    }

    /// The file's name for people.
    pub fn name(&self) -> String {
        let name = self.file.clone();
        name.unwrap_or_else(|| "standard input".into())
    }

    /// The UDP port of KNXnet/IP.
    pub fn port(&self) -> u16 {
        self.given_port.unwrap_or(KNXNET_IP)
    }

    /// What is asked of a capture has no place with a text, and the other way round: whoever asks it
    /// takes the file for something else.
    pub fn fits(&self, is_capture: bool) -> Result<(), Fault> {
        match (is_capture, self.kind, self.given_port) {
            (true, Some(kind), _) => Err(fault(
                &flag(kind),
                "a text of frames",
                "a capture of packets",
            )),
            (false, _, Some(_)) => Err(fault("--port", "a capture of packets", "a text")),
            _ => Ok(()),
        }
    }
}

fn port(text: &str) -> Option<u16> {
    number(text, u16::MAX).filter(|port| *port > 0)
}

/// Numbers from 1 on with commas between them, none twice.
fn ways(text: &str) -> Option<Vec<usize>> {
    let mut ways = Vec::new();
    for part in text.split(',') {
        let way = usize::from(number(part, u16::MAX)?);
        if way == 0 || ways.contains(&way) {
            return None;
        }
        ways.push(way);
    }
    Some(ways)
}

fn flag(kind: Kind) -> String {
    format!("--{}", kind.token())
}

fn kind(arguments: &Arguments) -> Result<Option<Kind>, Fault> {
    let kinds = [Kind::Tp1, Kind::Cemi, Kind::Routing].into_iter();
    let mut given = kinds.filter(|kind| arguments.has(&flag(*kind)));
    match (given.next(), given.next()) {
        (kind, None) => Ok(kind),
        (_, Some(second)) => Err(fault(&flag(second), "one kind", "a second")),
    }
}
