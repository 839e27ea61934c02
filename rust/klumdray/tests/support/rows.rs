//! The rows of tests/telegrams; the README.md there says what each field is.

use std::fs;
use std::path::Path;

/// The source documents, and document 02, whose requests ask for cases: a file of rows for each.
pub const SOURCES: [&str; 5] = ["000", "001", "002", "003", "02"];

const TABLE_SIZE: usize = 8192;

/// The setting of a step; the side and the main medium as their numbers.
pub struct Setting {
    pub line: u8,
    pub codes: [[u8; 4]; 2],
    pub side: u8,
    pub medium: u8,
    pub table: Vec<u8>,
}

/// A call on a table of channels.
pub enum Call {
    Receive(Vec<u8>),
    /// The channel, and the message that is to go out on it.
    Send(u8, Vec<u8>),
    Confirm(Vec<u8>),
}

/// What a row asks.
pub enum Question {
    Tp1(Vec<u8>),
    Cemi(Vec<u8>),
    Routing(Vec<u8>),
    Request(Vec<u8>),
    Acknowledgement(Vec<u8>),
    /// Frames received one after the other; the row says what becomes of the last.
    Step(Setting, Vec<Vec<u8>>),
    /// The open channels, and calls one after the other; the row says what comes of each.
    Tunnel(Vec<u8>, Vec<Call>),
    Float(Vec<u8>),
    /// A number of hundredths that is to be written.
    Hundredths(i64),
    /// A station's group, and frames received one after the other; the row says what the last one
    /// is, and the total then.
    Station(u16, Vec<Vec<u8>>),
}

pub struct Row {
    pub name: String,
    pub question: Question,
    /// What document 01, or a request of document 02, says of it.
    pub text: String,
    pub remark: String,
}

impl Row {
    pub fn is_misprint(&self) -> bool {
        self.remark.starts_with("misprint: ")
    }

    pub fn is_other_format(&self) -> bool {
        self.remark.starts_with("other format: ")
    }

    /// The source wants a request refused that breaks no layout.
    pub fn is_on_purpose(&self) -> bool {
        self.remark.starts_with("on purpose: ")
    }

    /// The number by which it is refused, in a tunnel its last call, or 0. A step's other parts and
    /// a station's total stand behind it.
    pub fn number(&self) -> usize {
        let last = self.text.rsplit(" > ").next().unwrap_or_default();
        let mut words = last.split(' ');
        match (words.next(), words.next()) {
            (Some("refused"), Some(number)) => number.parse().expect("a number behind refused"),
            _ => 0,
        }
    }

    fn parse(source: &str, line: &str) -> Row {
        let fields: Vec<&str> = line.split('\t').collect();
        let &[name, place, format, octets, text, remark] = &fields[..] else {
            panic!("not six fields: {line}");
        };
        assert!(name.starts_with(&format!("{source}-")), "{line}");
        let at = place.strip_prefix(&format!("{source}:"));
        let number = at.and_then(|at| at.parse::<usize>().ok());
        assert!(number.is_some_and(|number| number > 0), "{line}");
        assert!(!text.is_empty() && !remark.is_empty(), "{line}");
        Row {
            name: name.to_string(),
            question: question(format, octets),
            text: text.to_string(),
            remark: remark.to_string(),
        }
    }
}

fn question(format: &str, octets: &str) -> Question {
    match format {
        "tp1" => Question::Tp1(pairs(octets)),
        "cemi" => Question::Cemi(pairs(octets)),
        "routing" => Question::Routing(pairs(octets)),
        "request" => Question::Request(pairs(octets)),
        "acknowledgement" => Question::Acknowledgement(pairs(octets)),
        "step" => {
            let mut parts = octets.split(" > ").map(pairs);
            let setting = setting(&parts.next().expect("a setting"));
            Question::Step(setting, frames(parts))
        }
        "tunnel" => {
            let mut parts = octets.split(" > ");
            let open = pairs(parts.next().expect("the open channels"));
            let calls: Vec<Call> = parts.map(call).collect();
            assert!(!calls.is_empty(), "no call: {octets}");
            Question::Tunnel(open, calls)
        }
        "float" => Question::Float(pairs(octets)),
        "hundredths" => Question::Hundredths(i64::from_be_bytes(exactly(&pairs(octets)))),
        "station" => {
            let mut parts = octets.split(" > ").map(pairs);
            let group = exactly(&parts.next().expect("a group"));
            Question::Station(u16::from_be_bytes(group), frames(parts))
        }
        _ => panic!("no such format: {format}"),
    }
}

fn frames(parts: impl Iterator<Item = Vec<u8>>) -> Vec<Vec<u8>> {
    let frames: Vec<Vec<u8>> = parts.collect();
    assert!(!frames.is_empty(), "no frame");
    frames
}

fn exactly<const SIZE: usize>(octets: &[u8]) -> [u8; SIZE] {
    octets
        .try_into()
        .unwrap_or_else(|_| panic!("not {SIZE} octets: {octets:02X?}"))
}

fn call(text: &str) -> Call {
    let (word, octets) = text.split_once(' ').expect("a word and octets");
    let octets = pairs(octets);
    match word {
        "receive" => Call::Receive(octets),
        "send" => Call::Send(octets[0], octets[1..].to_vec()),
        "confirm" => Call::Confirm(octets),
        _ => panic!("no such call: {word}"),
    }
}

fn setting(octets: &[u8]) -> Setting {
    let &[line, d0, d1, d2, d3, u0, u1, u2, u3, side, medium, ref groups @ ..] = octets else {
        panic!("too short a setting: {octets:02X?}");
    };
    assert!(side <= 1 && medium <= 1 && groups.len() % 2 == 0);
    Setting {
        line,
        codes: [[d0, d1, d2, d3], [u0, u1, u2, u3]],
        side,
        medium,
        table: table(groups),
    }
}

/// 8,192 octets with a bit for each group named, or none where no group is.
fn table(groups: &[u8]) -> Vec<u8> {
    let mut table = match groups {
        [] => vec![],
        _ => vec![0; TABLE_SIZE],
    };
    for group in groups.chunks_exact(2) {
        let group = u16::from_be_bytes([group[0], group[1]]);
        table[usize::from(group / 8)] |= 1 << (group % 8);
    }
    table
}

/// Pairs of hex digits in upper case, separated by single spaces.
fn pairs(text: &str) -> Vec<u8> {
    let octet = |pair: &str| u8::from_str_radix(pair, 16).expect("a pair of hex digits");
    let octets: Vec<u8> = text.split(' ').map(octet).collect();
    assert_eq!(spaced(&octets), text);
    octets
}

pub fn spaced(octets: &[u8]) -> String {
    let pairs: Vec<String> = octets.iter().map(|octet| format!("{octet:02X}")).collect();
    pairs.join(" ")
}

/// A file of the repository.
pub fn file(path: &str) -> String {
    let path = Path::new(env!("CARGO_MANIFEST_DIR"))
        .join("../..")
        .join(path);
    fs::read_to_string(&path).unwrap_or_else(|error| panic!("{}: {error}", path.display()))
}

pub fn rows(source: &str) -> Vec<Row> {
    let text = file(&format!("tests/telegrams/{source}.txt"));
    assert!(text.ends_with('\n'));
    text.lines().map(|line| Row::parse(source, line)).collect()
}
