//! The sources' examples in tests/telegrams: what the reference and the bindings say of each row,
//! beside what the row says that documents 01 and 02 do.

#[path = "support/rows.rs"]
mod rows;

use klumdray::coupler::{Medium, Memory, Settings, Side};
use klumdray::{Meaning, Refusal};
use rows::{spaced, Call, Question, Row, Setting, SOURCES};
use std::collections::BTreeSet;

/// The lent room of a step.
const ROOM: usize = 272;

/// The room of an acknowledgement, and of the longest request that is sent.
const ACKNOWLEDGEMENT_ROOM: usize = 10;
const REQUEST_ROOM: usize = 19 + 255;

type Answer = fn(&Question) -> String;

fn words(meaning: &Meaning, payload: &[u8]) -> String {
    let word = |flag, yes, no| if flag { yes } else { no };
    format!(
        "{} {} priority {} source {:04X} {} {:04X} count {} payload {}",
        word(meaning.extended, "extended", "standard"),
        word(meaning.first_sending, "first", "repeated"),
        meaning.priority,
        meaning.source,
        word(meaning.group, "group", "individual"),
        meaning.destination,
        meaning.count,
        spaced(payload)
    )
}

/// All four parts of a step's outcome, whatever its number is.
fn stepped(number: u8, acknowledgement: Option<u8>, own: bool, forwarded: &[u8]) -> String {
    let refused = match number {
        0 => String::new(),
        _ => format!("refused {number} "),
    };
    let acknowledgement = match acknowledgement {
        None => "silent",
        Some(0xcc) => "acknowledged",
        Some(octet) => panic!("no word for {octet:02X}h"),
    };
    let own = if own { "own" } else { "not-own" };
    let forwarded = match forwarded {
        [] => "nothing".to_string(),
        _ => spaced(forwarded),
    };
    format!("{refused}{acknowledgement} {own} sends {forwarded}")
}

fn requested(channel: u8, counter: u8, message: &str) -> String {
    format!("channel {channel} counter {counter} {message}")
}

fn acknowledged(channel: u8, counter: u8, status: u8) -> String {
    format!("channel {channel} counter {counter} status {status:02X}")
}

/// A request received, with its message if that is delivered.
fn received(message: Option<String>, acknowledgement: &[u8]) -> String {
    let what = match message {
        Some(message) => format!("delivered {message}"),
        None => "again".to_string(),
    };
    format!("{what} sends {}", spaced(acknowledgement))
}

fn confirmed(raised: bool) -> String {
    let word = if raised { "raised" } else { "kept" };
    word.to_string()
}

fn refused(number: u8) -> String {
    format!("refused {number}")
}

fn value(hundredths: i32) -> String {
    format!("hundredths {hundredths}")
}

fn coded(code: u16) -> String {
    format!("code {code:04X}")
}

/// What a frame is to a station: a word, or its refusal; and the total then.
fn taken(what: Result<String, u8>, total: i64) -> String {
    format!("{} total {total}", what.unwrap_or_else(refused))
}

fn counted(code: u16) -> String {
    format!("counted {code:04X}")
}

/// What comes of each call, one after the other.
fn each(calls: &[Call], mut answer: impl FnMut(&Call) -> Result<String, u8>) -> String {
    let texts: Vec<String> = calls
        .iter()
        .map(|call| answer(call).unwrap_or_else(refused))
        .collect();
    texts.join(" > ")
}

mod by_reference {
    use super::*;
    use reference::cemi::Code;
    use reference::coupler::{self, Acknowledgement, Coupler};
    use reference::station::{Station, Taken};
    use reference::tunnelling::{self, Table};
    use reference::{cemi, leak, routing, tp1, Format, Given};

    fn meaning(meaning: &reference::Meaning) -> Meaning {
        Meaning {
            extended: meaning.format == Format::Extended,
            first_sending: meaning.first_sending,
            priority: meaning.priority,
            source: meaning.source,
            group: meaning.group,
            destination: meaning.destination,
            count: meaning.count,
        }
    }

    fn message(frame: cemi::Frame<'_>) -> String {
        let kind = match frame.code {
            Code::Request => "request".to_string(),
            Code::Confirmation => format!("confirmation error {}", u8::from(frame.error_mark)),
            Code::Indication => "indication".to_string(),
        };
        format!("{kind} {}", words(&meaning(&frame.meaning), frame.payload))
    }

    fn step(setting: &Setting, frames: &[Vec<u8>]) -> String {
        let coupler = Coupler {
            line: setting.line,
            codes: setting.codes,
            table: &setting.table,
        };
        let (side, medium) = (setting.side, setting.medium);
        let (mut memory, mut room) = (coupler::Memory::default(), [0; ROOM]);
        let (last, before) = frames.split_last().expect("a frame");
        for octets in before {
            coupler::step(&coupler, side, medium, &mut memory, octets, &mut room);
        }
        let outcome = coupler::step(&coupler, side, medium, &mut memory, last, &mut room);
        let acknowledgement = outcome.acknowledgement.map(Acknowledgement::octet);
        let forwarded = &room[..outcome.forwarded];
        stepped(outcome.number, acknowledgement, outcome.own, forwarded)
    }

    fn code(code: Code) -> u8 {
        match code {
            Code::Request => 0x11,
            Code::Confirmation => 0x2e,
            Code::Indication => 0x29,
        }
    }

    fn send(table: &Table, channel: u8, octets: &[u8]) -> Result<String, u8> {
        let frame = cemi::read(octets)?;
        let meaning = frame.meaning;
        let given = Given {
            extended: u8::from(meaning.format == Format::Extended),
            first_sending: u8::from(meaning.first_sending),
            priority: meaning.priority,
            source: meaning.source,
            group: u8::from(meaning.group),
            destination: meaning.destination,
            count: meaning.count,
        };
        let mark = u8::from(frame.error_mark);
        let mut room = [0; REQUEST_ROOM];
        let code = code(frame.code);
        let size = table.send(channel, code, mark, &given, frame.payload, &mut room)?;
        Ok(format!("sends {}", spaced(&room[..size])))
    }

    fn called(table: &mut Table, call: &Call) -> Result<String, u8> {
        match call {
            Call::Receive(octets) => {
                let mut room = [0; ACKNOWLEDGEMENT_ROOM];
                let delivered = table.receive(octets, &mut room)?;
                Ok(received(delivered.map(message), &room))
            }
            Call::Send(channel, octets) => send(table, *channel, octets),
            Call::Confirm(octets) => table.confirm(octets).map(confirmed),
        }
    }

    pub fn tunnel(open: &[u8], calls: &[Call]) -> String {
        let mut table = Table::with_open(open);
        each(calls, |call| called(&mut table, call))
    }

    fn word(taken: Taken) -> String {
        match taken {
            Taken::Counted(code) => counted(code),
            Taken::Repetition => "repetition".to_string(),
            Taken::AnotherGroup => "other group".to_string(),
            Taken::NoIncrement => "no increment".to_string(),
        }
    }

    pub fn heard(station: &mut Station, octets: &[u8]) -> String {
        let what = station.take(octets).map(word);
        taken(what, station.total)
    }

    fn station(group: u16, frames: &[Vec<u8>]) -> String {
        let (mut station, mut text) = (Station::new(group, 0), String::new());
        for octets in frames {
            text = heard(&mut station, octets);
        }
        text
    }

    pub fn answer(question: &Question) -> String {
        let answer = match question {
            Question::Tp1(octets) => {
                tp1::read(octets).map(|frame| words(&meaning(&frame.meaning), frame.payload))
            }
            Question::Cemi(octets) => cemi::read(octets).map(message),
            Question::Routing(octets) => routing::read(octets).map(message),
            Question::Request(octets) => tunnelling::read_request(octets).map(|request| {
                requested(request.channel, request.counter, &message(request.frame))
            }),
            Question::Acknowledgement(octets) => tunnelling::read_acknowledgement(octets)
                .map(|answer| acknowledged(answer.channel, answer.counter, answer.status)),
            Question::Step(setting, frames) => Ok(step(setting, frames)),
            Question::Tunnel(open, calls) => Ok(tunnel(open, calls)),
            Question::Float(octets) => leak::read(octets).map(value),
            Question::Hundredths(hundredths) => leak::write(*hundredths).map(coded),
            Question::Station(group, frames) => Ok(station(*group, frames)),
        };
        answer.unwrap_or_else(refused)
    }
}

mod by_bindings {
    use super::*;
    use klumdray::cemi::Code;
    use klumdray::coupler::Acknowledgement;
    use klumdray::station::{Station, Taken};
    use klumdray::tunnelling::{self, Channels};
    use klumdray::{cemi, coupler, leak, routing, tp1};

    fn message(frame: cemi::Frame<'_>) -> String {
        let kind = match frame.code {
            Code::Request => "request".to_string(),
            Code::Confirmation => format!("confirmation error {}", u8::from(frame.error_mark)),
            Code::Indication => "indication".to_string(),
        };
        format!("{kind} {}", words(&frame.meaning, frame.payload()))
    }

    fn step(setting: &Setting, frames: &[Vec<u8>]) -> String {
        let settings = Settings {
            line: setting.line,
            codes: setting.codes,
            medium: [Medium::Tp1, Medium::Ip][usize::from(setting.medium)],
            table: &setting.table,
        };
        let side = [Side::Main, Side::Sub][usize::from(setting.side)];
        let (mut memory, mut room) = (Memory::new(), [0; ROOM]);
        let (last, before) = frames.split_last().expect("a frame");
        for octets in before {
            let _ = coupler::step(&settings, side, &mut memory, octets, &mut room);
        }
        let outcome = coupler::step(&settings, side, &mut memory, last, &mut room);
        let number = outcome.refusal.map_or(0, Refusal::number);
        let acknowledgement = outcome.acknowledgement.map(Acknowledgement::octet);
        stepped(number, acknowledgement, outcome.own, outcome.forwarded)
    }

    fn send(channels: &Channels, channel: u8, octets: &[u8]) -> Result<String, Refusal> {
        let frame = cemi::read(octets)?;
        let mut room = [0; REQUEST_ROOM];
        let size = channels.send(
            channel,
            frame.code,
            frame.error_mark,
            &frame.meaning,
            frame.payload(),
            &mut room,
        )?;
        Ok(format!("sends {}", spaced(&room[..size])))
    }

    fn called(channels: &mut Channels, call: &Call) -> Result<String, Refusal> {
        match call {
            Call::Receive(octets) => {
                let mut room = [0; ACKNOWLEDGEMENT_ROOM];
                let taken = channels.receive(octets, &mut room)?;
                let delivered = taken.delivered.map(|request| message(request.frame));
                Ok(received(delivered, taken.acknowledgement))
            }
            Call::Send(channel, octets) => send(channels, *channel, octets),
            Call::Confirm(octets) => channels.confirm(octets).map(confirmed),
        }
    }

    fn tunnel(open: &[u8], calls: &[Call]) -> String {
        let mut channels = Channels::closed();
        for number in open {
            assert!(channels.open(*number), "no channel {number}");
        }
        each(calls, |call| {
            called(&mut channels, call).map_err(Refusal::number)
        })
    }

    fn word(taken: Taken) -> String {
        match taken {
            Taken::Counted(code) => counted(code),
            Taken::Repetition => "repetition".to_string(),
            Taken::AnotherGroup => "other group".to_string(),
            Taken::NoIncrement => "no increment".to_string(),
        }
    }

    fn station(group: u16, frames: &[Vec<u8>]) -> String {
        let (mut station, mut text) = (Station::new(group, 0), String::new());
        for octets in frames {
            let what = station.take(octets).map(word).map_err(Refusal::number);
            text = taken(what, station.total());
        }
        text
    }

    pub fn answer(question: &Question) -> String {
        let answer = match question {
            Question::Tp1(octets) => {
                tp1::read(octets).map(|frame| words(&frame.meaning, frame.payload()))
            }
            Question::Cemi(octets) => cemi::read(octets).map(message),
            Question::Routing(octets) => routing::read(octets).map(message),
            Question::Request(octets) => tunnelling::read_request(octets).map(|request| {
                requested(request.channel, request.counter, &message(request.frame))
            }),
            Question::Acknowledgement(octets) => tunnelling::read_acknowledgement(octets)
                .map(|answer| acknowledged(answer.channel, answer.counter, answer.status)),
            Question::Step(setting, frames) => Ok(step(setting, frames)),
            Question::Tunnel(open, calls) => Ok(tunnel(open, calls)),
            Question::Float(octets) => leak::read(octets).map(value),
            Question::Hundredths(hundredths) => leak::write(*hundredths).map(coded),
            Question::Station(group, frames) => Ok(station(*group, frames)),
        };
        answer.unwrap_or_else(|refusal: Refusal| refused(refusal.number()))
    }
}

fn all_rows() -> impl Iterator<Item = Row> {
    SOURCES.into_iter().flat_map(rows::rows)
}

/// The first row that is answered otherwise than it says.
fn first_difference(answer: Answer) -> Option<String> {
    all_rows().find_map(|row| {
        let given = answer(&row.question);
        (given != row.text).then(|| format!("{}: {given}, not {}", row.name, row.text))
    })
}

#[test]
fn names_are_unique() {
    let mut names = BTreeSet::new();
    for row in all_rows() {
        assert!(names.insert(row.name.clone()), "{} twice", row.name);
    }
}

#[test]
fn reference_says_what_the_rows_say() {
    assert_eq!(first_difference(by_reference::answer), None);
}

#[test]
fn bindings_say_what_the_rows_say() {
    assert_eq!(first_difference(by_bindings::answer), None);
}

/// The numbers of one source, as a row of the table in docs/TELEGRAMS.md.
fn numbers(source: &str) -> String {
    let rows = rows::rows(source);
    let count = |test: &dyn Fn(&Row) -> bool| rows.iter().filter(|row| test(row)).count();
    let refused: Vec<String> = (1..=usize::from(u8::MAX))
        .map(|number| (number, count(&|row| row.number() == number)))
        .filter(|&(_, count)| count > 0)
        .map(|(number, count)| format!("{count} by {number}"))
        .collect();
    let refused = match &refused[..] {
        [] => "none".to_string(),
        _ => refused.join(", "),
    };
    format!(
        "| {source} | {} | {} | {} | {} | {} | {} | {} | {} | {} | {} | {} | {} | {refused} | {} | {} |",
        rows.len(),
        count(&|row| matches!(row.question, Question::Tp1(_))),
        count(&|row| matches!(row.question, Question::Cemi(_))),
        count(&|row| matches!(row.question, Question::Routing(_))),
        count(&|row| matches!(row.question, Question::Request(_))),
        count(&|row| matches!(row.question, Question::Acknowledgement(_))),
        count(&|row| matches!(row.question, Question::Step(..))),
        count(&|row| matches!(row.question, Question::Tunnel(..))),
        count(&|row| matches!(row.question, Question::Float(_))),
        count(&|row| matches!(row.question, Question::Hundredths(_))),
        count(&|row| matches!(row.question, Question::Station(..))),
        count(&|row| row.number() == 0),
        count(&Row::is_misprint),
        count(&Row::is_other_format),
    )
}

#[test]
fn document_has_the_numbers() {
    let document = rows::file("docs/TELEGRAMS.md");
    let lines = SOURCES.map(numbers);
    println!("{}", lines.join("\n"));
    for line in lines {
        assert!(document.lines().any(|other| other == line), "{line}");
    }
}

/// A refusal is never unexplained: the layouts are broken by misprints, by other formats, and by
/// messages that a source cuts on purpose; a counter is wrong on purpose.
#[test]
fn refused_rows_say_why() {
    for row in all_rows().filter(|row| row.number() != 0) {
        let cut = row.remark.starts_with("the first USB report alone");
        let why = row.is_misprint() || row.is_other_format() || row.is_on_purpose() || cut;
        assert!(why, "{}: {}", row.name, row.remark);
    }
}

/// The idle programs that document 01 names, as far as they answer rows, and such programs for the
/// requests of document 02.
mod idle {
    use super::*;
    use reference::station::Station;
    use std::slice;

    fn refuses_all(question: &Question) -> String {
        match question {
            Question::Step(..) => stepped(1, None, false, &[]),
            Question::Tunnel(_, calls) => each(calls, |_| Err(1)),
            Question::Station(..) => taken(Err(1), 0),
            _ => refused(1),
        }
    }

    fn one_fixed_frame(question: &Question) -> String {
        let p1 = [0x00, 0x80, 0x56, 0x78, 0x9a];
        let meaning = Meaning {
            extended: false,
            first_sending: true,
            priority: 3,
            source: 0,
            group: true,
            destination: 0x1234,
            count: 3,
        };
        match question {
            Question::Tp1(_)
            | Question::Cemi(_)
            | Question::Routing(_)
            | Question::Request(_)
            | Question::Acknowledgement(_) => words(&meaning, &p1),
            _ => by_reference::answer(question),
        }
    }

    fn forwards(question: &Question, what: fn(&[u8]) -> String) -> String {
        let answer = by_reference::answer(question);
        match (question, answer.split_once(" sends ")) {
            (Question::Step(_, frames), Some((before, octets))) if octets != "nothing" => {
                format!("{before} sends {}", what(frames.last().expect("a frame")))
            }
            _ => answer,
        }
    }

    fn forwards_nothing(question: &Question) -> String {
        forwards(question, |_| "nothing".to_string())
    }

    fn copies_octets(question: &Question) -> String {
        forwards(question, spaced)
    }

    /// Every call meets a fresh table.
    fn raises_nothing(question: &Question) -> String {
        match question {
            Question::Tunnel(open, calls) => {
                let alone = |call| by_reference::tunnel(open, slice::from_ref(call));
                calls.iter().map(alone).collect::<Vec<_>>().join(" > ")
            }
            _ => by_reference::answer(question),
        }
    }

    /// Every float is read with an exponent of 0.
    fn reads_no_exponent(question: &Question) -> String {
        match question {
            Question::Float(octets) if octets.len() == 2 => {
                by_reference::answer(&Question::Float(vec![octets[0] & 0x87, octets[1]]))
            }
            _ => by_reference::answer(question),
        }
    }

    fn writes_zero(question: &Question) -> String {
        match question {
            Question::Hundredths(_) => coded(0),
            _ => by_reference::answer(question),
        }
    }

    fn adds_nothing(question: &Question) -> String {
        let answer = by_reference::answer(question);
        match (question, answer.split_once(" total ")) {
            (Question::Station(..), Some((what, _))) => format!("{what} total 0"),
            _ => answer,
        }
    }

    /// Every frame meets a station that remembers none.
    fn remembers_nothing(question: &Question) -> String {
        let Question::Station(group, frames) = question else {
            return by_reference::answer(question);
        };
        let (mut total, mut text) = (0, String::new());
        for octets in frames {
            let mut fresh = Station::new(*group, total);
            text = by_reference::heard(&mut fresh, octets);
            total = fresh.total;
        }
        text
    }

    const PROGRAMS: [(&str, Answer); 9] = [
        ("refuses all", refuses_all),
        ("one fixed frame", one_fixed_frame),
        ("forwards nothing", forwards_nothing),
        ("copies octets unchanged", copies_octets),
        ("raises nothing", raises_nothing),
        ("reads no exponent", reads_no_exponent),
        ("writes zero", writes_zero),
        ("adds nothing", adds_nothing),
        ("remembers nothing", remembers_nothing),
    ];

    #[test]
    fn idle_programs_are_noticed() {
        for (name, answer) in PROGRAMS {
            let Some(difference) = first_difference(answer) else {
                panic!("not noticed: {name}");
            };
            println!("{name}: {difference:.160}");
        }
    }
}
