//! What the readers say of octets, for people.

use super::place::{marked, place, Expected, Place};
use super::{Content, Frame, Kind, Message, Told, Tunnel};
use crate::address::{Group, Individual};
use crate::arguments::listed;
use crate::hex::spaced;
use crate::words::counted;
use klumdray::cemi::Code;
use klumdray::tunnelling::Acknowledgement;
use klumdray::{Meaning, Refusal};
use std::ops::Range;

/// Octets in a row.
const ROW: usize = 16;

type Fields = Vec<(&'static str, String)>;

/// What the readers say of octets, for people; `line` is the line of the file that they stand in.
pub fn paragraph(octets: &[u8], told: &Told<'_>, line: Option<usize>) -> String {
    let heading = line.map_or(String::new(), |line| format!("line {line}: "));
    heading
        + &match told {
            Told::Accepted(Content::Frame(frame)) => accepted(octets, frame),
            Told::Accepted(Content::Acknowledgement(answer)) => acknowledged(octets, answer),
            Told::Refused(kind, refusal) => refused(octets, *kind, *refusal),
            Told::Untold { likely, refusals } => untold(octets, likely, refusals),
        }
}

fn accepted(octets: &[u8], frame: &Frame<'_>) -> String {
    let mut fields = beginning(octets, frame.kind, frame.tunnel);
    fields.extend(frame.message.iter().flat_map(before));
    fields.extend(meant(frame));
    fields.push(("LG", frame.payload.len().saturating_sub(1).to_string()));
    fields.push(("payload", wrapped(frame.payload)));
    if let (Kind::Tp1, [.., check]) = (frame.kind, octets) {
        fields.push(("check octet", format!("{check:02X}h")));
    }
    under_heading(octets, frame.kind, &fields)
}

fn acknowledged(octets: &[u8], answer: &Acknowledgement) -> String {
    let kind = Kind::Acknowledgement;
    let tunnel = Tunnel {
        channel: answer.channel,
        counter: answer.counter,
    };
    let mut fields = beginning(octets, kind, Some(tunnel));
    let words = status(answer.status).map_or(String::new(), |words| format!(", {words}"));
    fields.push(("status", format!("{:02X}h{words}", answer.status)));
    under_heading(octets, kind, &fields)
}

/// The names that 001 gives to statuses, and document 02 to 29h.
pub(super) fn status(status: u8) -> Option<&'static str> {
    Some(match status {
        0x00 => "no error",
        0x21 => "connection id",
        0x22 => "connection type",
        0x23 => "connection option",
        0x24 => "no more connections",
        0x25 => "no more unique connections",
        0x27 => "KNX connection",
        0x29 => "tunnelling layer",
        _ => return None,
    })
}

fn under_heading(octets: &[u8], kind: Kind, fields: &Fields) -> String {
    let name = match kind {
        Kind::Tp1 => "TP1 frame",
        Kind::Cemi => "cEMI message",
        Kind::Routing => "routing datagram",
        Kind::Request | Kind::Acknowledgement => kind.name(),
    };
    let count = counted(octets.len(), "octet");
    format!("{name}, {count}\n{}", table(fields))
}

/// The octets, and what a datagram has before the message.
fn beginning(octets: &[u8], kind: Kind, tunnel: Option<Tunnel>) -> Fields {
    let service = match kind {
        Kind::Tp1 | Kind::Cemi => None,
        Kind::Routing => Some("0530h, ROUTING_INDICATION"),
        Kind::Request => Some("0420h, TUNNELLING_REQUEST"),
        Kind::Acknowledgement => Some("0421h, TUNNELLING_ACK"),
    };
    let mut fields: Fields = vec![("octets", wrapped(octets))];
    if let Some(service) = service {
        fields.push(("service", service.into()));
        fields.push(("total length", octets.len().to_string()));
    }
    if let Some(tunnel) = tunnel {
        fields.push(("channel", tunnel.channel.to_string()));
        fields.push(("counter", tunnel.counter.to_string()));
    }
    fields
}

fn before(message: &Message<'_>) -> Fields {
    let (name, mark) = match message.code {
        Code::Request => ("request", "0, read in a confirmation only"),
        Code::Indication => ("indication", "0, read in a confirmation only"),
        Code::Confirmation if message.error_mark => ("confirmation", "1, error"),
        Code::Confirmation => ("confirmation", "0, no error"),
    };
    let code = format!("{:02X}h, L_Data {name}", message.code.octet());
    let information = match message.information {
        [] => "none, a is 0".into(),
        octets => wrapped(octets),
    };
    vec![
        ("message code", code),
        ("error mark", mark.into()),
        ("information", information),
    ]
}

fn meant(frame: &Frame<'_>) -> Fields {
    let meaning = &frame.meaning;
    let format = match meaning.extended {
        true => "extended",
        false => "standard",
    };
    let at = match meaning.group {
        true => "1, group address",
        false => "0, individual address",
    };
    vec![
        ("format", format.into()),
        ("repeat flag", repeat_flag(frame).into()),
        ("priority", priority(meaning.priority).into()),
        (
            "source",
            address(Individual(meaning.source), meaning.source),
        ),
        ("AT", at.into()),
        ("destination", destination(meaning)),
        ("hop count", meaning.count.to_string()),
    ]
}

/// "in a request, bit 5 at 1 asks for repetitions"
fn repeat_flag(frame: &Frame<'_>) -> &'static str {
    let request = frame.message.map(|message| message.code) == Some(Code::Request);
    match (request, frame.meaning.first_sending) {
        (false, true) => "1, first sending",
        (false, false) => "0, repeated",
        (true, true) => "1, asks for repetitions",
        (true, false) => "0, asks for no repetitions",
    }
}

/// The names are those of document 002, figure 42.
fn priority(bits: u8) -> &'static str {
    match bits {
        0b00 => "00, system",
        0b10 => "10, urgent",
        0b01 => "01, normal",
        _ => "11, low",
    }
}

/// "AT 1 means a group address; group 0000h is broadcast."
fn destination(meaning: &Meaning) -> String {
    let number = meaning.destination;
    match (meaning.group, number) {
        (true, 0) => address("0/0/0, broadcast", number),
        (true, _) => address(Group(number), number),
        (false, _) => address(Individual(number), number),
    }
}

fn address(name: impl std::fmt::Display, number: u16) -> String {
    format!("{name}, {number:04X}h")
}

fn refused(octets: &[u8], kind: Kind, refusal: Refusal) -> String {
    let place = place(kind, octets, refusal);
    let marked = place.as_ref().map_or(0..0, |place| place.octets.clone());
    let mut text = format!("read as {}, {refusal}\n", kind.name());
    text += &shown(octets, &marked);
    if let Some(place) = place {
        text += &format!("  {}\n", sentence(octets, &place));
    }
    text
}

/// What is said where no kind, or more than one, may be meant.
pub(super) fn doubt(likely: &[Kind]) -> String {
    let names: Vec<&str> = likely.iter().map(|kind| kind.name()).collect();
    match names[..] {
        [] => "neither TP1 nor cEMI nor routing nor tunnelling".into(),
        _ => format!("{}, not told apart", listed(&names)),
    }
}

fn untold(octets: &[u8], likely: &[Kind], refusals: &[(Kind, Refusal)]) -> String {
    let mut text = format!("{}\n", doubt(likely));
    text += &last_row(octets, 0);
    for (kind, refusal) in refusals {
        text += &format!("  read as {}, {refusal}\n", kind.name());
        if let Some(place) = place(*kind, octets, *refusal) {
            text += &format!("    {}\n", sentence(octets, &place));
        }
    }
    text
}

/// Where a refusal comes from and what was expected there.
fn sentence(octets: &[u8], place: &Place) -> String {
    let found = octets.get(place.octets.clone()).unwrap_or(&[]);
    let found = match (&place.expected, found) {
        (Expected::Size(_) | Expected::AtLeast(_), _) => {
            let there = counted(octets.len(), "octet");
            return format!("{there}, expected {}", place.expected);
        }
        (Expected::End, left) => format!("{} left", counted(left.len(), "octet")),
        (Expected::Control, [control]) => format!("{control:02X}h{}", other_kind(*control)),
        (_, octets) => marked(octets).join(" "),
    };
    let at = match place.octets.len() {
        0 | 1 => format!("octet {}", place.octets.start),
        _ => format!("octets {} to {}", place.octets.start, place.octets.end - 1),
    };
    format!("{at}: {found}, expected {}", place.expected)
}

/// "Anything else isn't a data frame (poll F0h; acknowledgements CCh, 0Ch, C0h)."
fn other_kind(control: u8) -> String {
    let name = match control {
        0xf0 => ", poll",
        0xcc | 0x0c | 0xc0 => ", acknowledgement",
        _ => "",
    };
    format!(" ({control:08b}{name})")
}

/// The first row of octets and the row where the marked ones begin, with marks under these.
fn shown(octets: &[u8], marked: &Range<usize>) -> String {
    let number = marked.start / ROW;
    let before = match number {
        0 => String::new(),
        1 => row(octets, 0) + "\n",
        _ => row(octets, 0) + "\n      ..\n",
    };
    let end = marked.end.clamp(marked.start + 1, (number + 1) * ROW);
    let marks = vec!["^^"; end - marked.start].join(" ");
    let indent = 6 + 3 * (marked.start % ROW);
    format!(
        "{before}{}{:indent$}{marks}\n",
        last_row(octets, number),
        ""
    )
}

/// A row behind which no other is shown.
fn last_row(octets: &[u8], number: usize) -> String {
    let more = octets.len() > (number + 1) * ROW;
    row(octets, number) + if more { " ..\n" } else { "\n" }
}

fn row(octets: &[u8], number: usize) -> String {
    let start = number * ROW;
    let row = octets.chunks(ROW).nth(number).unwrap_or(&[]);
    format!("{start:4}  {}", spaced(row)).trim_end().into()
}

fn wrapped(octets: &[u8]) -> String {
    let rows: Vec<String> = octets.chunks(ROW).map(spaced).collect();
    rows.join("\n")
}

/// Names and values in two columns; a value's further lines stand below its first.
fn table(fields: &[(&str, String)]) -> String {
    let mut text = String::new();
    for (name, value) in fields {
        let mut name = *name;
        for line in value.lines() {
            text += &format!("  {name:14}{line}\n");
            name = "";
        }
    }
    text
}
