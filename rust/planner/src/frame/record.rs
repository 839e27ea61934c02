//! What the readers say of octets, for scripts.

use super::place::place;
use super::words::{doubt, status};
use super::{Content, Frame, Kind, Message, Told, Tunnel};
use crate::address::{Group, Individual};
use crate::hex::joined;
use crate::json::Json;
use klumdray::cemi::Code;
use klumdray::tunnelling::Acknowledgement;
use klumdray::Refusal;

type Members = Vec<(&'static str, Json)>;

/// What the readers say of octets, for scripts; `line` is the line of the file that they stand in.
pub fn record(octets: &[u8], told: &Told<'_>, line: Option<usize>) -> Json {
    let mut members: Members = Vec::new();
    members.extend(line.map(|line| ("line", line.into())));
    members.push(("octets", joined(octets).into()));
    members.extend(match told {
        Told::Accepted(Content::Frame(frame)) => accepted(frame),
        Told::Accepted(Content::Acknowledgement(answer)) => acknowledged(answer),
        Told::Refused(kind, refusal) => refused(octets, *kind, *refusal),
        Told::Untold { likely, refusals } => untold(likely, refusals),
    });
    Json::Object(members)
}

fn accepted(frame: &Frame<'_>) -> Members {
    let meaning = &frame.meaning;
    let destination = match meaning.group {
        true => Group(meaning.destination).to_string(),
        false => Individual(meaning.destination).to_string(),
    };
    let format = match meaning.extended {
        true => "extended",
        false => "standard",
    };
    let mut members = beginning(frame.kind, frame.tunnel);
    members.extend([
        ("format", format.into()),
        ("first_sending", meaning.first_sending.into()),
        ("priority", meaning.priority.into()),
        ("source", Individual(meaning.source).to_string().into()),
        ("source_number", meaning.source.into()),
        ("group", meaning.group.into()),
        ("destination", destination.into()),
        ("destination_number", meaning.destination.into()),
        ("count", meaning.count.into()),
        ("payload", joined(frame.payload).into()),
    ]);
    members.extend(frame.message.iter().flat_map(message));
    members
}

fn acknowledged(answer: &Acknowledgement) -> Members {
    let tunnel = Tunnel {
        channel: answer.channel,
        counter: answer.counter,
    };
    let words = status(answer.status).map_or(Json::Null, Json::from);
    let mut members = beginning(Kind::Acknowledgement, Some(tunnel));
    members.extend([("status", answer.status.into()), ("status_words", words)]);
    members
}

/// What every accepted kind begins with.
fn beginning(kind: Kind, tunnel: Option<Tunnel>) -> Members {
    let mut members = vec![("kind", kind.token().into()), ("refusal", 0u8.into())];
    members.extend(tunnel.iter().flat_map(|tunnel| {
        [
            ("channel", tunnel.channel.into()),
            ("counter", tunnel.counter.into()),
        ]
    }));
    members
}

fn message(message: &Message<'_>) -> Members {
    let code = match message.code {
        Code::Request => "request",
        Code::Confirmation => "confirmation",
        Code::Indication => "indication",
    };
    vec![
        ("message", code.into()),
        ("error_mark", message.error_mark.into()),
        ("information", joined(message.information).into()),
    ]
}

fn refused(octets: &[u8], kind: Kind, refusal: Refusal) -> Members {
    let place = place(kind, octets, refusal);
    let (place, expected) = place.map_or((Json::Null, Json::Null), |place| {
        let expected = place.expected.to_string();
        (place.octets.start.into(), expected.into())
    });
    vec![
        ("kind", kind.token().into()),
        ("refusal", refusal.number().into()),
        ("words", refusal.words().into()),
        ("place", place),
        ("expected", expected),
    ]
}

/// No number stands for all: each reader's is given.
fn untold(likely: &[Kind], refusals: &[(Kind, Refusal)]) -> Members {
    let numbers = refusals
        .iter()
        .map(|(kind, refusal)| (kind.token(), refusal.number().into()));
    vec![
        ("kind", Json::Null),
        ("refusal", Json::Null),
        ("words", doubt(likely).into()),
        ("place", Json::Null),
        ("expected", Json::Null),
        ("refusals", Json::Object(numbers.collect())),
    ]
}
