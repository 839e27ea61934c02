//! The answer for scripts.

use crate::address::Line;
use crate::json::Json;
use crate::loading::Site;
use crate::tracing::{Destination, Stop, Telegram, Traced};
use klumdray::tracer::{Listed, Reason};

/// A telegram that was traced.
pub fn traced(site: &Site, telegram: &Telegram, traced: &Traced) -> Json {
    let lines = traced.reached.iter().map(|listed| line(site, listed));
    let stops = traced.not_reached.iter();
    let stops = stops.map(|stop| not_reached(site, telegram.to, stop));
    Json::Object(vec![
        ("file", site.file.as_str().into()),
        ("title", text(site.text.title.as_deref())),
        ("query", query(telegram)),
        ("lines", Json::List(lines.collect())),
        ("forwardings", traced.forwardings.into()),
        ("not_reached", Json::List(stops.collect())),
    ])
}

fn query(telegram: &Telegram) -> Json {
    let (kind, destination) = match telegram.to {
        Destination::Group(group) => ("group", group.to_string()),
        Destination::Individual(address) => ("individual", address.to_string()),
    };
    Json::Object(vec![
        ("from", telegram.from.to_string().into()),
        ("kind", kind.into()),
        ("destination", destination.into()),
        ("destination_number", telegram.query().destination.into()),
        ("count", telegram.count.into()),
    ])
}

fn line(site: &Site, listed: &Listed) -> Json {
    let line = Line(listed.line);
    Json::Object(vec![
        ("line", line.to_string().into()),
        ("label", text(site.label(line))),
        ("count", listed.count.into()),
        ("crossed", listed.crossed.into()),
    ])
}

fn not_reached(site: &Site, to: Destination, stop: &Stop) -> Json {
    Json::Object(vec![
        ("line", stop.line.to_string().into()),
        ("label", text(site.label(stop.line))),
        ("coupler", stop.coupler.to_string().into()),
        ("direction", stop.direction.to_string().into()),
        ("reason", reason(stop.reason).into()),
        ("words", stop.words(to).into()),
    ])
}

fn reason(reason: Reason) -> &'static str {
    match reason {
        Reason::NotFitted => "not_fitted",
        Reason::OwnAddress => "own_address",
        Reason::Closed => "closed",
        Reason::NotBelow => "not_below",
        Reason::NotAbove => "not_above",
        Reason::NotInTable => "not_in_table",
        Reason::CountUsedUp => "count_used_up",
    }
}

fn text(text: Option<&str>) -> Json {
    text.map_or(Json::Null, Json::from)
}
