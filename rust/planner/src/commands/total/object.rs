//! The answer for scripts.

use super::listening::Stopped;
use super::{Answer, Outcome};
use crate::address::Group;
use crate::calendar::Offset;
use crate::json::Json;
use crate::litres::plain;
use crate::telegrams::{Account, Counts, Way};

type Members = Vec<(&'static str, Json)>;

/// The answer as one object.
pub fn told(answer: &Answer<'_>) -> Json {
    let question = &answer.asked.question;
    let items = match answer.heard.is_capture {
        true => "packets",
        false => "lines",
    };
    let mut members = vec![
        ("file", answer.asked.name().into()),
        ("group", Group(question.group).to_string().into()),
        ("group_number", question.group.into()),
        (items, answer.heard.items.into()),
        ("start", plain(question.start).into()),
        ("start_hundredths", question.start.into()),
    ];
    members.extend(total(answer.total()));
    members.extend(numbers(&answer.counts, question.place));
    members.extend(unread(answer));
    if question.by_month {
        let months = match answer.result {
            Outcome::Nothing => Json::List(Vec::new()),
            Outcome::Total(account) => months(account),
            Outcome::NoSum | Outcome::NoSuchWay(_) => Json::Null,
        };
        members.push(("months", months));
    }
    let ways = answer.numbered().into_iter();
    let ways = ways.map(|account| way(answer, account)).collect();
    members.push(("ways", Json::List(ways)));
    let chosen = question.chosen.iter().map(|way| (*way).into()).collect();
    members.push(("chosen", Json::List(chosen)));
    let stopped = answer.heard.stopped.as_ref();
    members.push(("broken", stopped.map_or(Json::Null, broken)));
    Json::Object(members)
}

fn total(hundredths: Option<i64>) -> Members {
    vec![
        (
            "total",
            hundredths.map_or(Json::Null, |own| plain(own).into()),
        ),
        (
            "total_hundredths",
            hundredths.map_or(Json::Null, Json::from),
        ),
    ]
}

fn numbers(counts: &Counts, place: Offset) -> Members {
    let times = counts.times.map(|(first, last)| [first, last]);
    let [first, last] = match times {
        Some(times) => times.map(|time| time.exact(place).into()),
        None => [Json::Null, Json::Null],
    };
    let refusals = counts.refused.iter().map(|(refusal, count)| {
        Json::Object(vec![
            ("number", refusal.number().into()),
            ("count", (*count).into()),
            ("words", refusal.words().into()),
        ])
    });
    vec![
        ("counted", counts.counted.into()),
        ("first", first),
        ("last", last),
        ("without_time", counts.without_time.into()),
        ("repetitions", counts.repetitions.into()),
        ("no_increment", counts.no_increment.into()),
        ("other_groups", counts.other_groups.into()),
        ("requests_and_confirmations", counts.not_indications.into()),
        ("sent_again", counts.sent_again.into()),
        ("gaps", counts.gaps.into()),
        ("captured_twice", counts.twins.into()),
        ("refused", counts.refusals().into()),
        ("refusals", Json::List(refusals.collect())),
    ]
}

/// What no way is known of.
fn unread(answer: &Answer<'_>) -> Members {
    let aside = &answer.ledger().aside;
    vec![
        ("no_kind", aside.untold.into()),
        ("other_services", aside.other_services.into()),
        ("lost_messages", aside.lost.into()),
        ("cut", aside.cut.into()),
        ("fragmented", aside.fragments.into()),
        ("other_links", aside.other_links.into()),
        ("other_packets", aside.other_packets.into()),
        ("on_all_interfaces", aside.blurred.into()),
    ]
}

/// A way that brought telegrams of the group, or several that are counted as one.
fn way(answer: &Answer<'_>, account: &Account) -> Json {
    let question = &answer.asked.question;
    let heard = account.ways.iter().map(|(number, way)| {
        let number = number.map_or(Json::Null, Json::from);
        Json::Object([vec![("number", number)], described(way)].concat())
    });
    let mut members = vec![("heard", Json::List(heard.collect()))];
    members.extend(total(Some(account.total())));
    members.extend(numbers(&account.counts, question.place));
    if question.by_month {
        members.push(("months", months(account)));
    }
    Json::Object(members)
}

fn described(way: &Way) -> Members {
    let mut members = match way {
        Way::Text => vec![("kind", "text".into())],
        Way::Routing { from, .. } => vec![
            ("kind", "routing".into()),
            ("from", from.to_string().into()),
        ],
        Way::Tunnelling {
            from, to, channel, ..
        } => vec![
            ("kind", "tunnelling".into()),
            ("from", from.to_string().into()),
            ("to", to.to_string().into()),
            ("channel", (*channel).into()),
        ],
    };
    if let Some(interface) = way.interface() {
        members.push(("section", u64::from(interface.section).into()));
        members.push(("interface", u64::from(interface.number).into()));
        let index = interface.index.map(u64::from);
        members.push(("system_interface", index.map_or(Json::Null, Json::from)));
    }
    members
}

fn months(account: &Account) -> Json {
    let months = account.months().map(|(month, sum)| {
        let month = month.map_or(Json::Null, |month| month.to_string().into());
        let mut members = vec![("month", month)];
        members.extend(total(Some(sum.hundredths())));
        members.push(("counted", sum.counted.into()));
        Json::Object(members)
    });
    Json::List(months.collect())
}

fn broken(stopped: &Stopped) -> Json {
    let (octet, packet) = match stopped.packet {
        Some((octet, packet)) => (octet.into(), packet.into()),
        None => (Json::Null, Json::Null),
    };
    Json::Object(vec![
        ("octet", octet),
        ("packet", packet),
        ("line", stopped.line.map_or(Json::Null, Json::from)),
        ("expected", stopped.expected.as_str().into()),
        ("found", stopped.found.as_str().into()),
    ])
}
