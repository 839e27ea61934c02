//! References of the station with one rule turned round.

use crate::stations::{by_station, reference_take, Lent, Taker};
use reference::station::{Station, Taken};
use reference::tp1::{self, Frame};
use reference::{leak, Format};

/// Bit 5 of the control octet: 0 repeated.
const REPEAT_BIT: u8 = 0x20;

/// An accepted frame.
struct Heard<'a> {
    frame: Frame<'a>,
    octets: &'a [u8],
}

/// The rules of a station, of which one may be wrong.
#[derive(Clone, Copy)]
struct Rules {
    is_of_group: fn(&Station, &Heard<'_>) -> bool,
    is_repetition: fn(&Station, &Heard<'_>) -> bool,
    increment: fn(&Heard<'_>) -> Option<u16>,
    add: fn(i64, u16) -> Result<i64, u8>,
    /// Whether a frame becomes the remembered one.
    is_remembered: fn(Result<Taken, u8>) -> bool,
}

const RIGHT: Rules = Rules {
    is_of_group: |station, heard| {
        let meaning = &heard.frame.meaning;
        meaning.group && meaning.destination == station.group
    },
    is_repetition: |station, heard| is_marked(heard) && is_alike(station, heard),
    increment: |heard| leak::increment(heard.frame.payload),
    add: leak::add,
    is_remembered: |answer| answer.is_ok(),
};

fn is_marked(heard: &Heard<'_>) -> bool {
    heard.octets[0] & REPEAT_BIT == 0
}

/// Equal to the remembered frame "in all octets but the repeat bit and the check octet".
fn is_alike(station: &Station, heard: &Heard<'_>) -> bool {
    let Some(remembered) = station.remembered.frame() else {
        return false;
    };
    let last = heard.octets.len() - 1;
    remembered.len() == heard.octets.len()
        && (remembered[0] ^ heard.octets[0]) & !REPEAT_BIT == 0
        && remembered[1..last] == heard.octets[1..last]
}

/// R-2's mistake: "only addresses are compared".
fn has_its_addresses(station: &Station, heard: &Heard<'_>) -> bool {
    let remembered = station.remembered.frame().map(tp1::read);
    let meaning = &heard.frame.meaning;
    matches!(remembered, Some(Ok(before)) if before.meaning.source == meaning.source
        && before.meaning.destination == meaning.destination
        && before.meaning.group == meaning.group)
}

fn remember(station: &mut Station, octets: &[u8]) {
    station.remembered.octets[..octets.len()].copy_from_slice(octets);
    station.remembered.size = octets.len();
}

impl Rules {
    fn taken(&self, station: &Station, heard: &Heard<'_>) -> Taken {
        if !(self.is_of_group)(station, heard) {
            return Taken::AnotherGroup;
        }
        if (self.is_repetition)(station, heard) {
            return Taken::Repetition;
        }
        (self.increment)(heard).map_or(Taken::NoIncrement, Taken::Counted)
    }

    fn take(&self, station: &mut Station, octets: &[u8]) -> Result<Taken, u8> {
        let frame = tp1::read(octets)?;
        let taken = self.taken(station, &Heard { frame, octets });
        let answer = match taken {
            Taken::Counted(code) => (self.add)(station.total, code).map(|sum| {
                station.total = sum;
                taken
            }),
            _ => Ok(taken),
        };
        if (self.is_remembered)(answer) {
            remember(station, octets);
        }
        answer
    }

    fn taker(self) -> Box<Taker> {
        Box::new(move |lent| by_station(lent, |station, octets| self.take(station, octets)))
    }
}

/// The rules as they are.
pub fn right() -> Box<Taker> {
    RIGHT.taker()
}

pub fn all() -> Vec<(&'static str, Box<Taker>)> {
    let mut all = of_rules(&GROUPS);
    all.extend(of_rules(&REPETITIONS));
    all.extend(of_rules(&INCREMENTS));
    all.extend(of_rules(&MEMORIES));
    all.push(("group cut", Box::new(group_cut)));
    all.push(("14 behind the reader's", Box::new(fourteen_last)));
    all
}

fn of_rules(rules: &[(&'static str, Rules)]) -> Vec<(&'static str, Box<Taker>)> {
    let takers = rules.iter().map(|&(name, rules)| (name, rules.taker()));
    takers.collect()
}

const GROUPS: [(&str, Rules); 4] = [
    (
        "AT not looked at",
        Rules {
            is_of_group: |station, heard| heard.frame.meaning.destination == station.group,
            ..RIGHT
        },
    ),
    (
        "frames of every group counted",
        Rules {
            is_of_group: |_, heard| heard.frame.meaning.group,
            ..RIGHT
        },
    ),
    (
        "extended frames left",
        Rules {
            is_of_group: |station, heard| {
                let is_standard = heard.frame.meaning.format == Format::Standard;
                is_standard && (RIGHT.is_of_group)(station, heard)
            },
            ..RIGHT
        },
    ),
    (
        "frames with count 0 left",
        Rules {
            is_of_group: |station, heard| {
                heard.frame.meaning.count > 0 && (RIGHT.is_of_group)(station, heard)
            },
            ..RIGHT
        },
    ),
];

const REPETITIONS: [(&str, Rules); 5] = [
    (
        "repetitions counted",
        Rules {
            is_repetition: |_, _| false,
            ..RIGHT
        },
    ),
    (
        "every frame marked repeated as repetition",
        Rules {
            is_repetition: |_, heard| is_marked(heard),
            ..RIGHT
        },
    ),
    (
        "addresses compared alone",
        Rules {
            is_repetition: |station, heard| is_marked(heard) && has_its_addresses(station, heard),
            ..RIGHT
        },
    ),
    (
        "first sending as repetition",
        Rules {
            is_repetition: is_alike,
            ..RIGHT
        },
    ),
    (
        "no increment before repetition",
        Rules {
            is_repetition: |station, heard| {
                (RIGHT.increment)(heard).is_some() && (RIGHT.is_repetition)(station, heard)
            },
            ..RIGHT
        },
    ),
];

/// The code behind the first two octets, whatever these are.
fn code(payload: &[u8]) -> Option<u16> {
    match *payload {
        [_, _, high, low, ..] => Some(u16::from_be_bytes([high, low])),
        _ => None,
    }
}

const INCREMENTS: [(&str, Rules); 6] = [
    (
        "81h taken",
        Rules {
            increment: |heard| match heard.frame.payload {
                payload @ [0x00, 0x80 | 0x81, _, _] => code(payload),
                _ => None,
            },
            ..RIGHT
        },
    ),
    (
        "longer payloads taken",
        Rules {
            increment: |heard| match heard.frame.payload {
                payload @ [0x00, 0x80, _, _, ..] => code(payload),
                _ => None,
            },
            ..RIGHT
        },
    ),
    (
        "TPCI not looked at",
        Rules {
            increment: |heard| match heard.frame.payload {
                payload @ [_, 0x80, _, _] => code(payload),
                _ => None,
            },
            ..RIGHT
        },
    ),
    (
        "7FFFh as no increment",
        Rules {
            increment: |heard| (RIGHT.increment)(heard).filter(|&code| code != 0x7fff),
            ..RIGHT
        },
    ),
    (
        "sum that wraps",
        Rules {
            add: |total, code| leak::value(code).map(|value| total.wrapping_add(value.into())),
            ..RIGHT
        },
    ),
    (
        "7FFFh summed",
        Rules {
            add: |total, code| match code {
                0x7fff => total.checked_add(2_047 << 15).ok_or(24),
                _ => leak::add(total, code),
            },
            ..RIGHT
        },
    ),
];

const MEMORIES: [(&str, Rules); 5] = [
    (
        "frames of other groups not remembered",
        Rules {
            is_remembered: |answer| answer.is_ok() && answer != Ok(Taken::AnotherGroup),
            ..RIGHT
        },
    ),
    (
        "frames without an increment not remembered",
        Rules {
            is_remembered: |answer| answer.is_ok() && answer != Ok(Taken::NoIncrement),
            ..RIGHT
        },
    ),
    (
        "repetitions not remembered",
        Rules {
            is_remembered: |answer| answer.is_ok() && answer != Ok(Taken::Repetition),
            ..RIGHT
        },
    ),
    (
        "frames refused by 23 remembered",
        Rules {
            is_remembered: |answer| answer.is_ok() || answer == Err(23),
            ..RIGHT
        },
    ),
    (
        "frames refused by 24 remembered",
        Rules {
            is_remembered: |answer| answer.is_ok() || answer == Err(24),
            ..RIGHT
        },
    ),
];

fn group_cut(lent: &mut Lent<'_>) -> u32 {
    reference_take(&mut Lent {
        total: lent.total,
        memory: lent.memory,
        group: lent.group & 0xffff,
        octets: lent.octets,
    })
}

fn fourteen_last(lent: &mut Lent<'_>) -> u32 {
    match (reference_take(lent), tp1::read(lent.octets)) {
        (14, Err(number)) => number.into(),
        (answer, _) => answer,
    }
}
