//! How often each answer and each outcome of tunnelling came of the reference.

use crate::tunnels::{place, Answer, Asked, CHANNEL, COUNTER_AT, HEAD, TABLE};
use std::fmt;

/// The seven calls, and the numbers that each of them gives.
const CALLS: [(&str, &[u8]); 7] = [
    (
        "receive",
        &[0, 1, 3, 4, 5, 7, 8, 9, 10, 11, 12, 13, 14, 19, 20, 21],
    ),
    ("send", &[0, 13, 14, 20]),
    ("confirm", &[0, 1, 5, 10, 11, 12, 14, 19, 20, 21]),
    ("request read", &[0, 1, 3, 4, 5, 7, 8, 9, 10, 11, 12, 19]),
    ("request write", &[0, 13, 14]),
    ("acknowledgement read", &[0, 1, 5, 10, 11, 12, 19]),
    ("acknowledgement write", &[0, 13, 14]),
];

fn place_of(asked: &Asked<'_>) -> usize {
    match asked {
        Asked::Receive(_) => 0,
        Asked::Send(..) => 1,
        Asked::Confirm(_) => 2,
        Asked::ReadRequest(_) => 3,
        Asked::WriteRequest(..) => 4,
        Asked::ReadAcknowledgement(_) => 5,
        Asked::WriteAcknowledgement(_) => 6,
    }
}

/// What becomes of an accepted call on a table.
const OUTCOMES: [&str; 5] = ["delivered", "acknowledged again", "raised", "left", "sent"];

/// The outcome as a place in `OUTCOMES`.
fn outcome(asked: &Asked<'_>, answer: &Answer<'_>) -> Option<usize> {
    match asked {
        Asked::Receive(_) => Some(usize::from(!answer.is_delivered())),
        Asked::Confirm(_) => Some(2 + usize::from(answer.packed == 0)),
        Asked::Send(..) => Some(4),
        _ => None,
    }
}

/// The counters are those of datagrams, for a request sent that of the table.
fn counter(asked: &Asked<'_>, place: usize, table: &[u8; TABLE]) -> u8 {
    asked
        .arriving()
        .map_or(table[place + 2], |octets| octets[COUNTER_AT])
}

fn channel(asked: &Asked<'_>) -> u8 {
    match asked {
        Asked::Send(channel, _) => *channel as u8,
        _ => asked.arriving().map_or(0, |octets| octets[COUNTER_AT - 1]),
    }
}

/// The room lent to a receiver, as a place in this row.
const ROOMS: [usize; 4] = [0, HEAD - 1, HEAD, HEAD + 1];

pub struct Counts {
    numbers: [[u64; 256]; CALLS.len()],
    /// By channel, outcome and counter.
    outcomes: [[[u64; 256]; OUTCOMES.len()]; TABLE / CHANNEL],
    /// By message code of what is delivered, without and with additional information.
    codes: [[u64; 2]; 4],
    /// By room lent to a receiver.
    rooms: [u64; ROOMS.len()],
}

impl Default for Counts {
    fn default() -> Counts {
        Counts {
            numbers: [[0; 256]; CALLS.len()],
            outcomes: [[[0; 256]; OUTCOMES.len()]; TABLE / CHANNEL],
            codes: [[0; 2]; 4],
            rooms: [0; ROOMS.len()],
        }
    }
}

impl Counts {
    /// Counts a call on a table as it was before.
    pub fn add(
        &mut self,
        asked: &Asked<'_>,
        room: usize,
        answer: &Answer<'_>,
        table: &[u8; TABLE],
    ) {
        self.numbers[place_of(asked)][usize::from(answer.number())] += 1;
        if let (Asked::Receive(_), Some(lent)) = (asked, ROOMS.iter().position(|&n| n == room)) {
            self.rooms[lent] += 1;
        }
        if answer.number() != 0 {
            return;
        }
        if let (Some(outcome), Some(place)) = (outcome(asked, answer), place(channel(asked))) {
            let counter = counter(asked, place, table);
            self.outcomes[place / CHANNEL][outcome][usize::from(counter)] += 1;
        }
        if let Asked::Receive(_) = asked {
            let code = (answer.packed >> 56 & 3) as usize;
            self.codes[code][usize::from(!answer.information.is_empty())] += 1;
        }
    }

    pub fn calls(&self) -> u64 {
        self.numbers.as_flattened().iter().sum()
    }

    /// How often an outcome came on any channel.
    fn times(&self, outcome: usize) -> u64 {
        let channels = self.outcomes.iter();
        channels.flat_map(|outcomes| outcomes[outcome]).sum()
    }

    /// How often the counter 255 was raised on a channel, by a delivery (0) or a confirmation (2).
    fn rounds(&self, place: usize, outcome: usize) -> u64 {
        self.outcomes[place][outcome][255]
    }

    /// Asserts that the comparison was about something: each answer and each outcome many times,
    /// each channel's counters all round.
    pub fn assert_covers(&self, calls: u64) {
        assert!(self.calls() >= calls, "only {} calls", self.calls());
        for ((name, numbers), counts) in CALLS.iter().zip(&self.numbers) {
            assert_numbers(name, numbers, counts, calls / 50_000);
        }
        for (place, outcomes) in self.outcomes.iter().enumerate() {
            let counters = outcomes.as_flattened();
            let missing = counters.iter().position(|&times| times == 0);
            let missing = missing.map(|place| (OUTCOMES[place / 256], place % 256));
            assert_eq!(missing, None, "with this counter on channel {}", place + 1);
            let rounds = self.rounds(place, 0).min(self.rounds(place, 2));
            assert!(rounds >= calls / 50_000, "{rounds} rounds on {}", place + 1);
        }
        let least = self.codes[1..]
            .as_flattened()
            .iter()
            .chain(&self.rooms)
            .min();
        assert!(
            least >= Some(&(calls / 1000)),
            "a code or a room {least:?} times"
        );
    }
}

/// Asserts that a call gave each of its numbers, and no other.
fn assert_numbers(name: &str, numbers: &[u8], counts: &[u64; 256], least: u64) {
    for (number, &times) in (0..=255).zip(counts) {
        let least = if numbers.contains(&number) { least } else { 0 };
        assert!(times >= least, "{name}: {number} only {times} times");
        assert!(
            least > 0 || times == 0,
            "{name}: {number} is none of its numbers"
        );
    }
}

impl fmt::Display for Counts {
    fn fmt(&self, f: &mut fmt::Formatter<'_>) -> fmt::Result {
        write!(f, "{} calls", self.calls())?;
        for ((name, _), counts) in CALLS.iter().zip(&self.numbers) {
            write!(f, "; {name}")?;
            let mut given = counts.iter().enumerate().filter(|(_, &times)| times > 0);
            given.try_for_each(|(number, times)| write!(f, " {number}: {times}"))?;
        }
        self.show_outcomes(f)
    }
}

impl Counts {
    fn show_outcomes(&self, f: &mut fmt::Formatter<'_>) -> fmt::Result {
        for (place, name) in OUTCOMES.iter().enumerate() {
            write!(f, "; {name} {}", self.times(place))?;
        }
        for place in 0..TABLE / CHANNEL {
            let (received, sent) = (self.rounds(place, 0), self.rounds(place, 2));
            let channel = place + 1;
            write!(
                f,
                "; 255 to 0 on channel {channel}: {received} received, {sent} sent"
            )?;
        }
        let [_, requests, confirmations, indications] = self.codes;
        write!(
            f,
            "; delivered without and with information: 11h {requests:?}, "
        )?;
        write!(f, "2Eh {confirmations:?}, 29h {indications:?}")?;
        write!(f, "; received with rooms of {ROOMS:?}: {:?}", self.rooms)
    }
}
