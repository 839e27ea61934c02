//! Of the calls on a table of channels: every outcome, every counter, every block and room.

use super::{octets, SHORT, SMALL};
use crate::call::Function;
use crate::reader::{Reader, Row};
use crate::rounds::Options;
use std::collections::BTreeSet;

const ON_CHANNELS: [Function; 3] = [
    Function::TunnellingReceive,
    Function::TunnellingSend,
    Function::TunnellingConfirm,
];

/// A call on a table of channels, as it was before.
struct On {
    row: Row,
    channels: Vec<u8>,
    /// The channel that it is about, and the counter in the datagram that arrives, or goes out.
    channel: u32,
    counter: Option<u8>,
}

impl On {
    fn new(row: Row) -> Option<On> {
        let function = row.call.function;
        if !ON_CHANNELS.contains(&function) {
            return None;
        }
        let (slices, rooms) = (row.call.slices(), row.call.rooms());
        let is_sent = function == Function::TunnellingSend;
        let (channels, datagram) = match is_sent {
            true => (slices[0].to_vec(), &row.answer.rooms[0][..]),
            false => (rooms[0].clone(), &slices[0][..]),
        };
        let channel = match is_sent {
            true => row.call.numbers()[0],
            false => datagram.get(7).map_or(0, |&channel| channel.into()),
        };
        let counter = datagram.get(8).copied();
        Some(On {
            channels,
            channel,
            counter,
            row,
        })
    }

    fn number(&self) -> u8 {
        self.row.answer.number as u8
    }

    /// What became of a call that is not refused.
    fn outcome(&self) -> Option<&'static str> {
        let answer = self.row.answer.number;
        match (self.number(), self.row.call.function, answer >> 8) {
            (1.., ..) => None,
            (_, Function::TunnellingSend, _) => Some("sent"),
            (_, Function::TunnellingReceive, 0) => Some("acknowledged again"),
            (_, Function::TunnellingReceive, _) => Some("delivered"),
            (_, _, 0) => Some("left"),
            _ => Some("raised"),
        }
    }

    /// The three octets of the channel, if it is one.
    fn channel_octets(&self) -> Option<&[u8]> {
        let place = self.channel.checked_sub(1)? as usize;
        self.channels.chunks_exact(3).nth(place)
    }
}

fn calls(options: Options) -> Vec<On> {
    Reader::new(&octets(options)).filter_map(On::new).collect()
}

#[test]
fn every_outcome_comes_on_every_channel() {
    for options in [SHORT, SMALL] {
        let calls = calls(options);
        let outcomes: BTreeSet<_> = calls
            .iter()
            .filter_map(|on| Some((on.outcome()?, on.channel)))
            .collect();
        let all = ["delivered", "acknowledged again", "sent", "raised", "left"];
        let expected = all.iter().flat_map(|&it| (1..=4).map(move |k| (it, k)));
        assert_eq!(outcomes, expected.collect());
    }
}

/// All counters, of a channel that the block's octets alone carry on from one call to the next.
#[test]
fn counters_go_all_round() {
    for options in [SHORT, SMALL] {
        let calls = calls(options);
        for outcome in ["delivered", "sent", "raised"] {
            let found = calls.iter().filter(|on| on.outcome() == Some(outcome));
            let counters: BTreeSet<u8> = found.filter_map(|on| on.counter).collect();
            assert_eq!(counters.len(), 256, "{outcome}");
        }
        let is_next = |pair: &&[On]| {
            let left = pair[0].row.answer.rooms.first();
            pair[0].channels != pair[1].channels && left == Some(&pair[1].channels)
        };
        assert!(calls.windows(2).filter(is_next).count() >= 600);
    }
}

/// "255 going to 0", on each channel; and 255 is behind 0.
#[test]
fn every_channel_passes_255() {
    for options in [SHORT, SMALL] {
        let calls = calls(options);
        let at_255 = calls.iter().filter(|on| on.counter == Some(255));
        let outcomes: BTreeSet<_> = at_255
            .filter_map(|on| Some((on.outcome()?, on.channel)))
            .collect();
        let expected = ["delivered", "sent", "raised"].map(|it| [1, 2, 3, 4].map(|k| (it, k)));
        assert!(outcomes.is_superset(&expected.into_iter().flatten().collect()));
        let is_behind_0 = |on: &On| {
            on.outcome() == Some("acknowledged again")
                && on.counter == Some(255)
                && on.channel_octets().is_some_and(|octets| octets[1] == 0)
        };
        assert!(calls.iter().any(is_behind_0));
    }
}

#[test]
fn every_block_is_refused_by_its_length_alone() {
    for options in [SHORT, SMALL] {
        let calls = calls(options);
        let lengths: BTreeSet<_> = calls
            .iter()
            .map(|on| (on.row.call.function as u8, on.channels.len()))
            .collect();
        let lent = ON_CHANNELS.map(|it| [0, 11, 12, 13].map(|length| (it as u8, length)));
        assert_eq!(lengths, lent.into_iter().flatten().collect());
        let other = calls.iter().filter(|on| on.channels.len() != 12);
        assert_eq!(other.map(On::number).collect::<BTreeSet<_>>(), [14].into());
    }
}

#[test]
fn every_room_around_10_is_lent() {
    for options in [SHORT, SMALL] {
        let calls = calls(options);
        let is_received = |on: &&On| {
            on.row.call.function == Function::TunnellingReceive && on.channels.len() == 12
        };
        let received = calls.iter().filter(is_received);
        let rooms: BTreeSet<_> = received
            .map(|on| (on.row.answer.rooms[1].len(), on.number()))
            .collect();
        let of = |length| rooms.iter().filter(move |room| room.0 == length);
        for too_small in 0..10 {
            assert!(of(too_small).all(|room| room.1 == 13));
        }
        assert!(of(0).count() == 1 && of(9).count() == 1);
        for length in [10, 11] {
            assert!(of(length).any(|room| room.1 == 0), "{length}");
            assert!(of(length).any(|room| room.1 == 20), "{length}");
        }
    }
}

/// "open (01h; every other value is closed)"
#[test]
fn every_closed_octet_draws_20_from_every_call() {
    for options in [SHORT, SMALL] {
        let calls = calls(options);
        for function in ON_CHANNELS {
            let refused = calls
                .iter()
                .filter(|on| on.row.call.function == function && on.number() == 20);
            let open: BTreeSet<_> = refused
                .map(|on| on.channel_octets().map(|octets| octets[0]))
                .collect();
            for octet in [None, Some(0x00), Some(0x02), Some(0xff)] {
                assert!(open.contains(&octet), "{function:?}: {octet:02x?}");
            }
            assert!(!open.contains(&Some(0x01)), "{function:?}");
        }
    }
}

/// "whatever its number, also 0, 5 or 300 (20)": not 14, and not the channel that is left if it is
/// cut.
#[test]
fn every_number_that_is_no_channel_s_draws_20() {
    let calls = calls(SHORT);
    let sends = calls
        .iter()
        .filter(|on| on.row.call.function == Function::TunnellingSend && on.number() == 20);
    let numbers: BTreeSet<u32> = sends.map(|on| on.channel).collect();
    for number in [
        0,
        5,
        255,
        256,
        259,
        300,
        65_536,
        65_539,
        0x8000_0003,
        u32::MAX,
    ] {
        assert!(numbers.contains(&number), "{number}");
    }
}

#[test]
fn every_message_is_delivered_with_and_without_information() {
    for options in [SHORT, SMALL] {
        let calls = calls(options);
        let delivered = calls.iter().filter(|on| on.outcome() == Some("delivered"));
        let messages: BTreeSet<_> = delivered
            .map(|on| {
                let slices = on.row.call.slices();
                (on.row.answer.number >> 56, slices[0][11] > 0)
            })
            .collect();
        // A confirmation's error mark is bit 58.
        let expected = [1, 2, 3, 6].map(|code| [(code, false), (code, true)]);
        assert_eq!(messages, expected.into_iter().flatten().collect());
    }
}
