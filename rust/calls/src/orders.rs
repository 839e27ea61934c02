//! Calls of tunnelling with one thing wrong, or with two at once: only there does the order of the
//! tests show.

use crate::answer::tunnelling::{CHANNELS_SIZE, OPEN};
use crate::call::{Argument, Call, Function, Lent};
use crate::channels::{confirm, receive};
use crate::datagrams::{datagram, ACKNOWLEDGEMENT, HEAD_SIZE, REQUEST};
use inputs::frames::change;

/// The number of a refusal, and a way to draw it.
type Fault<T> = (u8, fn(&mut T));

/// The only channel that is open. All have the same counters, so that nothing else tells it apart.
const OPENED: u8 = 3;
const OPENED_AT: usize = 6;
const CHANNELS: [u8; CHANNELS_SIZE] = [0, 7, 9, 0, 7, 9, OPEN, 7, 9, 0, 7, 9];

/// A request of document 001, 5.2.1, without what is before it.
const MESSAGE: [u8; 14] = [
    0x11, 0x00, 0xbc, 0xc0, 0x00, 0x00, 0x12, 0x34, 0x04, 0x00, 0x80, 0x56, 0x78, 0x9a,
];

/// What a call that reads a datagram is lent.
#[derive(Clone)]
struct Read {
    channels: Vec<u8>,
    /// The datagram, and how much its total length is above what it should be.
    octets: Vec<u8>,
    excess: u16,
    /// How many octets of it arrive at most.
    most: usize,
    room: usize,
}

impl Read {
    fn new(service: u8, counter: u8, last: u8, behind: &[u8]) -> Read {
        Read {
            channels: CHANNELS.to_vec(),
            octets: datagram(service, [OPENED, counter, last], behind),
            excess: 0,
            most: usize::MAX,
            room: HEAD_SIZE + 1,
        }
    }

    fn arriving(&self) -> Lent {
        let mut octets = self.octets.clone();
        octets.truncate(self.most);
        let total = (octets.len() as u16).wrapping_add(self.excess);
        for (octet, half) in octets.iter_mut().skip(4).zip(total.to_be_bytes()) {
            *octet = half;
        }
        octets.into()
    }

    fn call(&self, function: Function) -> Call {
        let (channels, octets) = (self.channels.clone().into(), self.arriving());
        match function {
            Function::TunnellingReceive => receive(channels, octets, filled(self.room)),
            Function::TunnellingConfirm => confirm(channels, octets),
            _ => Call {
                function,
                arguments: vec![Argument::Octets(octets)],
            },
        }
    }
}

fn filled(length: usize) -> Lent {
    Lent::Filled {
        length,
        octet: 0x55,
    }
}

/// "the block's length (14)"
const OF_THE_BLOCK: [Fault<Read>; 3] = [
    (14, |read| read.channels.clear()),
    (14, |read| read.channels.resize(CHANNELS_SIZE - 1, 0)),
    (14, |read| read.channels.resize(CHANNELS_SIZE + 1, 0)),
];

/// "room below 10 (13)"
const OF_THE_ROOM: [Fault<Read>; 2] = [
    (13, |read| read.room = 0),
    (13, |read| read.room = HEAD_SIZE - 1),
];

/// "1, 10, 11, 12, fewer than 10 (1), 19"
const OF_THE_HEAD: [Fault<Read>; 10] = [
    (1, |read| read.most = 5),
    (10, |read| read.octets[0] = 0x07),
    (10, |read| read.octets[1] = 0x11),
    (11, |read| read.octets[2] = 0x05),
    (11, |read| read.octets[3] ^= REQUEST ^ ACKNOWLEDGEMENT),
    (12, |read| read.excess = 1),
    (12, |read| read.excess = 0x0100),
    (12, |read| read.excess = u16::MAX),
    (1, |read| read.most = read.most.min(HEAD_SIZE - 1)),
    (19, |read| read.octets[6] = 0x05),
];

/// "20, 21": numbers that are no channel's, closed channels, octets that are not "open"; counters
/// that are none of those awaited.
const OF_THE_CHANNEL: [Fault<Read>; 9] = [
    (20, |read| read.octets[7] = 0),
    (20, |read| read.octets[7] = OPENED - 1),
    (20, |read| read.octets[7] = 5),
    (20, |read| read.octets[7] = 255),
    (20, |read| change(&mut read.channels, OPENED_AT, |_| 0x02)),
    (20, |read| change(&mut read.channels, OPENED_AT, |_| 0xff)),
    (21, |read| read.octets[8] = 5),
    (21, |read| read.octets[8] = 8),
    (21, |read| read.octets[8] = 0x87),
];

/// "cEMI: empty (1), 7, no second octet (1), 8, ends before or without LG (1), 3, 4, 9, 1, 5."
const OF_THE_MESSAGE: [Fault<Read>; 10] = [
    (1, |read| read.most = read.most.min(HEAD_SIZE)),
    (7, |read| read.octets[10] = 0x2b),
    (1, |read| read.most = read.most.min(HEAD_SIZE + 1)),
    (8, |read| read.octets[11] = 0xff),
    (1, |read| read.most = read.most.min(HEAD_SIZE + 8)),
    (3, |read| read.octets[13] |= 0x01),
    (4, |read| read.octets[18] = 0xff),
    (9, |read| read.octets[18] |= 0x10),
    (1, |read| read.most = read.most.min(HEAD_SIZE + 13)),
    (5, |read| read.octets.push(0x00)),
];

/// "octets left (5)"
const AT_THE_END: [Fault<Read>; 1] = [(5, |read| read.octets.push(0x00))];

/// What a call that writes is given and lent.
#[derive(Clone)]
struct Write {
    function: Function,
    channels: Vec<u8>,
    numbers: Vec<u32>,
    payload: usize,
    room: usize,
}

const PAYLOAD_SIZE: usize = 2;
const REQUEST_SIZE: usize = HEAD_SIZE + 9 + PAYLOAD_SIZE;

/// A message's numbers, from its code to its count.
const NUMBERS: [u32; 9] = [0x11, 0, 0, 1, 3, 0x1101, 1, 0x1234, 6];

/// "the block's length (14), a number or the payload's length outside its range .. (14), the channel
/// not open, whatever its number, also 0, 5 or 300 (20), then 13"
const OF_SENDING: [Fault<Write>; 21] = [
    (14, |write| write.channels.clear()),
    (14, |write| write.channels.resize(CHANNELS_SIZE - 1, 0)),
    (14, |write| write.channels.resize(CHANNELS_SIZE + 1, 0)),
    (14, |write| write.numbers[9] = 8),
    (14, |write| write.payload = 0),
    (14, |write| write.payload = 17),
    (20, |write| write.numbers[0] = 0),
    (20, |write| write.numbers[0] = 2),
    (20, |write| write.numbers[0] = 5),
    (20, |write| write.numbers[0] = 255),
    (20, |write| write.numbers[0] = 256),
    (20, |write| write.numbers[0] = 256 | 3),
    (20, |write| write.numbers[0] = 300),
    (20, |write| write.numbers[0] = 65_536),
    (20, |write| write.numbers[0] = 65_536 | 3),
    (20, |write| write.numbers[0] = 1 << 31 | 3),
    (20, |write| write.numbers[0] = u32::MAX),
    (20, |write| change(&mut write.channels, OPENED_AT, |_| 0x02)),
    (20, |write| change(&mut write.channels, OPENED_AT, |_| 0xff)),
    (13, |write| write.room = 0),
    (13, |write| write.room = REQUEST_SIZE - 1),
];

/// "14 (channel or counter above 255, or as klumdray_cemi_write), then 13"
const OF_REQUESTS: [Fault<Write>; 7] = [
    (14, |write| write.numbers[0] = 256),
    (14, |write| write.numbers[1] = 256),
    (14, |write| write.numbers[10] = 8),
    (14, |write| write.payload = 0),
    (14, |write| write.payload = 17),
    (13, |write| write.room = 0),
    (13, |write| write.room = REQUEST_SIZE - 1),
];

/// "14 (one of the three above 255), then 13 below 10"
const OF_ACKNOWLEDGEMENTS: [Fault<Write>; 5] = [
    (14, |write| write.numbers[0] = 256),
    (14, |write| write.numbers[1] = 256),
    (14, |write| write.numbers[2] = 256),
    (13, |write| write.room = 0),
    (13, |write| write.room = HEAD_SIZE - 1),
];

impl Write {
    /// With the numbers before a message's, if there is one.
    fn new(function: Function, before: &[u32]) -> Write {
        let (message, room): (&[u32], usize) = match function {
            Function::TunnellingAckWrite => (&[], HEAD_SIZE),
            _ => (&NUMBERS, REQUEST_SIZE),
        };
        Write {
            function,
            channels: CHANNELS.to_vec(),
            numbers: [before, message].concat(),
            payload: PAYLOAD_SIZE,
            room,
        }
    }

    fn call(&self) -> Call {
        let mut arguments = Vec::new();
        if self.function == Function::TunnellingSend {
            arguments.push(Argument::Octets(self.channels.clone().into()));
        }
        arguments.extend(self.numbers.iter().copied().map(Argument::Number));
        if self.function != Function::TunnellingAckWrite {
            arguments.push(Argument::Octets(filled(self.payload)));
        }
        arguments.push(Argument::Room(filled(self.room)));
        Call {
            function: self.function,
            arguments,
        }
    }
}

/// What is right, with each of the faults and with each two of them, and the number of the earlier.
fn with_faults<T: Clone>(right: &T, faults: &[Fault<T>]) -> Vec<(T, u8)> {
    let mut all = vec![(right.clone(), 0)];
    for (place, &(number, spoil)) in faults.iter().enumerate() {
        let mut spoiled = right.clone();
        spoil(&mut spoiled);
        let twice = faults[place + 1..].iter().map(|&(_, spoil)| {
            let mut twice = spoiled.clone();
            spoil(&mut twice);
            (twice, number)
        });
        all.extend(twice);
        all.push((spoiled, number));
    }
    all
}

fn readings(function: Function, right: &Read, faults: &[&[Fault<Read>]]) -> Vec<(Call, u8)> {
    let all = with_faults(right, &faults.concat());
    all.iter()
        .map(|(read, number)| (read.call(function), *number))
        .collect()
}

fn writings(right: &Write, faults: &[Fault<Write>]) -> Vec<(Call, u8)> {
    let all = with_faults(right, faults);
    all.iter()
        .map(|(write, number)| (write.call(), *number))
        .collect()
}

/// The calls, and the number that each gives.
pub fn calls() -> Vec<(Call, u8)> {
    let sent = Write::new(Function::TunnellingSend, &[OPENED.into()]);
    let request = Write::new(Function::TunnellingRequestWrite, &[OPENED.into(), 7]);
    let acknowledgement = Write::new(Function::TunnellingAckWrite, &[OPENED.into(), 9, 0]);
    [
        requests_read(),
        acknowledgements_read(),
        writings(&sent, &OF_SENDING),
        writings(&request, &OF_REQUESTS),
        writings(&acknowledgement, &OF_ACKNOWLEDGEMENTS),
    ]
    .concat()
}

/// A request arrives with the counter expected and with the one behind.
fn requests_read() -> Vec<(Call, u8)> {
    let request = |counter| Read::new(REQUEST, counter, 0, &MESSAGE);
    let read: [&[_]; 2] = [&OF_THE_HEAD, &OF_THE_MESSAGE];
    let received: [&[_]; 5] = [
        &OF_THE_BLOCK,
        &OF_THE_ROOM,
        &OF_THE_HEAD,
        &OF_THE_CHANNEL,
        &OF_THE_MESSAGE,
    ];
    [
        readings(Function::TunnellingRequestRead, &request(7), &read),
        readings(Function::TunnellingReceive, &request(7), &received),
        readings(Function::TunnellingReceive, &request(6), &received),
    ]
    .concat()
}

/// An acknowledgement arrives without and with a status.
fn acknowledgements_read() -> Vec<(Call, u8)> {
    let acknowledgement = |status| Read::new(ACKNOWLEDGEMENT, 9, status, &[]);
    let read: [&[_]; 2] = [&OF_THE_HEAD, &AT_THE_END];
    let confirmed: [&[_]; 4] = [&OF_THE_BLOCK, &OF_THE_HEAD, &OF_THE_CHANNEL, &AT_THE_END];
    let [right, with_status] = [acknowledgement(0), acknowledgement(0x21)];
    [
        readings(Function::TunnellingAckRead, &right, &read),
        readings(Function::TunnellingConfirm, &right, &confirmed),
        readings(Function::TunnellingConfirm, &with_status, &confirmed),
    ]
    .concat()
}

#[cfg(test)]
mod tests {
    use super::*;
    use crate::answer::Answer;

    #[test]
    fn the_earlier_of_two_refusals_is_given() {
        let calls = calls();
        assert_eq!(calls.len(), 2301);
        for (call, number) in calls {
            assert_eq!(Answer::of(&call).number as u8, number, "{call:02x?}");
        }
    }
}
