//! Series of calls on a table of channels: its block is carried on from call to call, requests and
//! acknowledgements follow its counters, and now and then something is wrong in any of them.

use crate::answer::tunnelling::{CHANNELS_SIZE, CHANNEL_SIZE, OPEN};
use crate::answer::Answer;
use crate::call::{Argument, Call, Function, Lent};
use crate::datagrams::{self, HEAD_SIZE};
use crate::writes;
use inputs::Generator;

/// Octets for open that are closed.
const CLOSED: [u8; 4] = [0x00, 0x02, 0x81, 0xff];
/// Numbers that are no channel's, at the borders of those that are.
const NO_CHANNELS: [u8; 4] = [0, 5, 254, 255];

/// Places of the counters in a channel's octets.
const RECEIVE: usize = 1;
const SEND: usize = 2;

/// One table, and what arrives on it and is sent over it, most of it on one channel.
pub struct Series {
    favourite: u8,
    channels: [u8; CHANNELS_SIZE],
}

impl Series {
    pub fn new(generator: &mut Generator) -> Series {
        let mut series = Series {
            favourite: some_channel(generator),
            channels: [0; CHANNELS_SIZE],
        };
        for number in 1..=4 {
            let is_open = number == series.favourite || !generator.one_in(4);
            series.put(number, some_octets(generator, is_open));
        }
        series
    }

    /// With this channel alone open, and these counters.
    pub fn on_channel(favourite: u8, counters: u8) -> Series {
        let mut series = Series {
            favourite,
            channels: [0; CHANNELS_SIZE],
        };
        series.put(favourite, [OPEN, counters, counters]);
        series
    }

    fn put(&mut self, number: u8, octets: [u8; CHANNEL_SIZE]) {
        let start = usize::from(number - 1) * CHANNEL_SIZE;
        self.channels[start..][..CHANNEL_SIZE].copy_from_slice(&octets);
    }

    /// The caller opens or closes a channel, but not the favourite.
    pub fn set(&mut self, generator: &mut Generator) {
        let number = some_channel(generator);
        if number != self.favourite {
            let is_open = generator.one_in(2);
            self.put(number, some_octets(generator, is_open));
        }
    }

    /// What the last call left.
    pub fn keep(&mut self, channels: &[u8]) {
        if channels.len() == CHANNELS_SIZE {
            self.channels.copy_from_slice(channels);
        }
    }

    pub fn receive(&self, generator: &mut Generator) -> Call {
        let channel = self.some_number(generator);
        let counter = self.some_counter(generator, channel, RECEIVE);
        let mut octets = datagrams::request(generator, channel, counter);
        if generator.one_in(4) {
            datagrams::damage_request(generator, &mut octets);
        }
        let channels = self.lent(generator);
        let octets = some_lent(generator, octets);
        receive(channels, octets, writes::some_small_room(generator))
    }

    pub fn send(&self, generator: &mut Generator) -> Call {
        let number = self.some_number(generator).into();
        let wide = [256, 257, 300, 65_536, 1 << 31].map(|bits| bits | number);
        let channel = match generator.below(16) {
            0 => generator.one_of(&wide),
            _ => number,
        };
        let channels = self.lent(generator);
        send(generator, channels, channel)
    }

    pub fn confirm(&self, generator: &mut Generator) -> Call {
        let channel = self.some_number(generator);
        let counter = self.some_counter(generator, channel, SEND);
        let mut octets = datagrams::acknowledgement(generator, channel, counter);
        if generator.one_in(4) {
            datagrams::damage_acknowledgement(generator, &mut octets);
        }
        let channels = self.lent(generator);
        confirm(channels, some_lent(generator, octets))
    }

    /// A request with the counter expected.
    pub fn expected(&self, generator: &mut Generator) -> Call {
        let counter = self.counter(self.favourite, RECEIVE);
        let octets = datagrams::request(generator, self.favourite, counter);
        let room = Lent::Filled {
            length: HEAD_SIZE + 1,
            octet: generator.octet(),
        };
        receive(self.channels.to_vec().into(), octets.into(), room)
    }

    /// A request that the reference does not refuse to send.
    pub fn sent(&self, generator: &mut Generator) -> Call {
        loop {
            let channels = self.channels.to_vec().into();
            let call = send(generator, channels, self.favourite.into());
            if Answer::of(&call).number as u8 == 0 {
                return call;
            }
        }
    }

    /// An acknowledgement that raises the send counter.
    pub fn confirmed(&self) -> Call {
        let counter = self.counter(self.favourite, SEND);
        let numbers = [self.favourite, counter, 0];
        let octets = datagrams::datagram(datagrams::ACKNOWLEDGEMENT, numbers, &[]);
        confirm(self.channels.to_vec().into(), octets.into())
    }

    /// The block, or one of another length.
    fn lent(&self, generator: &mut Generator) -> Lent {
        let mut channels = self.channels.to_vec();
        match generator.below(96) {
            0 => return Lent::Null,
            1 | 2 => channels.truncate(CHANNELS_SIZE - 1),
            3 | 4 => channels.push(generator.octet()),
            _ => {}
        }
        channels.into()
    }

    fn some_number(&self, generator: &mut Generator) -> u8 {
        match generator.below(16) {
            0..10 => self.favourite,
            10..15 => some_channel(generator),
            _ => generator.one_of(&NO_CHANNELS),
        }
    }

    fn counter(&self, number: u8, place: usize) -> u8 {
        let channel = usize::from(number).checked_sub(1);
        let at = channel.map(|channel| channel * CHANNEL_SIZE + place);
        at.and_then(|at| self.channels.get(at))
            .copied()
            .unwrap_or(0)
    }

    /// The counter that the channel awaits, one behind, or another.
    fn some_counter(&self, generator: &mut Generator, number: u8, place: usize) -> u8 {
        let awaited = self.counter(number, place);
        match generator.below(16) {
            0..10 => awaited,
            10..13 => awaited.wrapping_sub(1),
            13 => awaited.wrapping_add(1),
            14 => awaited.wrapping_sub(2),
            _ => generator.octet(),
        }
    }
}

pub fn some_channel(generator: &mut Generator) -> u8 {
    1 + generator.below(4) as u8
}

/// A fresh channel, or one with any counters, often near their end; or a closed one.
fn some_octets(generator: &mut Generator, is_open: bool) -> [u8; CHANNEL_SIZE] {
    let open = if is_open {
        OPEN
    } else {
        generator.one_of(&CLOSED)
    };
    let counters = match generator.below(4) {
        0 => [0, 0],
        1 => [generator.octet(), generator.octet()],
        _ => [0; 2].map(|_: u8| 250 + generator.below(6) as u8),
    };
    [open, counters[0], counters[1]]
}

fn some_lent(generator: &mut Generator, octets: Vec<u8>) -> Lent {
    match generator.below(64) {
        0 => Lent::Null,
        _ => octets.into(),
    }
}

pub fn receive(channels: Lent, octets: Lent, room: Lent) -> Call {
    Call {
        function: Function::TunnellingReceive,
        arguments: vec![
            Argument::Room(channels),
            Argument::Octets(octets),
            Argument::Room(room),
        ],
    }
}

fn send(generator: &mut Generator, channels: Lent, channel: u32) -> Call {
    let function = Function::TunnellingSend;
    let mut arguments = vec![Argument::Octets(channels)];
    arguments.extend(writes::some_arguments(generator, function, vec![channel]));
    Call {
        function,
        arguments,
    }
}

pub fn confirm(channels: Lent, octets: Lent) -> Call {
    Call {
        function: Function::TunnellingConfirm,
        arguments: vec![Argument::Room(channels), Argument::Octets(octets)],
    }
}
