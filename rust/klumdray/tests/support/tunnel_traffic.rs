//! Series of calls from a seed, on a table whose counters they follow, so that requests and
//! acknowledgements with the expected counter come about, and now and then something wrong in any
//! of them, also two things at once: only there does the order of the tests show.

use crate::tunnels::{place, Asked, Message, CHANNEL, HEAD, LARGEST_ROOM, OPEN, TABLE};
use inputs::frames::{change, mend_total, some_damages};
use inputs::Generator;
use reference::Given;

const REQUEST: u8 = 0x20;
const ACKNOWLEDGEMENT: u8 = 0x21;
const CODES: [u8; 3] = [0x11, 0x2e, 0x29];

/// Numbers that are no channel's, at the borders of what is.
const NO_CHANNELS: [u8; 6] = [0, 5, 16, 17, 254, 255];
/// The same channels' numbers with bits that an octet lacks.
const WIDE: [u32; 5] = [0x100, 0x101, 300, 0x1_0001, 0x8000_0001];

#[derive(Clone, Copy)]
enum Kind {
    Receive,
    Send,
    Confirm,
    ReadRequest,
    WriteRequest,
    ReadAcknowledgement,
    WriteAcknowledgement,
}

/// One call, and how many octets of table and room it is lent.
pub struct Call {
    kind: Kind,
    octets: Vec<u8>,
    numbers: [u32; 3],
    message: Message,
    pub table: usize,
    pub room: usize,
}

impl Call {
    pub fn asked(&self) -> Asked<'_> {
        let [channel, counter, status] = self.numbers;
        match self.kind {
            Kind::Receive => Asked::Receive(&self.octets),
            Kind::Send => Asked::Send(channel, &self.message),
            Kind::Confirm => Asked::Confirm(&self.octets),
            Kind::ReadRequest => Asked::ReadRequest(&self.octets),
            Kind::WriteRequest => Asked::WriteRequest([channel, counter], &self.message),
            Kind::ReadAcknowledgement => Asked::ReadAcknowledgement(&self.octets),
            Kind::WriteAcknowledgement => Asked::WriteAcknowledgement([channel, counter, status]),
        }
    }
}

/// A series, most of whose calls are on one channel.
pub struct Series {
    favourite: u8,
    /// Whether channels are set to counters and to open octets that only a block has.
    is_odd: bool,
}

impl Series {
    pub fn new(generator: &mut Generator, is_odd: bool) -> Series {
        Series {
            favourite: 1 + generator.below(4) as u8,
            is_odd,
        }
    }

    /// Every channel's octets at the start of the series.
    pub fn channels(&self, generator: &mut Generator) -> [[u8; CHANNEL]; 4] {
        [1, 2, 3, 4].map(|number| {
            let is_open = number == self.favourite || !generator.one_in(4);
            self.channel(generator, is_open)
        })
    }

    /// A channel fresh or closed, or in a block with any counters, often near their end, or with
    /// any octet for closed.
    pub fn channel(&self, generator: &mut Generator, is_open: bool) -> [u8; CHANNEL] {
        let open = [0, OPEN][usize::from(is_open)];
        if !self.is_odd || generator.one_in(2) {
            return [open, 0, 0];
        }
        let near_the_end = generator.one_in(2);
        let mut counter = || match near_the_end {
            true => 250 + generator.below(6) as u8,
            false => generator.octet(),
        };
        let (receive, send) = (counter(), counter());
        let closed = generator.one_of(&[0, 2, 128, 255]);
        [if is_open { OPEN } else { closed }, receive, send]
    }

    /// A channel that is opened or closed within a series, but not the favourite.
    pub fn other(&self, generator: &mut Generator) -> Option<u8> {
        Some(1 + generator.below(4) as u8).filter(|&number| number != self.favourite)
    }

    pub fn call(&self, generator: &mut Generator, table: &[u8; TABLE]) -> Call {
        let kind = match generator.below(32) {
            0..=13 => Kind::Receive,
            14..=17 => Kind::Send,
            18..=26 => Kind::Confirm,
            27 | 28 => Kind::ReadRequest,
            29 => Kind::WriteRequest,
            30 => Kind::ReadAcknowledgement,
            _ => Kind::WriteAcknowledgement,
        };
        let channel = self.some_channel(generator);
        let message = some_message(generator);
        let octets = match kind {
            Kind::Receive | Kind::ReadRequest => {
                let counter = some_counter(generator, table, channel, 1);
                some_request(generator, channel, counter)
            }
            _ => {
                let counter = some_counter(generator, table, channel, 2);
                some_acknowledgement(generator, channel, counter)
            }
        };
        let numbers = [
            some_number(generator, channel),
            some_octet_number(generator),
            some_octet_number(generator),
        ];
        Call {
            room: some_room(generator, kind, &message),
            table: match generator.below(64) {
                0 => generator.one_of(&[0, TABLE - 1, TABLE + 1]),
                _ => TABLE,
            },
            kind,
            octets,
            numbers,
            message,
        }
    }

    fn some_channel(&self, generator: &mut Generator) -> u8 {
        match generator.below(20) {
            0..=9 => self.favourite,
            10..=17 => 1 + generator.below(4) as u8,
            18 => generator.one_of(&NO_CHANNELS),
            _ => generator.octet(),
        }
    }
}

/// The counter that the channel awaits, one behind, or another; `field` is its place there.
fn some_counter(generator: &mut Generator, table: &[u8; TABLE], channel: u8, field: usize) -> u8 {
    let awaited = place(channel).map_or(0, |place| table[place + field]);
    match generator.below(16) {
        0..=8 => awaited,
        9..=11 => awaited.wrapping_sub(1),
        12 => awaited.wrapping_add(1),
        13 => awaited.wrapping_sub(2),
        14 => generator.one_of(&[0, 255]),
        _ => generator.octet(),
    }
}

/// A channel given to a writer.
fn some_number(generator: &mut Generator, channel: u8) -> u32 {
    match generator.below(12) {
        0 => generator.one_of(&WIDE),
        _ => channel.into(),
    }
}

fn some_octet_number(generator: &mut Generator) -> u32 {
    match generator.below(24) {
        0 => generator.one_of(&WIDE),
        _ => generator.octet().into(),
    }
}

/// Around the size that is needed.
fn some_room(generator: &mut Generator, kind: Kind, message: &Message) -> usize {
    let size = match kind {
        Kind::Send | Kind::WriteRequest => message.size(),
        _ => HEAD,
    };
    let wrong = [0, HEAD - 1, size - 1];
    match generator.below(16) {
        0 => generator.one_of(&wrong),
        1..=3 => size + 1,
        4 => LARGEST_ROOM,
        _ => size,
    }
}

/// Numbers in their ranges, of one call in eight one of them outside.
fn some_message(generator: &mut Generator) -> Message {
    let code = generator.one_of(&CODES);
    let extended = u8::from(generator.one_in(3));
    let most = match (extended, generator.below(4)) {
        (1, 0) => 255,
        _ => 16,
    };
    let length = 1 + generator.below(most);
    let mut message = Message {
        code,
        error_mark: u8::from(code == 0x2e && generator.one_in(2)),
        given: Given {
            extended,
            first_sending: generator.below(2) as u8,
            priority: generator.below(4) as u8,
            source: generator.field(),
            group: generator.below(2) as u8,
            destination: generator.field(),
            count: generator.below(8) as u8,
        },
        payload: generator.octets(length),
    };
    if generator.one_in(8) {
        spoil(generator, &mut message);
    }
    message
}

fn spoil(generator: &mut Generator, message: &mut Message) {
    let flag = generator.one_of(&[2, 255]);
    match generator.below(9) {
        0 => message.code = generator.one_of(&[0x00, 0x10, 0x2b, 0x2f, 0xff]),
        1 => message.error_mark = generator.one_of(&[1, 2, 255]),
        2 => message.given.extended = flag,
        3 => message.given.first_sending = flag,
        4 => message.given.group = flag,
        5 => message.given.priority = generator.one_of(&[4, 255]),
        6 => message.given.count = generator.one_of(&[8, 255]),
        7 => message.payload.clear(),
        _ => {
            let length = [17, 256][usize::from(message.given.extended == 1)];
            message.payload = generator.octets(length);
        }
    }
}

/// What both services begin with.
fn head(service: u8, channel: u8, counter: u8, last: u8) -> [u8; HEAD] {
    [
        0x06, 0x10, 0x04, service, 0x00, 0x00, 0x04, channel, counter, last,
    ]
}

/// A request with or without additional information and with the bits of Ctrl1 and the octet 00h
/// that are not read in any state, in one case of four damaged.
fn some_request(generator: &mut Generator, channel: u8, counter: u8) -> Vec<u8> {
    let message = loop {
        let message = some_message(generator);
        if is_valid(&message) {
            break message;
        }
    };
    let last = match generator.below(4) {
        0 => generator.octet(),
        _ => 0,
    };
    let mut octets = vec![0; message.size() - HEAD];
    let Message {
        code,
        error_mark,
        given,
        payload,
    } = &message;
    let written = reference::cemi::write(*code, *error_mark, given, payload, &mut octets);
    assert_eq!(written, Ok(octets.len()));
    octets[2] ^= generator.octet() & 0b0101_0010;
    if generator.one_in(3) {
        let bound = generator.one_of(&[8, 255]);
        let a = generator.below(bound) as u8;
        octets[1] = a;
        octets.splice(2..2, generator.octets(a.into()));
    }
    octets.splice(0..0, head(REQUEST, channel, counter, last));
    mended_or_damaged(generator, octets)
}

fn is_valid(message: &Message) -> bool {
    let mut room = [0; LARGEST_ROOM];
    let Message {
        code,
        error_mark,
        given,
        payload,
    } = message;
    reference::cemi::write(*code, *error_mark, given, payload, &mut room).is_ok()
}

/// An acknowledgement, in one case of four with a status, in one of four damaged.
fn some_acknowledgement(generator: &mut Generator, channel: u8, counter: u8) -> Vec<u8> {
    let status = match generator.below(4) {
        0 => generator.one_of(&[0x01, 0x21, 0x29, 0x80, 0xff]),
        _ => 0,
    };
    let octets = head(ACKNOWLEDGEMENT, channel, counter, status).to_vec();
    mended_or_damaged(generator, octets)
}

fn mended_or_damaged(generator: &mut Generator, mut octets: Vec<u8>) -> Vec<u8> {
    mend_total(&mut octets);
    if generator.one_in(4) {
        for _ in 0..some_damages(generator) {
            damage_front(generator, &mut octets);
        }
        if generator.one_in(2) {
            mend_total(&mut octets);
        }
    }
    octets
}

/// Something wrong with a datagram: cut, longer, one octet or one bit, or a part of its head.
fn damage_front(generator: &mut Generator, octets: &mut Vec<u8>) {
    let place = generator.below(octets.len().max(1));
    let damage = generator.damage();
    match generator.below(12) {
        0 => octets.truncate(place),
        1 => octets.truncate(generator.one_of(&[5, 6, 9, 10, 11, 12])),
        2 => octets.push(damage),
        3 => change(octets, place, |octet| octet ^ damage),
        4 => change(octets, place, |octet| octet ^ 1 << (damage & 7)),
        5 => change(octets, place % 2, |octet| octet ^ damage),
        6 => change(octets, 3, |_| [0x20, 0x21, 0x30, damage][place % 4]),
        7 => change(octets, 2 + place % 2, |octet| octet ^ damage),
        8 => change(octets, 4 + place % 2, |octet| octet ^ damage),
        9 => change(octets, 6, |octet| {
            [octet ^ damage, 0x00, 0x03, 0x05][place % 4]
        }),
        10 => *octets = generator.octets(place),
        _ => damage_message(generator, octets),
    }
}

/// Something wrong with the message in a request.
fn damage_message(generator: &mut Generator, octets: &mut [u8]) {
    let ctrl1 = HEAD + 2 + usize::from(octets.get(HEAD + 1).copied().unwrap_or(0));
    let damage = generator.damage();
    match generator.below(8) {
        0 => change(octets, HEAD, |_| {
            [0x00, 0x10, 0x2b, 0xff][usize::from(damage % 4)]
        }),
        1 => change(octets, HEAD + 1, |_| 255),
        2 => change(octets, HEAD + 1, |octet| octet ^ damage),
        3 => change(octets, ctrl1, |octet| octet ^ 0x80),
        4 => change(octets, ctrl1 + 1, |octet| octet | damage & 0x0f),
        5 => change(octets, ctrl1 + 6, |_| 255),
        6 => change(octets, ctrl1 + 6, |octet| octet.wrapping_add(1)),
        _ => change(octets, ctrl1 + 6, |octet| octet ^ damage),
    }
}
