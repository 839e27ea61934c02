//! Each sentence of "R-1. Laptop on the line", and the sequences of document 001.

use super::*;
use crate::cemi::Code;
use crate::{Format, Meaning};

mod sequences;

/// Stands where nothing may be written.
const UNTOUCHED: u8 = 0x55;

/// The message of 001, 5.2.1.
const MESSAGE: [u8; 14] = [
    0x11, 0x00, 0xbc, 0xc0, 0x00, 0x00, 0x12, 0x34, 0x04, 0x00, 0x80, 0x56, 0x78, 0x9a,
];
const PAYLOAD: [u8; 5] = [0x00, 0x80, 0x56, 0x78, 0x9a];
/// What the message says, as a caller gives it.
const GIVEN: Given = Given {
    extended: 0,
    first_sending: 1,
    priority: 3,
    source: 0x0000,
    group: 1,
    destination: 0x1234,
    count: 4,
};

/// The datagrams of 001, 5.2.1, on channel 1.
const REQUEST_OF_001: [u8; 24] = [
    0x06, 0x10, 0x04, 0x20, 0x00, 0x18, 0x04, 0x01, 0x00, 0x00, 0x11, 0x00, 0xbc, 0xc0, 0x00, 0x00,
    0x12, 0x34, 0x04, 0x00, 0x80, 0x56, 0x78, 0x9a,
];
const ACKNOWLEDGEMENT_OF_001: [u8; 10] =
    [0x06, 0x10, 0x04, 0x21, 0x00, 0x0a, 0x04, 0x01, 0x00, 0x00];

/// The only open channel of `table`.
const OPEN: u8 = 3;

/// Every channel has these counters, so that nothing but its state tells the open one apart.
fn table(receive: u8, send: u8) -> Table {
    let mut table = Table::with_open(&[OPEN]);
    for channel in &mut table.channels {
        channel.receive = receive;
        channel.send = send;
    }
    table
}

fn open_channel(table: &Table) -> Channel {
    table.channels[usize::from(OPEN) - 1]
}

/// A datagram in parts, which may be wrong in several ways at once.
#[derive(Clone)]
struct Parts {
    header_length: u8,
    version: u8,
    service: u16,
    /// How much the total length is above the datagram's.
    excess: u16,
    first: u8,
    channel: u8,
    counter: u8,
    last: u8,
    message: Vec<u8>,
    /// How many octets arrive at most.
    most: usize,
}

impl Parts {
    fn new(service: u16, channel: u8, counter: u8, last: u8, message: &[u8]) -> Parts {
        Parts {
            header_length: 0x06,
            version: 0x10,
            service,
            excess: 0,
            first: 0x04,
            channel,
            counter,
            last,
            message: message.to_vec(),
            most: 1000,
        }
    }

    fn octets(&self) -> Vec<u8> {
        let [v1, v0] = self.service.to_be_bytes();
        let mut octets = vec![self.header_length, self.version, v1, v0, 0, 0];
        octets.extend([self.first, self.channel, self.counter, self.last]);
        octets.extend(&self.message);
        octets.truncate(self.most);
        let total = octets.len() as u16 + self.excess;
        for (octet, half) in octets.iter_mut().skip(4).zip(total.to_be_bytes()) {
            *octet = half;
        }
        octets
    }
}

fn request(channel: u8, counter: u8, message: &[u8]) -> Vec<u8> {
    Parts::new(0x0420, channel, counter, 0x00, message).octets()
}

fn acknowledgement(channel: u8, counter: u8, status: u8) -> Vec<u8> {
    Parts::new(0x0421, channel, counter, status, &[]).octets()
}

/// A request arrives in a room of more than enough octets. Whatever the answer is, it must keep the
/// sentences about table and room.
#[track_caller]
fn receive<'a>(table: &mut Table, octets: &'a [u8]) -> Result<Option<Frame<'a>>, u8> {
    let mut room = [UNTOUCHED; 12];
    let mut expected = *table;
    let answer = table.receive(octets, &mut room);
    let (front, behind) = room.split_at(10);
    match answer {
        Ok(_) => assert_eq!(front, acknowledgement(octets[7], octets[8], 0x00)),
        Err(_) => assert_eq!(front, [UNTOUCHED; 10]),
    }
    assert_eq!(behind, [UNTOUCHED; 2]);
    if let Ok(Some(_)) = answer {
        let counter = &mut expected.channels[usize::from(octets[7]) - 1].receive;
        *counter = raised(*counter);
    }
    assert_eq!(*table, expected);
    answer
}

/// An acknowledgement arrives. Whatever the answer is, it must keep the sentences about the table.
#[track_caller]
fn confirm(table: &mut Table, octets: &[u8]) -> Result<bool, u8> {
    let mut expected = *table;
    let answer = table.confirm(octets);
    if answer == Ok(true) {
        let counter = &mut expected.channels[usize::from(octets[7]) - 1].send;
        *counter = raised(*counter);
    }
    assert_eq!(*table, expected);
    answer
}

/// "raised by one, 255 going to 0"
fn raised(counter: u8) -> u8 {
    match counter {
        255 => 0,
        _ => counter + 1,
    }
}

/// The octets that a sender writes, or its refusal, with which it writes none.
#[track_caller]
fn written(write: impl FnOnce(&mut [u8]) -> Result<usize, u8>) -> Result<Vec<u8>, u8> {
    let mut room = [UNTOUCHED; 300];
    let answer = write(&mut room);
    let (front, behind) = room.split_at(answer.unwrap_or(0));
    assert!(behind.iter().all(|&octet| octet == UNTOUCHED));
    answer.map(|_| front.to_vec())
}

/// The request of `MESSAGE` as the table sends it.
#[track_caller]
fn sent(table: &Table, channel: u8) -> Result<Vec<u8>, u8> {
    written(|room| table.send(channel, 0x11, 0, &GIVEN, &PAYLOAD, room))
}

// The order of the refusals.

/// A refusal and a way to draw it.
type Fault = (u8, fn(&mut Parts));

/// "fewer than 6 octets (1), 10, 11, 12", then "fewer than 10 octets in all is 1 just before 19".
const BEFORE_THE_TABLE: [Fault; 7] = [
    (1, |parts| parts.most = parts.most.min(5)),
    (10, |parts| parts.header_length = 0x07),
    (10, |parts| parts.version = 0x11),
    (11, |parts| parts.service = 0x0530),
    (12, |parts| parts.excess = 1),
    (1, |parts| parts.most = parts.most.min(9)),
    (19, |parts| parts.first = 0x05),
];

/// 20, 21.
const BY_THE_TABLE: [Fault; 2] = [
    (20, |parts| parts.channel = OPEN - 1),
    (21, |parts| parts.counter = parts.counter.wrapping_add(2)),
];

/// "cEMI: empty (1), 7, no second octet (1), 8, ends before or without LG (1), 3, 4, 9, 1, 5."
const IN_THE_MESSAGE: [Fault; 10] = [
    (1, |parts| parts.most = parts.most.min(10)),
    (7, |parts| parts.message[0] = 0x2b),
    (1, |parts| parts.most = parts.most.min(11)),
    (8, |parts| parts.message[1] = 0xff),
    (1, |parts| parts.most = parts.most.min(18)),
    (3, |parts| parts.message[3] = 0xc1),
    (4, |parts| parts.message[8] = 0xff),
    (9, |parts| parts.message[8] = parts.message[8].max(0x10)),
    (1, |parts| parts.most = parts.most.min(23)),
    (5, |parts| parts.message.push(0x00)),
];

/// "for an acknowledgement 5 comes last"
const LAST: [Fault; 1] = [(5, |parts| parts.message.push(0x00))];

/// Calls the test with each datagram that has some of the faults, or none, and the number of the
/// earliest of them.
fn with_faults(right: &Parts, faults: &[Fault], mut test: impl FnMut(&[u8], Option<u8>)) {
    for chosen in 0..1_usize << faults.len() {
        let mut parts = right.clone();
        for (place, (_, spoil)) in faults.iter().enumerate() {
            if chosen >> place & 1 == 1 {
                spoil(&mut parts);
            }
        }
        let earliest = faults.get(chosen.trailing_zeros() as usize);
        test(&parts.octets(), earliest.map(|&(number, _)| number));
    }
}

#[test]
fn order_of_refusals_of_the_request_reader() {
    let right = Parts::new(0x0420, 0xc5, 0x7e, 0x99, &MESSAGE);
    let faults = [&BEFORE_THE_TABLE[..], &IN_THE_MESSAGE].concat();
    with_faults(&right, &faults, |octets, number| {
        assert_eq!(read_request(octets).err(), number, "{octets:02x?}");
    });
}

#[test]
fn order_of_refusals_of_the_acknowledgement_reader() {
    for status in [0x00, 0x21, 0xff] {
        let right = Parts::new(0x0421, 0xc5, 0x7e, status, &[]);
        let faults = [&BEFORE_THE_TABLE[..], &LAST].concat();
        with_faults(&right, &faults, |octets, number| {
            assert_eq!(read_acknowledgement(octets).err(), number, "{octets:02x?}");
        });
    }
}

/// The same for the expected counter and for the one behind.
#[test]
fn order_of_refusals_in_receiving() {
    for (expected, counter) in [(0, 0), (0, 255), (7, 7), (7, 6), (255, 255), (255, 254)] {
        let right = Parts::new(0x0420, OPEN, counter, 0x00, &MESSAGE);
        let faults = [&BEFORE_THE_TABLE[..], &BY_THE_TABLE].concat();
        with_faults(&right, &faults, |octets, number| {
            let answer = receive(&mut table(expected, 9), octets);
            assert_eq!(answer.err(), number, "{octets:02x?}");
        });
        let faults = [&BY_THE_TABLE[..], &IN_THE_MESSAGE].concat();
        with_faults(&right, &faults, |octets, number| {
            let answer = receive(&mut table(expected, 9), octets);
            assert_eq!(answer.err(), number, "{octets:02x?}");
        });
    }
}

/// "receiving a request, 13 (room below 10) first", whatever arrives.
#[test]
fn room_below_10_in_receiving() {
    let right = Parts::new(0x0420, OPEN, 7, 0x00, &MESSAGE);
    let faults = [&BEFORE_THE_TABLE[..], &BY_THE_TABLE].concat();
    with_faults(&right, &faults, |octets, _| {
        for size in 0..10 {
            let mut table = table(7, 9);
            let before = table;
            let mut room = [UNTOUCHED; 9];
            assert_eq!(table.receive(octets, &mut room[..size]), Err(13));
            assert_eq!((table, room), (before, [UNTOUCHED; 9]));
        }
    });
}

/// An acknowledgement is 10 octets, and so is the room that it takes.
#[test]
fn room_of_10_in_receiving() {
    for counter in [6, 7] {
        let mut room = [UNTOUCHED; 10];
        let octets = request(OPEN, counter, &MESSAGE);
        assert!(table(7, 9).receive(&octets, &mut room).is_ok());
        assert_eq!(room[..], acknowledgement(OPEN, counter, 0x00));
    }
}

/// The status has no place in the order: another one is no refusal.
#[test]
fn order_of_refusals_of_acknowledgements() {
    for status in [0x00, 0x21, 0xff] {
        for counter in [0, 9, 255] {
            let right = Parts::new(0x0421, OPEN, counter, status, &[]);
            let faults = [&BEFORE_THE_TABLE[..], &BY_THE_TABLE, &LAST].concat();
            with_faults(&right, &faults, |octets, number| {
                let answer = confirm(&mut table(7, counter), octets);
                assert_eq!(answer, number.map_or(Ok(status == 0x00), Err));
            });
        }
    }
}

/// "Sending checks 14, 20, 13".
#[test]
fn order_of_refusals_in_sending() {
    let table = table(7, 9);
    let wrong = Given { count: 8, ..GIVEN };
    for (given, channel, size, expected) in [
        (wrong, OPEN - 1, 23, Err(14)),
        (wrong, OPEN - 1, 24, Err(14)),
        (wrong, OPEN, 23, Err(14)),
        (wrong, OPEN, 24, Err(14)),
        (GIVEN, OPEN - 1, 23, Err(20)),
        (GIVEN, OPEN - 1, 24, Err(20)),
        (GIVEN, OPEN, 23, Err(13)),
        (GIVEN, OPEN, 24, Ok(24)),
    ] {
        let mut room = vec![UNTOUCHED; size];
        let answer = table.send(channel, 0x11, 0, &given, &PAYLOAD, &mut room);
        assert_eq!(answer, expected);
        if expected.is_err() {
            assert!(room.iter().all(|&octet| octet == UNTOUCHED));
        }
    }
}

/// A service of the header that is tunnelling's, but not the one wanted by the call.
#[test]
fn each_call_wants_its_own_service() {
    let mut table = Table::with_open(&[1]);
    assert_eq!(read_request(&ACKNOWLEDGEMENT_OF_001), Err(11));
    assert_eq!(read_acknowledgement(&REQUEST_OF_001), Err(11));
    assert_eq!(receive(&mut table, &ACKNOWLEDGEMENT_OF_001), Err(11));
    assert_eq!(confirm(&mut table, &REQUEST_OF_001), Err(11));
    assert_eq!(crate::routing::read(&REQUEST_OF_001), Err(11));
}

/// 19, 20 and 21 come "before cEMI's", also where there is no message.
#[test]
fn request_of_10_octets() {
    let mut fresh = table(7, 9);
    let mut parts = Parts::new(0x0420, OPEN, 7, 0x00, &[]);
    assert_eq!(receive(&mut fresh, &parts.octets()), Err(1));
    parts.counter = 6;
    assert_eq!(receive(&mut fresh, &parts.octets()), Err(1));
    parts.counter = 5;
    assert_eq!(receive(&mut fresh, &parts.octets()), Err(21));
    parts.channel = OPEN + 1;
    assert_eq!(receive(&mut fresh, &parts.octets()), Err(20));
    parts.first = 0x00;
    assert_eq!(receive(&mut fresh, &parts.octets()), Err(19));
}

// The two services on the wire.

#[test]
fn request_of_001_is_read() {
    let request = read_request(&REQUEST_OF_001).unwrap();
    assert_eq!((request.channel, request.counter), (1, 0));
    let meaning = Meaning {
        format: Format::Standard,
        first_sending: true,
        priority: 0b11,
        source: 0x0000,
        group: true,
        destination: 0x1234,
        count: 4,
    };
    assert_eq!(request.frame.code, Code::Request);
    assert!(!request.frame.error_mark);
    assert_eq!(request.frame.meaning, meaning);
    assert_eq!(request.frame.information, []);
    assert_eq!(request.frame.payload, PAYLOAD);
}

#[test]
fn datagrams_of_001_are_written() {
    let request = written(|room| write_request(1, 0, 0x11, 0, &GIVEN, &PAYLOAD, room));
    assert_eq!(request.unwrap(), REQUEST_OF_001);
    let acknowledgement = written(|room| write_acknowledgement(1, 0, 0x00, room));
    assert_eq!(acknowledgement.unwrap(), ACKNOWLEDGEMENT_OF_001);
}

/// On the wire every channel and counter will do; the table decides about them.
#[test]
fn every_channel_and_counter() {
    for channel in 0..=255 {
        for counter in 0..=255 {
            let octets = request(channel, counter, &MESSAGE);
            let read = read_request(&octets).unwrap();
            assert_eq!((read.channel, read.counter), (channel, counter));
            let again =
                written(|room| write_request(channel, counter, 0x11, 0, &GIVEN, &PAYLOAD, room));
            assert_eq!(again, Ok(octets));
        }
    }
}

#[test]
fn every_acknowledgement() {
    for channel in [0, 1, 4, 5, 255] {
        for counter in 0..=255 {
            for status in 0..=255 {
                let octets = acknowledgement(channel, counter, status);
                let expected = Acknowledgement {
                    channel,
                    counter,
                    status,
                };
                assert_eq!(read_acknowledgement(&octets), Ok(expected));
                let again = written(|room| write_acknowledgement(channel, counter, status, room));
                assert_eq!(again, Ok(octets));
            }
        }
    }
}

#[test]
fn room_below_an_acknowledgement() {
    let mut room = [UNTOUCHED; 9];
    for size in 0..10 {
        let answer = write_acknowledgement(1, 0, 0x00, &mut room[..size]);
        assert_eq!(answer, Err(13));
    }
    assert_eq!(room, [UNTOUCHED; 9]);
    let mut room = [UNTOUCHED; 10];
    assert_eq!(write_acknowledgement(1, 0, 0x00, &mut room), Ok(10));
    assert_eq!(room, ACKNOWLEDGEMENT_OF_001);
}

/// "The octet 00h isn't read."
#[test]
fn octet_behind_the_counter_of_a_request() {
    let right = request(OPEN, 7, &MESSAGE);
    let expected = read_request(&right).unwrap();
    for octet in 0..=255 {
        let octets = Parts::new(0x0420, OPEN, 7, octet, &MESSAGE).octets();
        assert_eq!(read_request(&octets), Ok(expected));
        let answer = receive(&mut table(7, 9), &octets);
        assert_eq!(answer, Ok(Some(expected.frame)));
        assert_eq!(receive(&mut table(8, 9), &octets), Ok(None));
    }
}

/// "all three message codes are read", and any other is 7; so they are in sending, where any other
/// is 14.
#[test]
fn message_codes() {
    for code in 0..=255 {
        let mut message = MESSAGE;
        message[0] = code;
        let octets = request(OPEN, 9, &message);
        let is_read = [0x11, 0x2e, 0x29].contains(&code);
        let refusal = |number| (!is_read).then_some(number);
        assert_eq!(read_request(&octets).err(), refusal(7));
        assert_eq!(receive(&mut table(9, 9), &octets).err(), refusal(7));
        assert_eq!(receive(&mut table(10, 9), &octets).err(), refusal(7));
        let sent = written(|room| table(7, 9).send(OPEN, code, 0, &GIVEN, &PAYLOAD, room));
        assert_eq!(sent, refusal(14).map_or(Ok(octets), Err));
    }
}

#[test]
fn error_mark_of_a_confirmation() {
    for (code, mark, expected) in [
        (0x2e, 0, Ok(false)),
        (0x2e, 1, Ok(true)),
        (0x2e, 2, Err(14)),
        (0x11, 1, Err(14)),
        (0x29, 1, Err(14)),
    ] {
        let on_the_wire =
            written(|room| write_request(OPEN, 9, code, mark, &GIVEN, &PAYLOAD, room));
        let sent = written(|room| table(7, 9).send(OPEN, code, mark, &GIVEN, &PAYLOAD, room));
        assert_eq!(sent, on_the_wire);
        let read = sent.map(|octets| read_request(&octets).unwrap().frame.error_mark);
        assert_eq!(read, expected);
    }
}

/// "The payload is handed out as the very octets received, not copied; additional information
/// likewise."
#[test]
fn payload_and_information_are_parts_of_the_datagram() {
    let message = [&[0x29, 0x02, 0xaa, 0xbb], &MESSAGE[2..]].concat();
    let octets = request(OPEN, 7, &message);
    let read = read_request(&octets).unwrap().frame;
    let delivered = receive(&mut table(7, 9), &octets).unwrap().unwrap();
    for frame in [read, delivered] {
        assert!(std::ptr::eq(frame.information, &octets[12..14]));
        assert!(std::ptr::eq(frame.payload, &octets[21..]));
    }
}

/// 20 + LG octets, and "13, exactly when the room is below the written size; octets behind it
/// stay".
#[test]
fn sizes_of_requests() {
    let octets: Vec<u8> = (0..=255).collect();
    for (extended, most) in [(0, 16), (1, 255)] {
        let given = Given { extended, ..GIVEN };
        for length in 1..=most {
            let payload = &octets[..length];
            let size = 19 + length;
            let mut room = vec![UNTOUCHED; size + 2];
            let answer = table(7, 9).send(OPEN, 0x29, 0, &given, payload, &mut room[..size - 1]);
            assert_eq!(answer, Err(13));
            assert!(room.iter().all(|&octet| octet == UNTOUCHED));
            let answer = table(7, 9).send(OPEN, 0x29, 0, &given, payload, &mut room[..size]);
            assert_eq!(answer, Ok(size));
            assert_eq!(room[4..6], (size as u16).to_be_bytes());
            assert_eq!(room[size..], [UNTOUCHED; 2]);
            let read = read_request(&room[..size]).unwrap();
            assert_eq!((read.channel, read.counter), (OPEN, 9));
            assert_eq!(read.frame.payload, payload);
            let on_the_wire =
                written(|room| write_request(OPEN, 9, 0x29, 0, &given, payload, room));
            assert_eq!(room[..size], on_the_wire.unwrap());
        }
    }
}

/// "a number given by the caller is outside its range", whatever the room.
#[test]
fn numbers_outside_their_ranges() {
    let wrong: [fn(&mut Given); 5] = [
        |given| given.extended = 2,
        |given| given.first_sending = 2,
        |given| given.priority = 4,
        |given| given.group = 2,
        |given| given.count = 8,
    ];
    for size in [0, 23, 24, 300] {
        let mut room = vec![UNTOUCHED; size];
        let room = &mut room[..];
        for spoil in wrong {
            let mut given = GIVEN;
            spoil(&mut given);
            let on_the_wire = write_request(1, 0, 0x11, 0, &given, &PAYLOAD, room);
            let sent = table(7, 9).send(OPEN, 0x11, 0, &given, &PAYLOAD, room);
            assert_eq!((on_the_wire, sent), (Err(14), Err(14)));
        }
        for (extended, length) in [(0, 0), (0, 17), (1, 0), (1, 256)] {
            let given = Given { extended, ..GIVEN };
            let payload = vec![0; length];
            let on_the_wire = write_request(1, 0, 0x11, 0, &given, &payload, room);
            let sent = table(7, 9).send(OPEN, 0x11, 0, &given, &payload, room);
            assert_eq!((on_the_wire, sent), (Err(14), Err(14)));
        }
        assert!(room.iter().all(|&octet| octet == UNTOUCHED));
    }
}

// The table of channels.

#[test]
fn caller_names_the_open_channels() {
    for named in [&[][..], &[1], &[2, 4], &[4, 2, 2], &[1, 2, 3, 4]] {
        let table = Table::with_open(named);
        for (number, channel) in (1..).zip(table.channels) {
            assert_eq!(channel.open, named.contains(&number));
            assert_eq!((channel.receive, channel.send), (0, 0));
        }
        let beyond = CHANNELS as u8 + 1;
        let others = [named, &[0, beyond, 255]].concat();
        assert_eq!(Table::with_open(&others), table);
    }
}

/// "20 channel not open, whatever its number"
#[test]
fn only_open_channels_are_served() {
    for open in 1..=CHANNELS as u8 {
        for number in 0..=255 {
            let mut table = Table::with_open(&[open]);
            let expected = (number != open).then_some(20);
            let octets = request(number, 0, &MESSAGE);
            assert_eq!(receive(&mut table, &octets).err(), expected);
            assert_eq!(sent(&table, number).err(), expected);
            let octets = acknowledgement(number, 0, 0x00);
            assert_eq!(confirm(&mut table, &octets).err(), expected);
        }
    }
}

/// Every request counter at every receive counter: "The expected counter is acknowledged, delivered
/// and raised by one"; "A request one behind the expected counter is acknowledged again and not
/// delivered"; "Any other is refused (21), without acknowledgement."
#[test]
fn every_counter_of_a_request() {
    for expected in 0..=255 {
        for counter in 0..=255 {
            let octets = request(OPEN, counter, &MESSAGE);
            let frame = read_request(&octets).unwrap().frame;
            let answer = match counter {
                _ if counter == expected => Ok(Some(frame)),
                _ if raised(counter) == expected => Ok(None),
                _ => Err(21),
            };
            let mut table = table(expected, 9);
            assert_eq!(receive(&mut table, &octets), answer, "{counter}");
        }
    }
}

/// Every counter of an acknowledgement at every send counter.
#[test]
fn every_counter_of_an_acknowledgement() {
    for send in 0..=255 {
        for counter in 0..=255 {
            let octets = acknowledgement(OPEN, counter, 0x00);
            let answer = match counter {
                _ if counter == send => Ok(true),
                _ => Err(21),
            };
            assert_eq!(confirm(&mut table(7, send), &octets), answer, "{counter}");
        }
    }
}

/// Twice round: "255 going to 0".
#[test]
fn receive_counter_goes_round() {
    let mut table = Table::with_open(&[OPEN]);
    for number in 0..600 {
        let counter = (number % 256) as u8;
        assert_eq!(open_channel(&table).receive, counter);
        let octets = request(OPEN, counter, &MESSAGE);
        assert!(receive(&mut table, &octets).unwrap().is_some());
        for _ in 0..3 {
            assert_eq!(receive(&mut table, &octets), Ok(None));
        }
    }
}

#[test]
fn send_counter_goes_round() {
    let mut table = Table::with_open(&[OPEN]);
    for number in 0..600 {
        let counter = (number % 256) as u8;
        assert_eq!(sent(&table, OPEN), Ok(request(OPEN, counter, &MESSAGE)));
        let octets = acknowledgement(OPEN, counter, 0x00);
        assert_eq!(confirm(&mut table, &octets), Ok(true));
        assert_eq!(confirm(&mut table, &octets), Err(21));
    }
}

/// "also 255 on a fresh channel"; `receive` sees 255 in the acknowledgement.
#[test]
fn counter_255_on_a_fresh_channel() {
    let mut table = Table::with_open(&[OPEN]);
    let behind = request(OPEN, 255, &MESSAGE);
    assert_eq!(receive(&mut table, &behind), Ok(None));
    assert_eq!(receive(&mut table, &behind), Ok(None));
    assert_eq!(receive(&mut table, &request(OPEN, 254, &MESSAGE)), Err(21));
    let expected = request(OPEN, 0, &MESSAGE);
    assert!(receive(&mut table, &expected).unwrap().is_some());
    assert_eq!(receive(&mut table, &behind), Err(21));
}

/// The one behind may be another message than the one that was delivered.
#[test]
fn one_behind_is_not_compared_with_the_one_delivered() {
    let mut table = table(7, 9);
    let octets = request(OPEN, 7, &MESSAGE);
    assert!(receive(&mut table, &octets).unwrap().is_some());
    let mut other = MESSAGE;
    other[0] = 0x29;
    other[13] = 0x00;
    assert_eq!(receive(&mut table, &request(OPEN, 7, &other)), Ok(None));
}

/// cEMI's refusals are "read for the one behind too". A refused request is not acknowledged, and
/// the counter expected stays.
#[test]
fn damaged_requests() {
    for (number, spoil) in IN_THE_MESSAGE {
        let mut table = table(7, 9);
        for counter in [7, 6] {
            let mut parts = Parts::new(0x0420, OPEN, counter, 0x00, &MESSAGE);
            spoil(&mut parts);
            assert_eq!(receive(&mut table, &parts.octets()), Err(number));
            assert_eq!(open_channel(&table).receive, 7);
        }
        assert_eq!(receive(&mut table, &request(OPEN, 6, &MESSAGE)), Ok(None));
        let octets = request(OPEN, 7, &MESSAGE);
        assert!(receive(&mut table, &octets).unwrap().is_some());
    }
}

/// "A request goes out with the send counter; an acknowledgement of that counter with status 00h
/// raises it".
#[test]
fn sending_twice_gives_the_same_counter() {
    let mut table = table(7, 9);
    assert_eq!(sent(&table, OPEN), Ok(request(OPEN, 9, &MESSAGE)));
    assert_eq!(sent(&table, OPEN), Ok(request(OPEN, 9, &MESSAGE)));
    let octets = acknowledgement(OPEN, 9, 0x00);
    assert_eq!(confirm(&mut table, &octets), Ok(true));
    assert_eq!(sent(&table, OPEN), Ok(request(OPEN, 10, &MESSAGE)));
}

/// A plain table of counters does not know whether something was sent.
#[test]
fn acknowledgement_of_nothing_sent() {
    let mut table = Table::with_open(&[OPEN]);
    for counter in [0, 1, 2] {
        let octets = acknowledgement(OPEN, counter, 0x00);
        assert_eq!(confirm(&mut table, &octets), Ok(true));
    }
    assert_eq!(sent(&table, OPEN), Ok(request(OPEN, 3, &MESSAGE)));
}

/// "with another status changes nothing, and one of another counter is 21", whatever its status.
#[test]
fn every_status_of_an_acknowledgement() {
    for status in 0..=255 {
        let octets = acknowledgement(OPEN, 9, status);
        assert_eq!(confirm(&mut table(7, 9), &octets), Ok(status == 0x00));
        for counter in [8, 10] {
            let octets = acknowledgement(OPEN, counter, status);
            assert_eq!(confirm(&mut table(7, 9), &octets), Err(21));
        }
    }
}

/// "5 comes last"
#[test]
fn acknowledgement_of_11_octets() {
    for status in [0x00, 0x29] {
        let right = Parts::new(0x0421, OPEN, 9, status, &[0x00]).octets();
        let wrong = Parts::new(0x0421, OPEN, 8, status, &[0x00]).octets();
        assert_eq!(right.len(), 11);
        assert_eq!(confirm(&mut table(7, 9), &right), Err(5));
        assert_eq!(confirm(&mut table(7, 9), &wrong), Err(21));
    }
}

/// Receiving and sending on one channel, and the channels among each other, have counters of their
/// own.
#[test]
fn counters_do_not_disturb_each_other() {
    let numbers: Vec<u8> = (1..=CHANNELS as u8).collect();
    let mut table = Table::with_open(&numbers);
    for &number in &numbers {
        for counter in 0..number {
            let octets = request(number, counter, &MESSAGE);
            assert!(receive(&mut table, &octets).unwrap().is_some());
        }
        for counter in 0..2 * number {
            let octets = acknowledgement(number, counter, 0x00);
            assert_eq!(confirm(&mut table, &octets), Ok(true));
        }
    }
    for (number, channel) in (1..).zip(table.channels) {
        assert_eq!((channel.receive, channel.send), (number, 2 * number));
    }
}
