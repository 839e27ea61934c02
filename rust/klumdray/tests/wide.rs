//! Numbers with more bits than their ranges have: none is cut on its way, each draws 14, or 20 as a
//! channel to send on, and room, memory, total and table of channels stay as they were.

use klumdray::raw::{self, Numbers, Query, Setting, Site};

/// The bits that are added to a number in its range: the lowest that 8 bits lack, the lowest that 16
/// bits lack, the highest.
const ABOVE_OCTET: &[u32] = &[1 << 8, 1 << 16, 1 << 31];
const ABOVE_ADDRESS: &[u32] = &[1 << 16, 1 << 31];

const NUMBERS: Numbers = Numbers {
    extended: 0,
    first_sending: 1,
    priority: 3,
    source: 0x1101,
    group: 1,
    destination: 0x1234,
    count: 6,
};

const PAYLOAD: [u8; 2] = [0x00, 0x81];
const INDICATION: u32 = 0x29;

/// A number of a structure, by name, and the bits that it lacks.
type Number<T> = (&'static str, fn(&mut T) -> &mut u32, &'static [u32]);

const OF_A_WRITER: [Number<Numbers>; 7] = [
    ("extended", |given| &mut given.extended, ABOVE_OCTET),
    (
        "first_sending",
        |given| &mut given.first_sending,
        ABOVE_OCTET,
    ),
    ("priority", |given| &mut given.priority, ABOVE_OCTET),
    ("source", |given| &mut given.source, ABOVE_ADDRESS),
    ("group", |given| &mut given.group, ABOVE_OCTET),
    ("destination", |given| &mut given.destination, ABOVE_ADDRESS),
    ("count", |given| &mut given.count, ABOVE_OCTET),
];

const OF_A_QUERY: [Number<Query>; 4] = [
    ("start", |query| &mut query.start, ABOVE_OCTET),
    ("kind", |query| &mut query.kind, ABOVE_OCTET),
    ("destination", |query| &mut query.destination, ABOVE_ADDRESS),
    ("count", |query| &mut query.count, ABOVE_OCTET),
];

/// What is valid, with one number at a time too wide.
fn widened<T: Copy>(valid: T, numbers: &[Number<T>]) -> Vec<(String, T)> {
    let mut all = Vec::new();
    for (name, number, above) in numbers {
        for bits in *above {
            let mut given = valid;
            *number(&mut given) |= bits;
            all.push((format!("{name} with {bits:#x}"), given));
        }
    }
    all
}

/// Octets that no call writes by chance.
fn pattern<const N: usize>() -> [u8; N] {
    std::array::from_fn(|place| (place as u8).wrapping_mul(29) ^ 0x5a)
}

/// Asserts that a writer refuses by 14 whatever the room is, and leaves it.
fn assert_refused(what: &str, write: impl Fn(&mut [u8]) -> u64) {
    for lent in [0, 1, 300] {
        let mut room = pattern::<300>();
        assert_eq!(write(&mut room[..lent]), 14, "{what}, room of {lent}");
        assert_eq!(room, pattern(), "{what}, room of {lent}");
    }
}

#[test]
fn every_tp1_writer_number_is_refused_when_too_wide() {
    let mut room = [0; 9];
    assert_eq!(raw::tp1_write(&NUMBERS, &PAYLOAD, &mut room), 9 << 8);
    for (what, numbers) in widened(NUMBERS, &OF_A_WRITER) {
        assert_refused(&what, |room| raw::tp1_write(&numbers, &PAYLOAD, room));
    }
}

type MessageWriter = fn(u32, u32, &Numbers, &[u8], &mut [u8]) -> u64;

fn assert_message_writer_refuses(write: MessageWriter, size: u64) {
    let answer = write(INDICATION, 0, &NUMBERS, &PAYLOAD, &mut [0; 300]);
    assert_eq!(answer, size << 8);
    for (what, numbers) in widened(NUMBERS, &OF_A_WRITER) {
        assert_refused(&what, |room| write(INDICATION, 0, &numbers, &PAYLOAD, room));
    }
    for bits in ABOVE_OCTET {
        assert_refused(&format!("code with {bits:#x}"), |room| {
            write(INDICATION | bits, 0, &NUMBERS, &PAYLOAD, room)
        });
        for (code, mark) in [(INDICATION, 0), (0x2e, 1)] {
            assert_refused(&format!("error mark {mark} with {bits:#x}"), |room| {
                write(code, mark | bits, &NUMBERS, &PAYLOAD, room)
            });
        }
    }
}

#[test]
fn every_cemi_writer_number_is_refused_when_too_wide() {
    assert_message_writer_refuses(raw::cemi_write, 11);
}

#[test]
fn every_routing_writer_number_is_refused_when_too_wide() {
    assert_message_writer_refuses(raw::routing_write, 17);
}

/// Channel 1, with send counter 7, is open.
const CHANNELS: [u8; 12] = [1, 3, 7, 0, 0, 0, 0, 0, 0, 0, 0, 0];

#[test]
fn every_request_writer_number_is_refused_when_too_wide() {
    assert_message_writer_refuses(
        |code, mark, numbers, payload, room| {
            raw::tunnelling_request_write(1, 7, code, mark, numbers, payload, room)
        },
        21,
    );
    for bits in ABOVE_OCTET {
        for (channel, counter) in [(1 | bits, 7), (1, 7 | bits)] {
            let what = format!("channel {channel:#x}, counter {counter:#x}");
            assert_refused(&what, |room| {
                let numbers = &NUMBERS;
                raw::tunnelling_request_write(
                    channel, counter, INDICATION, 0, numbers, &PAYLOAD, room,
                )
            });
        }
    }
}

#[test]
fn every_sender_number_is_refused_when_too_wide() {
    assert_message_writer_refuses(
        |code, mark, numbers, payload, room| {
            raw::tunnelling_send(&CHANNELS, 1, code, mark, numbers, payload, room)
        },
        21,
    );
}

/// A channel has no range: a number that is no channel's is not open, behind 14 and before 13.
#[test]
fn a_channel_that_is_too_wide_is_not_open() {
    let wider = Numbers {
        count: 6 | 1 << 8,
        ..NUMBERS
    };
    for bits in ABOVE_OCTET {
        for lent in [0, 20, 300] {
            let mut room = pattern::<300>();
            let mut send = |numbers| {
                let room = &mut room[..lent];
                raw::tunnelling_send(&CHANNELS, 1 | bits, INDICATION, 0, numbers, &PAYLOAD, room)
            };
            assert_eq!(send(&NUMBERS), 20, "channel with {bits:#x}, room of {lent}");
            assert_eq!(send(&wider), 14, "channel with {bits:#x}, room of {lent}");
            assert_eq!(room, pattern(), "channel with {bits:#x}, room of {lent}");
        }
    }
}

#[test]
fn every_acknowledgement_number_is_refused_when_too_wide() {
    assert_eq!(raw::tunnelling_ack_write(1, 7, 0, &mut [0; 10]), 10 << 8);
    for bits in ABOVE_OCTET {
        for place in 0..3 {
            let mut numbers = [1, 7, 0];
            numbers[place] |= bits;
            let [channel, counter, status] = numbers;
            assert_refused(&format!("{numbers:#x?}"), |room| {
                raw::tunnelling_ack_write(channel, counter, status, room)
            });
        }
    }
}

/// Open both ways.
const SETTINGS: [u8; 10] = [0x11, 2, 2, 2, 2, 2, 2, 2, 2, 0];
const FRAME: [u8; 9] = [0xb0, 0xaf, 0xfe, 0x00, 0x00, 0xe1, 0x01, 0x00, 0xfe];

/// A step's answer, with room and memory checked to be as they were.
fn refused_step(settings: &[u8], side: u32, octets: &[u8], lent_room: usize) -> u64 {
    let setting = Setting {
        settings,
        table: &[],
        side,
    };
    let (mut memory, mut room) = (pattern::<530>(), pattern::<272>());
    let answer = raw::step(&setting, &mut memory, octets, &mut room[..lent_room]);
    assert_eq!(room, pattern(), "side {side:#x}");
    assert_eq!(memory, pattern(), "side {side:#x}");
    answer
}

#[test]
fn a_side_that_is_too_wide_is_refused_in_its_order() {
    let other_line = [&[0], &SETTINGS[1..]].concat();
    let other_code = [&SETTINGS[..1], &[3], &SETTINGS[2..]].concat();
    let no_table = [&SETTINGS[..3], &[1], &SETTINGS[4..]].concat();
    for bits in ABOVE_OCTET {
        for side in [*bits, 1 | bits] {
            assert_eq!(refused_step(&SETTINGS, side, &FRAME, 272), 14, "{side:#x}");
            assert_eq!(
                refused_step(&other_line, side, &FRAME, 272),
                15,
                "{side:#x}"
            );
            assert_eq!(
                refused_step(&other_code, side, &FRAME, 272),
                15,
                "{side:#x}"
            );
            assert_eq!(refused_step(&no_table, side, &FRAME, 272), 18, "{side:#x}");
            assert_eq!(refused_step(&SETTINGS, side, &FRAME, 271), 14, "{side:#x}");
            assert_eq!(refused_step(&SETTINGS, side, &[], 0), 14, "{side:#x}");
        }
    }
}

const QUERY: Query = Query {
    start: 0x47,
    kind: 1,
    destination: 0x1234,
    count: 6,
};

/// A site that draws nothing, and one whose stores, length and records are all wrong.
const SITES: [Site<'static>; 2] = [
    Site {
        records: &[0x43, 0x50, 0x40, 2, 2, 2, 2, 2, 2, 2, 2, 0xff],
        project: &[],
        own: &[],
    },
    Site {
        records: &[0; 13],
        project: &[0],
        own: &[0],
    },
];

#[test]
fn every_trace_number_is_refused_first_when_too_wide() {
    assert_eq!(raw::trace(&QUERY, &SITES[0], &mut [0; 768]), 1 << 8);
    for (what, query) in widened(QUERY, &OF_A_QUERY) {
        for site in &SITES {
            for lent in [0, 767, 768] {
                let mut room = pattern::<768>();
                let answer = raw::trace(&query, site, &mut room[..lent]);
                assert_eq!(answer, 14, "{what}, room of {lent}");
                assert_eq!(room, pattern(), "{what}, room of {lent}");
            }
        }
    }
}

#[test]
fn every_why_number_is_refused_first_when_too_wide() {
    let line = 0x47;
    assert_eq!(raw::why(&QUERY, &SITES[0], line), 0);
    for site in &SITES {
        for (what, query) in widened(QUERY, &OF_A_QUERY) {
            assert_eq!(raw::why(&query, site, line), 14, "{what}");
        }
        for bits in ABOVE_OCTET {
            let answer = raw::why(&QUERY, site, line | bits);
            assert_eq!(answer, 14, "line with {bits:#x}");
        }
    }
}

#[test]
fn a_code_that_is_too_wide_is_refused() {
    assert_eq!(raw::float_value(0x0c1a), 2_100 << 32);
    assert_eq!(raw::total_add(&mut pattern::<8>(), 0x0c1a), 0);
    for bits in ABOVE_ADDRESS {
        // 7FFFh by its low bits, too, which would draw 23.
        for code in [*bits, 0x0c1a | bits, 0x7fff | bits] {
            let mut total = pattern::<8>();
            assert_eq!(raw::float_value(code), 14, "{code:#x}");
            assert_eq!(raw::total_add(&mut total, code), 14, "{code:#x}");
            assert_eq!(total, pattern(), "{code:#x}");
        }
    }
}

/// The writer has a number of 64 bits, so that no bit is too wide, but each counts.
#[test]
fn hundredths_that_are_too_wide_are_refused() {
    assert_eq!(raw::float_write(2_100), 0x0c1a << 16);
    for bit in 27..63 {
        for hundredths in [0, 2_100, -2_100] {
            let above = hundredths + (1 << bit);
            assert_eq!(raw::float_write(above), 14, "{above}");
            let below = hundredths - (1 << bit);
            assert_eq!(raw::float_write(below), 14, "{below}");
        }
    }
}

#[test]
fn a_group_that_is_too_wide_is_refused_first() {
    for bits in ABOVE_ADDRESS {
        for octets in [&FRAME[..], &[]] {
            let (mut total, mut memory) = (pattern::<8>(), pattern::<265>());
            let answer = raw::take(&mut total, &mut memory, *bits, octets);
            assert_eq!(answer, 14, "group {bits:#x}");
            assert_eq!(total, pattern(), "group {bits:#x}");
            assert_eq!(memory, pattern(), "group {bits:#x}");
        }
    }
    let answer = raw::take(&mut [0; 8], &mut [0; 265], 0, &FRAME);
    assert_eq!(answer, 4 << 8);
}
