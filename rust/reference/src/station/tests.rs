//! What a station counts, and what it leaves.

use super::*;
use crate::coupler::LARGEST_FRAME;
use crate::{check_octet, Given};

const GROUP: u16 = 0x1234;

/// A first sending of the meter's.
const SENT: Given = Given {
    extended: 0,
    first_sending: 1,
    priority: 3,
    source: 0x4712,
    group: 1,
    destination: GROUP,
    count: 6,
};

fn frame(given: &Given, payload: &[u8]) -> Vec<u8> {
    let mut room = [0; LARGEST_FRAME];
    let size = tp1::write(given, payload, &mut room).unwrap();
    room[..size].to_vec()
}

/// A telegram with this increment.
fn increment(given: &Given, code: u16) -> Vec<u8> {
    let [high, low] = code.to_be_bytes();
    frame(given, &[0x00, 0x80, high, low])
}

/// The same frame marked repeated.
fn repeated(frame: &[u8]) -> Vec<u8> {
    let mut octets = frame.to_vec();
    octets[0] &= !0x20;
    mend(&mut octets);
    octets
}

fn mend(octets: &mut [u8]) {
    let (check, before) = octets.split_last_mut().unwrap();
    *check = check_octet(before);
}

/// Takes the frame, and asserts the sentences about total and memory whatever the answer is.
#[track_caller]
fn take(station: &mut Station, octets: &[u8]) -> Result<Taken, u8> {
    let before = station.clone();
    let answer = station.take(octets);
    match answer {
        Ok(taken) => {
            assert_eq!(station.remembered.frame(), Some(octets));
            let added = match taken {
                Taken::Counted(code) => leak::value(code).unwrap().into(),
                _ => 0,
            };
            assert_eq!(station.total, before.total + added);
        }
        Err(_) => assert_eq!(*station, before),
    }
    answer
}

#[test]
fn series_of_increments_is_counted() {
    let mut station = Station::new(GROUP, 500);
    assert_eq!(station.remembered.frame(), None);
    for code in [0x0c1a, 0x87ff, 0x0c1a, 0x0c1a, 0x0001] {
        let octets = increment(&SENT, code);
        assert_eq!(take(&mut station, &octets), Ok(Taken::Counted(code)));
    }
    assert_eq!(station.total, 500 + 2_100 - 1 + 2_100 + 2_100 + 1);
}

#[test]
fn repetitions_are_counted_once() {
    let mut station = Station::new(GROUP, 0);
    let first = increment(&SENT, 0x0c1a);
    let again = repeated(&first);
    assert_eq!(take(&mut station, &first), Ok(Taken::Counted(0x0c1a)));
    for _ in 0..3 {
        assert_eq!(take(&mut station, &again), Ok(Taken::Repetition));
    }
    assert_eq!(take(&mut station, &first), Ok(Taken::Counted(0x0c1a)));
    assert_eq!(station.total, 4_200);
}

/// R-2's meter: the second telegram was damaged on its first sending, and "its repeat came marked
/// repeated".
#[test]
fn increment_whose_first_sending_was_damaged() {
    let mut station = Station::new(GROUP, 0);
    let [one, two] = [0x0c1a, 0x0c1b].map(|code| increment(&SENT, code));
    assert_eq!(take(&mut station, &one), Ok(Taken::Counted(0x0c1a)));
    let mut damaged = two.clone();
    damaged[8] ^= 0x40;
    assert_eq!(take(&mut station, &damaged), Err(6));
    let again = repeated(&two);
    assert_eq!(take(&mut station, &again), Ok(Taken::Counted(0x0c1b)));
    assert_eq!(take(&mut station, &again), Ok(Taken::Repetition));
    assert_eq!(station.total, 2_100 + 2_102);
}

/// Marked repeated, but its first sending was not received: it is counted.
#[test]
fn repeat_of_what_is_not_remembered_is_counted() {
    let again = repeated(&increment(&SENT, 0x0c1a));
    let mut station = Station::new(GROUP, 0);
    assert_eq!(take(&mut station, &again), Ok(Taken::Counted(0x0c1a)));
    assert_eq!(take(&mut station, &again), Ok(Taken::Repetition));
}

/// A frame of another group is remembered too: what comes behind it repeats nothing before it.
#[test]
fn frames_of_other_groups_are_remembered() {
    let (first, mut station) = (increment(&SENT, 0x0c1a), Station::new(GROUP, 0));
    let others = [
        Given {
            destination: GROUP ^ 0x0001,
            ..SENT
        },
        Given {
            destination: GROUP ^ 0x8000,
            ..SENT
        },
        Given {
            destination: 0x0000,
            ..SENT
        },
        Given { group: 0, ..SENT },
    ];
    for other in others {
        assert_eq!(take(&mut station, &first), Ok(Taken::Counted(0x0c1a)));
        let other = increment(&other, 0x0001);
        assert_eq!(take(&mut station, &other), Ok(Taken::AnotherGroup));
        let again = repeated(&other);
        assert_eq!(take(&mut station, &again), Ok(Taken::AnotherGroup));
        let again = repeated(&first);
        assert_eq!(take(&mut station, &again), Ok(Taken::Counted(0x0c1a)));
        assert_eq!(take(&mut station, &again), Ok(Taken::Repetition));
    }
    assert_eq!(station.total, 8 * 2_100);
}

/// Any group address may be the station's, that of broadcasts too.
#[test]
fn station_of_any_group() {
    for group in [0x0000, 0x0001, 0x6fff, 0x7000, 0xffff] {
        let mut station = Station::new(group, 0);
        for (at, expected) in [(1, Taken::Counted(0x0c1a)), (0, Taken::AnotherGroup)] {
            let given = Given {
                group: at,
                destination: group,
                ..SENT
            };
            let octets = increment(&given, 0x0c1a);
            assert_eq!(take(&mut station, &octets), Ok(expected));
        }
    }
}

/// Both formats have increments, and the count and the priority do not matter.
#[test]
fn increments_of_every_shape() {
    let mut station = Station::new(GROUP, 0);
    for shape in 0..64 {
        let given = Given {
            extended: shape / 32,
            count: shape % 8,
            priority: shape / 8 % 4,
            ..SENT
        };
        let octets = increment(&given, 0x0c1a);
        assert_eq!(take(&mut station, &octets), Ok(Taken::Counted(0x0c1a)));
    }
    assert_eq!(station.total, 64 * 2_100);
}

#[test]
fn other_payloads_are_no_increments() {
    let mut station = Station::new(GROUP, 0);
    let long = [0x00, 0x80, 0x0c, 0x1a, 0x00];
    let payloads: [&[u8]; 7] = [
        &[0x00],
        &[0x00, 0x81],
        &[0x00, 0x80, 0x0c],
        &long,
        &[0x00, 0x81, 0x0c, 0x1a],
        &[0x00, 0x40, 0x0c, 0x1a],
        &[0x01, 0x80, 0x0c, 0x1a],
    ];
    for payload in payloads {
        let octets = frame(&SENT, payload);
        assert_eq!(take(&mut station, &octets), Ok(Taken::NoIncrement));
        let again = repeated(&octets);
        assert_eq!(take(&mut station, &again), Ok(Taken::Repetition));
    }
    let longest = frame(
        &Given {
            extended: 1,
            ..SENT
        },
        &[0x80; 255],
    );
    assert_eq!(take(&mut station, &longest), Ok(Taken::NoIncrement));
    assert_eq!(station.total, 0);
}

/// The reader's refusals come first, whatever the frame would be to the station.
#[test]
fn damaged_frames_are_refused_and_not_remembered() {
    let (first, mut station) = (increment(&SENT, 0x0c1a), Station::new(GROUP, 0));
    assert_eq!(take(&mut station, &first), Ok(Taken::Counted(0x0c1a)));
    for place in 0..first.len() {
        let mut damaged = first.clone();
        damaged[place] ^= 0x01;
        let number = tp1::read(&damaged).unwrap_err();
        assert_eq!(take(&mut station, &damaged), Err(number));
        let cut = &first[..place];
        assert_eq!(take(&mut station, cut), Err(1));
    }
    let more = [&first[..], &[0x00]].concat();
    assert_eq!(take(&mut station, &more), Err(5));
    assert_eq!(take(&mut station, &[0xcc]), Err(2));
    let again = repeated(&first);
    assert_eq!(take(&mut station, &again), Ok(Taken::Repetition));
}

/// 23 and 24 leave the memory too: the frame's repeat is refused again, and where the total allows
/// it by then, counted.
#[test]
fn refused_increments_are_not_remembered() {
    let mut station = Station::new(GROUP, i64::MAX - 100);
    let invalid = increment(&SENT, 0x7fff);
    assert_eq!(take(&mut station, &invalid), Err(23));
    assert_eq!(take(&mut station, &repeated(&invalid)), Err(23));
    let past = increment(&SENT, 0x0065);
    assert_eq!(take(&mut station, &past), Err(24));
    assert_eq!(take(&mut station, &repeated(&past)), Err(24));
    assert_eq!(station.remembered.frame(), None);
    station.total -= 1;
    let again = repeated(&past);
    assert_eq!(take(&mut station, &again), Ok(Taken::Counted(0x0065)));
    assert_eq!(station.total, i64::MAX);
}

/// What is no increment of the group is asked nothing more: 7FFFh for another group is no refusal.
#[test]
fn invalid_code_of_another_group_is_not_refused() {
    let mut station = Station::new(GROUP, i64::MAX);
    let other = Given {
        destination: 0x1235,
        ..SENT
    };
    for code in [0x7fff, 0x7ffe] {
        let octets = increment(&other, code);
        assert_eq!(take(&mut station, &octets), Ok(Taken::AnotherGroup));
    }
}
