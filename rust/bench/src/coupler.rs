//! Rows for one coupler step: a group frame forwarded, and stopped by the filter table; and marked
//! repeated, stopped as a repetition, and forwarded since it differs from the frame remembered.

use crate::inputs::{given, payload};
use crate::measure::{is_told, row};
use klumdray::coupler::{MEMORY_SIZE, SETTINGS_SIZE};
use klumdray::raw::Setting;
use reference::coupler::{Acknowledgement, Coupler, Memory, Outcome, ROOM_SIZE, TABLE_SIZE};
use reference::Given;
use std::hint::black_box;

/// Frames of 9, 23 and 263 octets on TP1: format, and octets of payload.
const FRAMES: [(u8, usize); 3] = [(0, 2), (0, 16), (1, 255)];

/// The receiving side, and the medium of the main side.
const WAYS: [(&str, [u8; 2]); 3] = [
    ("TP1 to TP1", [0, 0]),
    ("IP to TP1", FROM_IP),
    ("TP1 to IP", [1, 1]),
];
const FROM_IP: [u8; 2] = [0, 1];

/// Open, and groups by the filter table.
const CODES: [[u8; 4]; 2] = [[2, 2, 1, 1]; 2];

/// Filter tables with every group and with none.
const ALL: [u8; TABLE_SIZE] = [0xff; TABLE_SIZE];
const NONE: [u8; TABLE_SIZE] = [0x00; TABLE_SIZE];

fn coupler(table: &[u8]) -> Coupler<'_> {
    Coupler {
        line: 0x11,
        codes: CODES,
        table,
    }
}

#[inline(never)]
fn reference_step(
    coupler: &Coupler<'_>,
    side: u8,
    medium: u8,
    memory: &mut Memory,
    octets: &[u8],
    room: &mut [u8],
) -> Outcome {
    reference::coupler::step(coupler, side, medium, memory, octets, room)
}

/// The frame as it is received.
fn received(way: [u8; 2], given: &Given, payload: &[u8]) -> Vec<u8> {
    let mut room = vec![0; ROOM_SIZE];
    let written = match way {
        FROM_IP => reference::routing::write(0x29, 0, given, payload, &mut room),
        _ => reference::tp1::write(given, payload, &mut room),
    };
    room.truncate(written.expect("a valid frame"));
    room
}

pub fn rows() {
    for (name, way) in WAYS {
        for (extended, length) in FRAMES {
            let name = format!("{name}, {} octets", length + 7 + usize::from(extended));
            let (given, payload) = (given(extended), payload(length));
            let first = received(way, &given, &payload);
            first_sending_rows(&name, way, &first);
            // "IP has neither memory nor acknowledgement."
            if way != FROM_IP {
                repeated_rows(&name, way, &first, given, payload);
            }
        }
    }
}

fn first_sending_rows(name: &str, way: [u8; 2], first: &[u8]) {
    for (outcome, table) in [("forwarded", &ALL), ("stopped", &NONE)] {
        let name = format!("{name}, {outcome}");
        step_row(&name, &coupler(table), way, first, || first);
    }
}

/// The frame remembered once more; and two frames that differ in the last bit of their payload, in
/// turns, so that each finds the other remembered.
fn repeated_rows(name: &str, way: [u8; 2], first: &[u8], given: Given, mut payload: Vec<u8>) {
    let given = Given {
        first_sending: 0,
        ..given
    };
    let (same, last) = (received(way, &given, &payload), payload.len() - 1);
    payload[last] ^= 1;
    let other = received(way, &given, &payload);
    let coupler = coupler(&ALL);
    let (repetition, differing) = (format!("{name}, repetition"), format!("{name}, differing"));
    step_row(&repetition, &coupler, way, first, || &same);
    let (turns, mut turn) = ([&same[..], &other[..]], 0);
    let next = move || {
        turn = 1 - turn;
        turns[turn]
    };
    step_row(&differing, &coupler, way, first, next);
}

/// Times steps with one frame after the other, the first sending being remembered at the start.
fn step_row<'a>(
    name: &str,
    coupler: &Coupler<'_>,
    way: [u8; 2],
    first: &[u8],
    next: impl FnMut() -> &'a [u8] + Clone,
) {
    let [side, medium] = way;
    let setting = Setting {
        settings: &settings(coupler, medium),
        table: coupler.table,
        side: side.into(),
    };
    let (mut block, mut memory) = remembered(&setting, coupler, way, first);
    let (mut proved_room, mut reference_room) = ([0; ROOM_SIZE], [0; ROOM_SIZE]);
    let (mut proved_next, mut reference_next) = (next.clone(), next);
    row(
        name,
        || {
            let (memory, room) = (black_box(&mut block), black_box(&mut proved_room));
            klumdray::raw::step(black_box(&setting), memory, black_box(proved_next()), room)
        },
        || {
            let (memory, room) = (black_box(&mut memory), black_box(&mut reference_room));
            let octets = black_box(reference_next());
            reference_step(black_box(coupler), side, medium, memory, octets, room)
        },
    );
    if is_told() {
        return;
    }
    let answer = klumdray::raw::step(&setting, &mut block, proved_next(), &mut proved_room);
    let (octets, room) = (reference_next(), &mut reference_room);
    let outcome = reference_step(coupler, side, medium, &mut memory, octets, room);
    check(name, answer, outcome);
    assert_eq!(proved_room != [0; ROOM_SIZE], is_forwarded(name));
    assert_eq!(proved_room, reference_room);
}

/// The settings as the library is lent them.
fn settings(coupler: &Coupler<'_>, medium: u8) -> [u8; SETTINGS_SIZE] {
    let [[d0, d1, d2, d3], [u0, u1, u2, u3]] = coupler.codes;
    [coupler.line, d0, d1, d2, d3, u0, u1, u2, u3, medium]
}

/// What both remember of a first sending.
fn remembered(
    setting: &Setting<'_>,
    coupler: &Coupler<'_>,
    [side, medium]: [u8; 2],
    first: &[u8],
) -> ([u8; MEMORY_SIZE], Memory) {
    let (mut block, mut memory) = ([0; MEMORY_SIZE], Memory::default());
    let mut room = [0; ROOM_SIZE];
    klumdray::raw::step(setting, &mut block, first, &mut room);
    reference_step(coupler, side, medium, &mut memory, first, &mut room);
    (block, memory)
}

fn is_forwarded(name: &str) -> bool {
    name.ends_with("forwarded") || name.ends_with("differing")
}

/// What was timed is what the row says: one step more is accepted, and acknowledged and forwarded
/// or not.
fn check(name: &str, answer: u64, outcome: Outcome) {
    let is_acknowledged = !name.starts_with("IP") && !name.ends_with("stopped");
    let said = Outcome {
        number: 0,
        acknowledgement: is_acknowledged.then_some(Acknowledgement::Acknowledged),
        own: false,
        ..outcome
    };
    assert_eq!(outcome, said);
    assert_eq!(outcome.forwarded > 0, is_forwarded(name));
    let acknowledgement = u64::from(is_acknowledged) * 0xcc;
    let forwarded = outcome.forwarded as u64;
    assert_eq!(answer, forwarded << 32 | acknowledgement << 8);
}
