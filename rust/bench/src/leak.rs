//! Rows for the two-octet float, the total and the station: a code read, numbers written with E 0, 6
//! and 15, an increment added, and a frame taken that is counted, a repetition or of another group.

use crate::inputs::given;
use crate::measure::{is_told, row};
use klumdray::raw;
use klumdray::station::MEMORY_SIZE;
use reference::station::{Station, Taken};
use reference::Given;
use std::hint::black_box;

/// 2,100 hundredths.
const CODE: u16 = 0x0c1a;

/// Numbers of hundredths, and what is written for them.
const NUMBERS: [(&str, i64, u16); 3] = [
    ("small", 21, 0x0015),
    ("middle", 123_457, 0x3789),
    ("largest", 67_043_328, 0x7ffe),
];

const GROUP: u16 = 0x1234;

/// So many totals are used in turns: read just after it was written octet by octet, one would cost
/// more than the call.
const TURNS: usize = 64;

fn next(turn: &mut usize) -> usize {
    *turn = (*turn + 1) % TURNS;
    *turn
}

#[inline(never)]
fn reference_value(code: u16) -> Result<i32, u8> {
    reference::leak::value(code)
}

#[inline(never)]
fn reference_read(octets: &[u8]) -> Result<i32, u8> {
    reference::leak::read(octets)
}

#[inline(never)]
fn reference_write(hundredths: i64) -> Result<u16, u8> {
    reference::leak::write(hundredths)
}

#[inline(never)]
fn reference_add(total: i64, code: u16) -> Result<i64, u8> {
    reference::leak::add(total, code)
}

#[inline(never)]
fn reference_take(station: &mut Station, octets: &[u8]) -> Result<Taken, u8> {
    station.take(octets)
}

pub fn rows() {
    read_rows();
    for (name, hundredths, code) in NUMBERS {
        assert_eq!(reference_write(hundredths), Ok(code));
        row(
            &format!("float write, {name}"),
            || raw::float_write(black_box(hundredths)),
            || reference_write(black_box(hundredths)),
        );
    }
    add_row();
    let first = increment(given(0));
    take_row("take, counted", 1, &first, &first);
    let repeated = Given {
        first_sending: 0,
        ..given(0)
    };
    take_row("take, repetition", 2, &first, &increment(repeated));
    let other = Given {
        destination: GROUP + 1,
        ..given(0)
    };
    take_row("take, another group", 3, &first, &increment(other));
}

fn read_rows() {
    let octets = CODE.to_be_bytes();
    row(
        "float value",
        || raw::float_value(black_box(CODE.into())),
        || reference_value(black_box(CODE)),
    );
    row(
        "float read",
        || raw::float_read(black_box(&octets)),
        || reference_read(black_box(&octets)),
    );
}

fn add_row() {
    let (mut blocks, mut totals) = ([[0; 8]; TURNS], [0; TURNS]);
    let (mut proved_turn, mut reference_turn) = (0, 0);
    row(
        "total, add",
        || {
            let block = &mut blocks[next(&mut proved_turn)];
            raw::total_add(black_box(block), black_box(CODE.into()))
        },
        || {
            let total = &mut totals[next(&mut reference_turn)];
            let sum = reference_add(black_box(*total), black_box(CODE));
            *total = sum.unwrap_or(*total);
            sum
        },
    );
    if is_told() {
        return;
    }
    // What was timed is what the row says.
    for total in blocks.map(i64::from_be_bytes).into_iter().chain(totals) {
        assert!(total > 0 && total % 2_100 == 0);
    }
}

/// A telegram with the increment.
fn increment(given: Given) -> Vec<u8> {
    let [high, low] = CODE.to_be_bytes();
    let mut room = vec![0; 11];
    let written = reference::tp1::write(&given, &[0x00, 0x80, high, low], &mut room);
    assert_eq!(written, Ok(room.len()));
    room
}

/// Times the taking of a frame, the first sending being remembered at the start.
fn take_row(name: &str, kind: u32, first: &[u8], octets: &[u8]) {
    let (mut total, mut memory) = ([0; 8], [0; MEMORY_SIZE]);
    let mut station = Station::new(GROUP, 0);
    raw::take(&mut total, &mut memory, GROUP.into(), first);
    reference_take(&mut station, first).expect("an increment");
    row(
        name,
        || {
            let (total, memory) = (black_box(&mut total), black_box(&mut memory));
            raw::take(total, memory, black_box(GROUP.into()), black_box(octets))
        },
        || reference_take(black_box(&mut station), black_box(octets)),
    );
    if is_told() {
        return;
    }
    let answer = raw::take(&mut total, &mut memory, GROUP.into(), octets);
    let (code, taken) = match kind {
        1 => (CODE, Taken::Counted(CODE)),
        2 => (0, Taken::Repetition),
        _ => (0, Taken::AnotherGroup),
    };
    assert_eq!(answer, u32::from(code) << 16 | kind << 8);
    assert_eq!(reference_take(&mut station, octets), Ok(taken));
}
