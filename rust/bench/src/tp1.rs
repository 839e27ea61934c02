//! Rows for TP1: read, read with the payload, write, check octet.

use crate::inputs::{given, numbers, payload, LARGEST};
use crate::measure::row;
use reference::Given;
use std::hint::black_box;

/// Frames of 8, 23 and 263 octets: format, and octets of payload.
const FRAMES: [(u8, usize); 3] = [(0, 1), (0, 16), (1, 255)];

#[inline(never)]
fn reference_read(octets: &[u8]) -> Result<reference::tp1::Frame<'_>, u8> {
    reference::tp1::read(octets)
}

#[inline(never)]
fn reference_write(given: &Given, payload: &[u8], room: &mut [u8]) -> Result<usize, u8> {
    reference::tp1::write(given, payload, room)
}

#[inline(never)]
fn reference_check_octet(octets: &[u8]) -> u8 {
    reference::check_octet(octets)
}

pub fn rows() {
    for (extended, length) in FRAMES {
        let (given, payload) = (given(extended), payload(length));
        let mut room = [0; LARGEST];
        let size = reference_write(&given, &payload, &mut room).expect("a valid frame");
        let octets = &room[..size];
        read_rows(octets);
        write_row(&given, &payload, size);
        row(
            &format!("TP1 check octet, {size} octets"),
            || klumdray::raw::check_octet(black_box(octets)),
            || reference_check_octet(black_box(octets)),
        );
    }
}

fn read_rows(octets: &[u8]) {
    let size = octets.len();
    row(
        &format!("TP1 read, {size} octets"),
        || klumdray::raw::tp1_read(black_box(octets)),
        || reference_read(black_box(octets)),
    );
    row(
        &format!("TP1 read and payload, {size} octets"),
        || klumdray::tp1::read(black_box(octets)).map(|frame| frame.payload()),
        || reference_read(black_box(octets)).map(|frame| frame.payload),
    );
}

fn write_row(given: &Given, payload: &[u8], size: usize) {
    let numbers = numbers(given);
    let (mut proved_room, mut reference_room) = ([0; LARGEST], [0; LARGEST]);
    row(
        &format!("TP1 write, {size} octets"),
        || {
            let room = black_box(&mut proved_room);
            klumdray::raw::tp1_write(black_box(&numbers), black_box(payload), room)
        },
        || {
            let room = black_box(&mut reference_room);
            reference_write(black_box(given), black_box(payload), room)
        },
    );
}
