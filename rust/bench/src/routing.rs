//! Rows for routing datagrams: read, read with payload and information, write.

use crate::inputs::{given, numbers, payload, LARGEST};
use crate::measure::row;
use reference::cemi::Frame;
use reference::Given;
use std::hint::black_box;

const INDICATION: u8 = 0x29;

/// Format and LG.
const FRAMES: [(u8, usize); 3] = [(0, 1), (0, 15), (1, 254)];

#[inline(never)]
fn reference_read(octets: &[u8]) -> Result<Frame<'_>, u8> {
    reference::routing::read(octets)
}

#[inline(never)]
fn reference_write(given: &Given, payload: &[u8], room: &mut [u8]) -> Result<usize, u8> {
    reference::routing::write(INDICATION, 0, given, payload, room)
}

pub fn rows() {
    for (extended, lg) in FRAMES {
        let (given, payload) = (given(extended), payload(lg + 1));
        let mut room = [0; LARGEST];
        let size = reference_write(&given, &payload, &mut room).expect("a valid datagram");
        read_rows(&room[..size], lg);
        write_row(&given, &payload, lg);
    }
}

fn read_rows(octets: &[u8], lg: usize) {
    row(
        &format!("routing read, LG {lg}"),
        || klumdray::raw::routing_read(black_box(octets)),
        || reference_read(black_box(octets)),
    );
    row(
        &format!("routing read and parts, LG {lg}"),
        || {
            let frame = klumdray::routing::read(black_box(octets));
            frame.map(|frame| (frame.payload(), frame.information()))
        },
        || {
            let frame = reference_read(black_box(octets));
            frame.map(|frame| (frame.payload, frame.information))
        },
    );
}

fn write_row(given: &Given, payload: &[u8], lg: usize) {
    let numbers = numbers(given);
    let (mut proved_room, mut reference_room) = ([0; LARGEST], [0; LARGEST]);
    row(
        &format!("routing write, LG {lg}"),
        || {
            let (numbers, payload) = (black_box(&numbers), black_box(payload));
            let room = black_box(&mut proved_room);
            klumdray::raw::routing_write(INDICATION.into(), 0, numbers, payload, room)
        },
        || {
            let room = black_box(&mut reference_room);
            reference_write(black_box(given), black_box(payload), room)
        },
    );
}
