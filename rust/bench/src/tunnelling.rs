//! Rows for a table of channels: a request received, delivered, acknowledged again and refused by
//! 21; a request sent; an acknowledgement that raises the send counter.

use crate::inputs::{given, numbers, payload, LARGEST};
use crate::measure::{is_told, row};
use klumdray::raw;
use reference::cemi::Frame;
use reference::tunnelling::{write_acknowledgement, write_request, Table};
use reference::Given;
use std::hint::black_box;

const INDICATION: u8 = 0x29;
const CHANNEL: u8 = 2;
const ACKNOWLEDGEMENT_SIZE: usize = 10;

/// Format and LG.
const FRAMES: [(u8, usize); 3] = [(0, 4), (0, 15), (1, 254)];

/// What becomes of a request with counter 0, by the counter that is expected.
const OUTCOMES: [(&str, u8); 3] = [("delivered", 0), ("again", 1), ("refused by 21", 2)];

/// A table with all four channels open and fresh, as the library is lent it.
const OPEN: [u8; 12] = [1, 0, 0, 1, 0, 0, 1, 0, 0, 1, 0, 0];

/// The channel's place in the reference's table, and where its counters stand in the block.
const PLACE: usize = CHANNEL as usize - 1;
const RECEIVE_AT: usize = 3 * PLACE + 1;
const SEND_AT: usize = RECEIVE_AT + 1;

fn open() -> Table {
    Table::with_open(&[1, 2, 3, 4])
}

/// So many tables are used in turns, so that each call has the same outcome: a counter is set back
/// half a round after the call that raised it. Set just before the next call, an octet that is at
/// once read together with its neighbours would cost more than the call.
const TURNS: usize = 64;

/// The table of this turn, and the one whose counter is set back.
fn next(turn: &mut usize) -> [usize; 2] {
    *turn = (*turn + 1) % TURNS;
    [*turn, (*turn + TURNS / 2) % TURNS]
}

#[inline(never)]
fn reference_receive<'a>(
    table: &mut Table,
    octets: &'a [u8],
    room: &mut [u8],
) -> Result<Option<Frame<'a>>, u8> {
    table.receive(octets, room)
}

#[inline(never)]
fn reference_send(
    table: &Table,
    given: &Given,
    payload: &[u8],
    room: &mut [u8],
) -> Result<usize, u8> {
    table.send(CHANNEL, INDICATION, 0, given, payload, room)
}

#[inline(never)]
fn reference_confirm(table: &mut Table, octets: &[u8]) -> Result<bool, u8> {
    table.confirm(octets)
}

pub fn rows() {
    for (extended, lg) in FRAMES {
        let (given, payload) = (given(extended), payload(lg + 1));
        let mut room = [0; LARGEST];
        let written = write_request(CHANNEL, 0, INDICATION, 0, &given, &payload, &mut room);
        let size = written.expect("a valid request");
        for (outcome, expected) in OUTCOMES {
            let name = format!("receive, LG {lg}, {outcome}");
            receive_row(&name, expected, &room[..size]);
        }
        send_row(&given, &payload, lg);
    }
    confirm_row();
}

fn receive_row(name: &str, expected: u8, octets: &[u8]) {
    let (mut block, mut table) = (OPEN, open());
    block[RECEIVE_AT] = expected;
    table.channels[PLACE].receive = expected;
    let (mut blocks, mut tables) = ([block; TURNS], [table; TURNS]);
    let (mut proved_turn, mut reference_turn) = (0, 0);
    let (mut proved_room, mut reference_room) =
        ([0; ACKNOWLEDGEMENT_SIZE], [0; ACKNOWLEDGEMENT_SIZE]);
    row(
        name,
        || {
            let [this, raised] = next(&mut proved_turn);
            blocks[raised][RECEIVE_AT] = expected;
            let (channels, room) = (black_box(&mut blocks[this]), black_box(&mut proved_room));
            raw::tunnelling_receive(channels, black_box(octets), room)
        },
        || {
            let [this, raised] = next(&mut reference_turn);
            tables[raised].channels[PLACE].receive = expected;
            let (table, room) = (black_box(&mut tables[this]), black_box(&mut reference_room));
            reference_receive(table, black_box(octets), room)
        },
    );
    if is_told() {
        return;
    }
    // What was timed is what the row says.
    let is_acknowledged = proved_room != [0; ACKNOWLEDGEMENT_SIZE];
    assert_eq!(is_acknowledged, !name.ends_with("refused by 21"));
    let is_raised = blocks[proved_turn][RECEIVE_AT] != expected;
    assert_eq!(is_raised, name.ends_with("delivered"));
    let counter = tables[reference_turn].channels[PLACE].receive;
    assert_eq!(blocks[proved_turn][RECEIVE_AT], counter);
    assert_eq!(proved_room, reference_room);
}

fn send_row(given: &Given, payload: &[u8], lg: usize) {
    let (numbers, table) = (numbers(given), open());
    let (mut proved_room, mut reference_room) = ([0; LARGEST], [0; LARGEST]);
    row(
        &format!("send, LG {lg}"),
        || {
            let (numbers, payload) = (black_box(&numbers), black_box(payload));
            let (channels, room) = (black_box(&OPEN), black_box(&mut proved_room));
            let code = INDICATION.into();
            raw::tunnelling_send(channels, CHANNEL.into(), code, 0, numbers, payload, room)
        },
        || {
            let (given, payload) = (black_box(given), black_box(payload));
            let room = black_box(&mut reference_room);
            reference_send(black_box(&table), given, payload, room)
        },
    );
    if !is_told() {
        assert_eq!(proved_room, reference_room);
    }
}

fn confirm_row() {
    let (mut blocks, mut tables) = ([OPEN; TURNS], [open(); TURNS]);
    let (mut proved_turn, mut reference_turn) = (0, 0);
    let mut octets = [0; ACKNOWLEDGEMENT_SIZE];
    let written = write_acknowledgement(CHANNEL, 0, 0, &mut octets);
    assert_eq!(written, Ok(ACKNOWLEDGEMENT_SIZE));
    row(
        "confirm",
        || {
            let [this, raised] = next(&mut proved_turn);
            blocks[raised][SEND_AT] = 0;
            raw::tunnelling_confirm(black_box(&mut blocks[this]), black_box(&octets))
        },
        || {
            let [this, raised] = next(&mut reference_turn);
            tables[raised].channels[PLACE].send = 0;
            reference_confirm(black_box(&mut tables[this]), black_box(&octets))
        },
    );
    if !is_told() {
        let counter = tables[reference_turn].channels[PLACE].send;
        assert_eq!((blocks[proved_turn][SEND_AT], counter), (1, 1));
    }
}
