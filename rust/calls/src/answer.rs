//! The reference's answers, as the numbers and blocks of octets that include/klumdray.h documents.

use crate::call::{Call, Function};
use packed::packed_why;
use packed::{packed_code, packed_message, packed_outcome, packed_size, packed_tp1, packed_trace};
use reference::coupler::{self, Coupler, Memory, Outcome, Remembered};
use reference::refusal::RANGE;
use reference::site::Site;
use reference::tracer::{self, Query, Stop};
use reference::{cemi, routing, tp1, Given};

pub mod leak;
mod packed;
pub mod tunnelling;

pub const SETTINGS_SIZE: usize = 10;
pub const MEMORY_SIZE: usize = 530;
const PART_SIZE: usize = MEMORY_SIZE / 2;

/// An answer as a caller widens it to 64 bits, and every room as the call leaves it.
#[derive(Clone, Debug)]
pub struct Answer {
    pub number: u64,
    pub rooms: Vec<Vec<u8>>,
}

impl Answer {
    pub fn of(call: &Call) -> Answer {
        let (numbers, mut rooms) = (call.numbers(), call.rooms());
        let slices = call.slices();
        let slices: Vec<&[u8]> = slices.iter().map(|slice| slice.as_ref()).collect();
        let number = match call.function {
            Function::FloatWrite => packed_code(reference::leak::write(call.signed())),
            function @ (Function::FloatValue
            | Function::FloatRead
            | Function::Increment
            | Function::TotalAdd
            | Function::Take) => leak::number(function, &numbers, &slices, &mut rooms),
            function => number(function, &numbers, &slices, &mut rooms),
        };
        Answer { number, rooms }
    }
}

fn number(function: Function, numbers: &[u32], slices: &[&[u8]], rooms: &mut [Vec<u8>]) -> u64 {
    match (function, numbers, slices, rooms) {
        (Function::CheckOctet, [], &[octets], []) => reference::check_octet(octets).into(),
        (Function::Tp1Read, [], &[octets], []) => packed_tp1(tp1::read(octets)),
        (Function::CemiRead, [], &[octets], []) => packed_message(cemi::read(octets)),
        (Function::RoutingRead, [], &[octets], []) => packed_message(routing::read(octets)),
        (Function::Tp1Write, numbers, &[payload], [room]) => {
            packed_size(given(numbers).and_then(|given| tp1::write(&given, payload, room)))
        }
        (Function::CemiWrite, &[code, mark, ref numbers @ ..], &[payload], [room]) => {
            let (code, mark) = (octet(code), octet(mark));
            let write = |given| cemi::write(code, mark, &given, payload, room);
            packed_size(given(numbers).and_then(write))
        }
        (Function::RoutingWrite, &[code, mark, ref numbers @ ..], &[payload], [room]) => {
            let (code, mark) = (octet(code), octet(mark));
            let write = |given| routing::write(code, mark, &given, payload, room);
            packed_size(given(numbers).and_then(write))
        }
        (Function::Step, &[side], &[settings, table, octets], [memory, room]) => {
            let outcome = step(settings, table, octet(side), memory, octets, room);
            packed_outcome(outcome.unwrap_or_else(Outcome::refused))
        }
        (Function::Trace, numbers, &[records, project, own], [room]) => {
            let site = Site {
                records,
                project,
                own,
            };
            packed_trace(query(numbers).and_then(|query| tracer::trace(&query, &site, room)))
        }
        (Function::Why, &[ref numbers @ .., line], &[records, project, own], []) => {
            let site = Site {
                records,
                project,
                own,
            };
            packed_why(why(numbers, &site, line)).into()
        }
        (function, numbers, slices, rooms) => tunnelling::number(function, numbers, slices, rooms),
    }
}

/// A number as the reference takes it, where 255 is outside its range: so is every larger one.
fn octet(number: u32) -> u8 {
    number.min(255) as u8
}

/// A number whose range is all that an octet has: a line, or what stands so in a datagram.
fn whole_octet(number: u32) -> Result<u8, u8> {
    u8::try_from(number).map_err(|_| RANGE)
}

/// An address, whose range is all that two octets have.
fn address(number: u32) -> Result<u16, u8> {
    u16::try_from(number).map_err(|_| RANGE)
}

fn given(numbers: &[u32]) -> Result<Given, u8> {
    let &[extended, first_sending, priority, source, group, destination, count] = numbers else {
        panic!("{} numbers of a frame", numbers.len());
    };
    Ok(Given {
        extended: octet(extended),
        first_sending: octet(first_sending),
        priority: octet(priority),
        source: address(source)?,
        group: octet(group),
        destination: address(destination)?,
        count: octet(count),
    })
}

fn query(numbers: &[u32]) -> Result<Query, u8> {
    let &[start, kind, destination, count] = numbers else {
        panic!("{} numbers of a query", numbers.len());
    };
    Ok(Query {
        start: whole_octet(start)?,
        kind: octet(kind),
        destination: address(destination)?,
        count: octet(count),
    })
}

/// "the line among its numbers": 14 whatever else is wrong.
fn why(numbers: &[u32], site: &Site<'_>, asked: u32) -> Result<Option<Stop>, u8> {
    tracer::why(&query(numbers)?, site, whole_octet(asked)?)
}

/// "settings not 10 or memory not 530 octets long (14)", then the reference's.
fn step(
    settings: &[u8],
    table: &[u8],
    side: u8,
    memory: &mut [u8],
    octets: &[u8],
    room: &mut [u8],
) -> Result<Outcome, u8> {
    let &[line, d0, d1, d2, d3, u0, u1, u2, u3, medium] = settings else {
        return Err(RANGE);
    };
    if memory.len() != MEMORY_SIZE {
        return Err(RANGE);
    }
    let codes = [[d0, d1, d2, d3], [u0, u1, u2, u3]];
    let coupler = Coupler { line, codes, table };
    let before = Memory {
        main: part(&memory[..PART_SIZE]),
        sub: part(&memory[PART_SIZE..]),
    };
    let mut after = before.clone();
    let outcome = coupler::step(&coupler, side, medium, &mut after, octets, room);
    if after.main != before.main {
        put_part(&mut memory[..PART_SIZE], &after.main);
    }
    if after.sub != before.sub {
        put_part(&mut memory[PART_SIZE..], &after.sub);
    }
    Ok(outcome)
}

/// A size from 1 to 7, and octets that are no frame: "a step compares these as they stand".
fn part(octets: &[u8]) -> Remembered {
    let (size, frame) = octets.split_at(2);
    Remembered {
        size: usize::from(u16::from_be_bytes([size[0], size[1]])),
        octets: frame.try_into().expect("the octets of a part"),
    }
}

/// The frame alone: "those behind the frame .. stay".
fn put_part(octets: &mut [u8], remembered: &Remembered) {
    let frame = remembered.frame().expect("a frame that a step remembered");
    octets[..2].copy_from_slice(&(frame.len() as u16).to_be_bytes());
    octets[2..][..frame.len()].copy_from_slice(frame);
}
