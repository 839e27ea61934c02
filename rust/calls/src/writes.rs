//! Calls of the writers: numbers in their ranges and outside, payloads of every length, rooms around
//! the size that is needed.

use crate::call::{Argument, Call, Function, Lent};
use crate::numbers::{self, outside, MOST};
use inputs::Generator;

/// Larger than what is written into it, which is 274 octets at most, and 10 of an acknowledgement.
const LARGEST_ROOM: usize = 280;
const ROOM_OF_16: usize = 16;
const ACKNOWLEDGEMENT_SIZE: usize = 10;

pub fn some_write(generator: &mut Generator, function: Function) -> Call {
    let arguments = match function {
        Function::TunnellingAckWrite => {
            let numbers = [0; 3].map(|_| Argument::Number(some_octet(generator)));
            let room = some_small_room(generator);
            [&numbers[..], &[Argument::Room(room)]].concat()
        }
        Function::TunnellingRequestWrite => {
            let numbers = vec![some_octet(generator), some_octet(generator)];
            some_arguments(generator, function, numbers)
        }
        _ => some_arguments(generator, function, Vec::new()),
    };
    Call {
        function,
        arguments,
    }
}

/// A channel, a counter or a status, seldom outside its range.
fn some_octet(generator: &mut Generator) -> u32 {
    let octet = generator.octet().into();
    match generator.below(24) {
        0 => outside(generator, octet, 255),
        _ => octet,
    }
}

/// The arguments of a frame that is written: the numbers before it, its own, payload and room.
pub fn some_arguments(
    generator: &mut Generator,
    function: Function,
    mut numbers: Vec<u32>,
) -> Vec<Argument> {
    let extended = generator.below(2) == 1;
    if function != Function::Tp1Write {
        numbers.extend(some_kind(generator, function));
    }
    let mut frame = numbers::frame(generator, extended);
    if generator.one_in(4) {
        for _ in 0..1 + generator.below(8) / 7 {
            let place = generator.below(frame.len());
            frame[place] = outside(generator, frame[place], MOST[place]);
        }
    }
    numbers.extend(frame);
    let payload = some_payload(generator, extended);
    let size = payload.octets().len() + head_size(function, extended);
    let mut arguments: Vec<Argument> = numbers.into_iter().map(Argument::Number).collect();
    arguments.push(Argument::Octets(payload));
    arguments.push(Argument::Room(some_room(generator, size, LARGEST_ROOM)));
    arguments
}

/// The octets of a frame that are not payload.
fn head_size(function: Function, extended: bool) -> usize {
    match function {
        Function::CemiWrite => 9,
        Function::RoutingWrite => 15,
        Function::TunnellingRequestWrite | Function::TunnellingSend => 19,
        _ => 7 + usize::from(extended),
    }
}

/// Message code and error mark.
fn some_kind(generator: &mut Generator, function: Function) -> [u32; 2] {
    let mut code = generator.one_of(&[0x29, 0x29, 0x11, 0x2e]);
    if function == Function::RoutingWrite && generator.below(8) > 0 {
        code = 0x29;
    }
    let mut mark = u32::from(code == 0x2e && generator.one_in(2));
    match generator.below(24) {
        0 => code = generator.octet().into(),
        1 => code = outside(generator, code, 0x2e),
        2 => mark = outside(generator, mark, 1),
        3 => mark = 1,
        _ => {}
    }
    [code, mark]
}

/// Null, none, as many as the format has, or more.
fn some_payload(generator: &mut Generator, extended: bool) -> Lent {
    let most = if extended { 255 } else { 16 };
    let length = match generator.below(32) {
        0 => return Lent::Null,
        1 => 0,
        2 => most + 1,
        3 => generator.one_of(&[17, 255, 256, 260]),
        4 => most,
        5 => 1,
        _ => 1 + generator.below(most),
    };
    generator.octets(length).into()
}

/// For an acknowledgement.
pub fn some_small_room(generator: &mut Generator) -> Lent {
    some_room(generator, ACKNOWLEDGEMENT_SIZE, ROOM_OF_16)
}

fn some_room(generator: &mut Generator, size: usize, large: usize) -> Lent {
    let length = match generator.below(16) {
        0 => return Lent::Null,
        1 => 0,
        2 | 3 => size - 1,
        4 => generator.below(size),
        5..9 => size,
        9 => size + 1,
        _ => large,
    };
    Lent::Filled {
        length,
        octet: generator.octet(),
    }
}
