//! cEMI messages for the comparisons, alone (HEADER 0), behind a KNXnet/IP header (HEADER 6) or
//! behind that and a channel's octets (HEADER 10).

use crate::support::{packed_size, Answer, Comparison, Implementation, Kind, Request};
use inputs::{seed, Generator};
use std::ops::RangeInclusive;

/// Octets of a KNXnet/IP header.
pub const ROUTING: usize = 6;
/// Octets of what a tunnelling request begins with.
pub const TUNNELLING: usize = 10;

const CODES: [u8; 3] = [0x11, 0x2e, 0x29];

const fn kind(code: u8, error_mark: u8) -> Kind {
    Kind { code, error_mark }
}

/// Message codes and error marks, in their ranges and out; the first is in range everywhere.
pub const KINDS: [Kind; 15] = [
    kind(0x29, 0),
    kind(0x29, 1),
    kind(0x29, 255),
    kind(0x11, 0),
    kind(0x11, 1),
    kind(0x11, 2),
    kind(0x2e, 0),
    kind(0x2e, 1),
    kind(0x2e, 2),
    kind(0x2e, 255),
    kind(0x00, 0),
    kind(0x10, 0),
    kind(0x2b, 0),
    kind(0x2f, 1),
    kind(0xff, 0),
];

pub const fn reference<const HEADER: usize>() -> Implementation {
    Implementation {
        read: reference_read::<HEADER>,
        write: reference_write::<HEADER>,
    }
}

pub const fn library<const HEADER: usize>() -> Implementation {
    Implementation {
        read: library_read::<HEADER>,
        write: library_write::<HEADER>,
    }
}

pub const fn bindings<const HEADER: usize>() -> Implementation {
    Implementation {
        read: bindings_read::<HEADER>,
        write: bindings_write::<HEADER>,
    }
}

/// Channel and counter of an accepted request are octets of the datagram and no part of the answer.
fn reference_request(octets: &[u8]) -> Result<reference::cemi::Frame<'_>, u8> {
    reference::tunnelling::read_request(octets).map(|request| request.frame)
}

pub fn reference_read<const HEADER: usize>(octets: &[u8]) -> Answer<'_> {
    let read = match HEADER {
        ROUTING => reference::routing::read,
        TUNNELLING => reference_request,
        _ => reference::cemi::read,
    };
    let frame = match read(octets) {
        Ok(frame) => frame,
        Err(number) => return Answer::refused(number),
    };
    let request = Request {
        code: match frame.code {
            reference::cemi::Code::Request => 0x11,
            reference::cemi::Code::Confirmation => 0x2e,
            reference::cemi::Code::Indication => 0x29,
        },
        error_mark: frame.error_mark.into(),
        ..Request::from(frame.meaning)
    };
    Answer {
        packed: request.packed(frame.payload),
        payload: frame.payload,
        information: frame.information,
    }
}

pub fn reference_write<const HEADER: usize>(
    request: &Request,
    payload: &[u8],
    room: &mut [u8],
) -> u64 {
    let (code, error_mark, given) = (request.code, request.error_mark, request.given());
    let [channel, counter] = on_channel(request);
    packed_size(match HEADER {
        ROUTING => reference::routing::write(code, error_mark, &given, payload, room),
        TUNNELLING => reference::tunnelling::write_request(
            channel, counter, code, error_mark, &given, payload, room,
        ),
        _ => reference::cemi::write(code, error_mark, &given, payload, room),
    })
}

/// The channel and counter that a request is written with: any two octets.
fn on_channel(request: &Request) -> [u8; 2] {
    request.source.to_le_bytes()
}

/// The parts where include/klumdray.h says that they are.
fn library_read<const HEADER: usize>(octets: &[u8]) -> Answer<'_> {
    let packed = match HEADER {
        ROUTING => klumdray::raw::routing_read(octets),
        TUNNELLING => klumdray::raw::tunnelling_request_read(octets),
        _ => klumdray::raw::cemi_read(octets),
    };
    if packed as u8 != 0 {
        return Answer {
            packed,
            payload: &[],
            information: &[],
        };
    }
    let start = octets.len() - (packed >> 48 & 0xff) as usize;
    Answer {
        packed,
        payload: &octets[start..],
        information: &octets[HEADER + 2..start - 7],
    }
}

fn library_write<const HEADER: usize>(request: &Request, payload: &[u8], room: &mut [u8]) -> u64 {
    use klumdray::raw;
    let (code, error_mark) = (request.code.into(), request.error_mark.into());
    let [channel, counter] = on_channel(request).map(u32::from);
    let numbers = request.numbers();
    match HEADER {
        ROUTING => raw::routing_write(code, error_mark, &numbers, payload, room),
        TUNNELLING => raw::tunnelling_request_write(
            channel, counter, code, error_mark, &numbers, payload, room,
        ),
        _ => raw::cemi_write(code, error_mark, &numbers, payload, room),
    }
}

fn bindings_request(octets: &[u8]) -> Result<klumdray::cemi::Frame<'_>, klumdray::Refusal> {
    let request = klumdray::tunnelling::read_request(octets)?;
    assert_eq!([request.channel, request.counter], octets[7..9]);
    Ok(request.frame)
}

fn bindings_read<const HEADER: usize>(octets: &[u8]) -> Answer<'_> {
    let read = match HEADER {
        ROUTING => klumdray::routing::read,
        TUNNELLING => bindings_request,
        _ => klumdray::cemi::read,
    };
    let frame = match read(octets) {
        Ok(frame) => frame,
        Err(refusal) => return Answer::refused(refusal.number()),
    };
    let request = Request {
        code: frame.code.octet(),
        error_mark: frame.error_mark.into(),
        ..Request::from(frame.meaning)
    };
    Answer {
        packed: request.packed(frame.payload()),
        payload: frame.payload(),
        information: frame.information(),
    }
}

/// By the bindings, wherever their types have the numbers given.
fn bindings_write<const HEADER: usize>(request: &Request, payload: &[u8], room: &mut [u8]) -> u64 {
    use klumdray::cemi::Code;
    let code = [Code::Request, Code::Confirmation, Code::Indication]
        .into_iter()
        .find(|code| code.octet() == request.code);
    let [channel, counter] = on_channel(request);
    let written = match (code, request.meaning(), request.error_mark) {
        (Some(Code::Indication), Some(meaning), 0) if HEADER == ROUTING => {
            klumdray::routing::write(&meaning, payload, room)
        }
        (Some(code), Some(meaning), mark @ 0..=1) if HEADER == TUNNELLING => {
            klumdray::tunnelling::write_request(
                channel,
                counter,
                code,
                mark == 1,
                &meaning,
                payload,
                room,
            )
        }
        (Some(code), Some(meaning), mark @ 0..=1) if HEADER == 0 => {
            klumdray::cemi::write(code, mark == 1, &meaning, payload, room)
        }
        _ => return library_write::<HEADER>(request, payload, room),
    };
    packed_size(written.map_err(|refusal| refusal.number()))
}

pub fn size<const HEADER: usize>(_: &Request, payload_length: usize) -> usize {
    HEADER + 9 + payload_length
}

/// What a message is made from: its format, a, and the octets of its payload.
#[derive(Clone, Copy)]
pub struct Shape {
    extended: u8,
    a: usize,
    payload: usize,
}

fn lengths(extended: u8) -> RangeInclusive<usize> {
    1..=if extended == 1 { 255 } else { 16 }
}

/// Every a from 0 to 254 with every LG of each format.
pub fn all_shapes() -> impl Iterator<Item = Shape> {
    (0..=254).flat_map(|a| {
        [0, 1].into_iter().flat_map(move |extended| {
            lengths(extended).map(move |payload| Shape {
                extended,
                a,
                payload,
            })
        })
    })
}

/// Every a with some LG, and every LG with some a.
pub fn some_shapes(generator: &mut Generator) -> Vec<Shape> {
    let mut shapes = Vec::new();
    for extended in [0, 1] {
        for a in 0..=254 {
            let payload = 1 + generator.below(*lengths(extended).end());
            shapes.push(Shape {
                extended,
                a,
                payload,
            });
        }
        for payload in lengths(extended) {
            let a = generator.below(255);
            shapes.push(Shape {
                extended,
                a,
                payload,
            });
        }
    }
    shapes
}

/// A valid message, with the bits of Ctrl1 that are not read in any state.
pub fn message(generator: &mut Generator, code: u8, shape: Shape) -> Vec<u8> {
    let request = Request::valid(generator, kind(code, 0), shape.extended);
    let mut octets = vec![0; 9 + shape.payload];
    let payload = generator.octets(shape.payload);
    let written = reference::cemi::write(code, 0, &request.given(), &payload, &mut octets);
    assert_eq!(written, Ok(octets.len()));
    octets[1] = shape.a as u8;
    octets[2] ^= generator.octet() & 0b0101_0011;
    octets.splice(2..2, generator.octets(shape.a));
    octets
}

pub fn some_code(generator: &mut Generator) -> u8 {
    generator.one_of(&CODES)
}

/// Octets of one length, more and more like a message: by chance; with a message code; with a
/// fitting a; with EFF and LG that fit or nearly do.
pub fn likely_message(generator: &mut Generator, length: usize) -> Vec<u8> {
    let mut octets = generator.octets(length);
    let likeness = generator.below(5);
    if likeness >= 1 && length >= 1 {
        octets[0] = some_code(generator);
    }
    if likeness >= 2 && length >= 2 {
        octets[1] = match generator.below(16) {
            0 => 255,
            1 => 0,
            _ => generator.below(length.min(255)) as u8,
        };
    }
    if likeness >= 3 && length >= 2 {
        likely_body(generator, &mut octets);
    }
    octets
}

fn likely_body(generator: &mut Generator, octets: &mut [u8]) {
    let ctrl1 = 2 + usize::from(octets[1]);
    let Some(body @ [_, _, _, _, _, _, _, ..]) = octets.get_mut(ctrl1..) else {
        return;
    };
    let fitting = (body.len() as u8).wrapping_sub(8);
    if fitting > 15 && generator.below(4) > 0 {
        body[0] &= 0x7f;
    }
    if generator.below(8) > 0 {
        body[1] &= 0xf0;
    }
    body[6] = match generator.below(8) {
        0 => fitting.wrapping_sub(1),
        1 => fitting.wrapping_add(1),
        2 => 255,
        _ => fitting,
    };
}

/// Each octet before the payload that is not information, through all 256 values, and two of
/// them wrong at once.
pub fn heads<const HEADER: usize>(
    comparison: &mut Comparison,
    generator: &mut Generator,
    valid: &[u8],
) -> Result<(), String> {
    let ctrl1 = HEADER + 2 + usize::from(valid[HEADER + 1]);
    let places: Vec<usize> = (0..HEADER + 2).chain(ctrl1..ctrl1 + 7).collect();
    for &place in &places {
        let mut octets = valid.to_vec();
        for value in 0..=255 {
            octets[place] = value;
            comparison.read(&octets)?;
        }
    }
    for _ in 0..4 {
        comparison.pairs(generator, valid, &places)?;
    }
    Ok(())
}

pub fn assert_agrees(
    name: &str,
    compare: fn(Implementation, Implementation, u64) -> Result<Comparison, String>,
    [proved, reference]: [Implementation; 2],
    numbers: &[u8],
) {
    let seed = seed();
    println!("{name} and reference, KLUMDRAY_SEED={seed:#x}");
    match compare(proved, reference, seed) {
        Ok(comparison) => {
            println!("{name}: {comparison}");
            comparison.assert_covers(1_000_000, numbers, &[0, 13, 14]);
        }
        Err(difference) => panic!("KLUMDRAY_SEED={seed:#x}: {difference}"),
    }
}
