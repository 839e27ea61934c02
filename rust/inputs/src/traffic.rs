//! What a coupler and the frames around it have, so that steps come to everything they may come to.

use crate::frames::{self, mend_check, tp1};
use crate::Generator;
use reference::Given;

/// AT, which is 1 for a group, and destination.
pub type Address = (u8, u16);

/// Lines of area 0, area couplers, the last line, any.
pub fn some_line(generator: &mut Generator) -> u8 {
    match generator.below(8) {
        0 | 1 => 1 + generator.below(15) as u8,
        2 | 3 => (1 + generator.below(15) as u8) << 4,
        4 => 0xff,
        _ => generator.damage(),
    }
}

/// Around the coupler's own address, on and off its line and area; groups around their borders.
pub fn some_address(generator: &mut Generator, line: u8) -> Address {
    let (own, any) = (u16::from(line) << 8, generator.field());
    let (on_line, in_area) = (own | any & 0xff, own & 0xf000 | any & 0xfff);
    let individual = [own, own, on_line, in_area, any, 0, own & 0xf000];
    let group = [0, 0, 1, any & 0xfff, 0x6fff, 0x7000, 0xffff, any, own];
    match generator.below(2) {
        0 => (0, generator.one_of(&individual)),
        _ => (1, generator.one_of(&group)),
    }
}

/// What is sent after a frame.
pub enum Next {
    /// Another frame, which is yet to be made.
    New,
    /// The frame before, with nothing, or little, changed.
    Again,
    /// The octets that the frame before has on TP1 with a bit changed: no frame.
    Broken(Vec<u8>),
}

/// Decides what is sent after a frame, and makes it that where it is sent again: a repetition, or what
/// differs from one by little, in any octet.
pub fn send_again(generator: &mut Generator, given: &mut Given, payload: &mut Vec<u8>) -> Next {
    let kind = generator.below(16);
    if kind >= 10 {
        return Next::New;
    }
    given.first_sending = generator.one_in(6).into();
    match kind {
        0..=3 => {}
        4 => given.count = generator.below(8) as u8,
        5 => change_length(generator, given, payload),
        _ => return change_bit(generator, given, payload),
    }
    Next::Again
}

/// The payload an octet longer or shorter, or the same one in the other format.
fn change_length(generator: &mut Generator, given: &mut Given, payload: &mut Vec<u8>) {
    let most = if given.extended == 1 { 255 } else { 16 };
    match generator.below(3) {
        0 if payload.len() <= 16 => given.extended ^= 1,
        1 if payload.len() < most => payload.push(generator.octet()),
        _ if payload.len() > 1 => payload.truncate(payload.len() - 1),
        _ => {}
    }
}

/// One bit changed, seldom the same one of two octets, which the check octet does not show. The check
/// octet is mended in most cases.
fn change_bit(generator: &mut Generator, given: &mut Given, payload: &mut Vec<u8>) -> Next {
    let mut octets = tp1(given, payload);
    let bit = 1 << generator.below(8);
    for _ in 0..1 + usize::from(generator.one_in(8)) {
        let place = some_place(generator, octets.len());
        octets[place] ^= bit;
    }
    if generator.below(8) > 0 {
        mend_check(&mut octets);
    }
    match reference::tp1::read(&octets) {
        Ok(frame) => {
            *given = frames::given(&frame.meaning);
            *payload = frame.payload.to_vec();
            Next::Again
        }
        Err(_) => Next::Broken(octets),
    }
}

/// The place of an octet of a frame: of any, of those before the payload, of the last.
fn some_place(generator: &mut Generator, size: usize) -> usize {
    match generator.below(4) {
        0 => generator.below(8),
        1 => size - 1 - generator.below(3),
        _ => generator.below(size),
    }
}

/// Makes a standard frame's octets a frame also where the control octet says extended: the source's
/// high octet has EFF 0000, and TPCI is the LG of as many octets.
pub fn fit_both_formats(given: &mut Given, payload: &mut [u8]) {
    if given.extended == 0 && payload.len() > 1 {
        given.source &= 0xf0ff;
        payload[0] = payload.len() as u8 - 2;
    }
}
