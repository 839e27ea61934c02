//! Octets for the readers: frames, messages and datagrams of every length, whole and damaged.

use crate::numbers;
use inputs::frames::{change, damage_tp1, mend_total, some_damages, tp1};
use inputs::Generator;
use reference::Given;

pub const CODES: [u8; 3] = [0x11, 0x2e, 0x29];

/// The numbers of a valid frame.
pub fn some_given(generator: &mut Generator) -> Given {
    let extended = generator.below(2) == 1;
    let [_, first_sending, priority, source, group, destination, count] =
        numbers::frame(generator, extended);
    Given {
        extended: extended.into(),
        first_sending: first_sending as u8,
        priority: priority as u8,
        source: source as u16,
        group: group as u8,
        destination: destination as u16,
        count: count as u8,
    }
}

/// Of any length that the format has.
pub fn some_payload(generator: &mut Generator, given: &Given) -> Vec<u8> {
    let most = if given.extended == 1 { 255 } else { 16 };
    let length = match generator.below(8) {
        0 => 1,
        1 | 2 => most,
        _ => 1 + generator.below(most),
    };
    generator.octets(length)
}

/// A message with additional information, and with the bits of Ctrl1 that are not read in any
/// state.
pub fn cemi(generator: &mut Generator, code: u8, given: &Given, payload: &[u8]) -> Vec<u8> {
    let mut octets = vec![0; payload.len() + 9];
    let written = reference::cemi::write(code, 0, given, payload, &mut octets);
    assert_eq!(written, Ok(octets.len()));
    octets[2] ^= generator.octet() & 0b0101_0011;
    let most = generator.one_of(&[1, 1, 9, 255]);
    let information = generator.below(most);
    octets[1] = information as u8;
    octets.splice(2..2, generator.octets(information));
    octets
}

pub fn routing(generator: &mut Generator, given: &Given, payload: &[u8]) -> Vec<u8> {
    let mut octets = vec![0x06, 0x10, 0x05, 0x30, 0, 0];
    octets.extend(cemi(generator, 0x29, given, payload));
    mend_total(&mut octets);
    octets
}

pub fn some_tp1(generator: &mut Generator) -> Vec<u8> {
    let given = some_given(generator);
    let payload = some_payload(generator, &given);
    let mut octets = tp1(&given, &payload);
    match generator.below(16) {
        0..6 => {}
        6 => octets = random_tp1(generator),
        7 => {
            let place = generator.below(octets.len());
            octets[place] ^= generator.damage();
        }
        _ => damage_tp1(generator, &mut octets),
    }
    octets
}

pub fn some_cemi(generator: &mut Generator) -> Vec<u8> {
    let given = some_given(generator);
    let payload = some_payload(generator, &given);
    let code = generator.one_of(&CODES);
    let mut octets = cemi(generator, code, &given, &payload);
    if generator.below(5) > 1 {
        damage_cemi(generator, &mut octets, 0);
    }
    octets
}

pub fn some_routing(generator: &mut Generator) -> Vec<u8> {
    let given = some_given(generator);
    let payload = some_payload(generator, &given);
    let mut octets = routing(generator, &given, &payload);
    if generator.below(3) > 0 {
        damage_routing(generator, &mut octets);
    }
    octets
}

/// Octets by chance behind a control octet that is allowed or not.
fn random_tp1(generator: &mut Generator) -> Vec<u8> {
    let length = generator.below(24);
    let mut octets = generator.octets(length);
    let likely = generator.one_of(&[0x90, 0x10, 0xbc, 0x3c]);
    if let (Some(control), true) = (octets.first_mut(), generator.below(4) > 0) {
        *control = likely;
    }
    octets
}

/// Something wrong with a datagram's header or with its message.
pub fn damage_routing(generator: &mut Generator, octets: &mut Vec<u8>) {
    match generator.below(5) {
        0 | 1 => damage_header(generator, octets),
        _ => damage_cemi(generator, octets, 6),
    }
}

/// Something wrong with a message that begins at a place; then perhaps a total length that fits.
pub fn damage_cemi(generator: &mut Generator, octets: &mut Vec<u8>, start: usize) {
    for _ in 0..some_damages(generator) {
        damage_cemi_once(generator, octets, start);
    }
    if start > 0 && generator.below(4) > 0 {
        mend_total(octets);
    }
}

fn damage_cemi_once(generator: &mut Generator, octets: &mut Vec<u8>, start: usize) {
    let place = start + generator.below(octets.len().saturating_sub(start).max(1));
    let ctrl1 = start + 2 + usize::from(octets.get(start + 1).copied().unwrap_or(0));
    let damage = generator.damage();
    match generator.below(13) {
        // before, behind and in the midst of the octets that say how long the message is
        0 => octets.truncate(generator.one_of(&[place, start, start + 1, start + 2])),
        1 => octets.truncate(ctrl1 + generator.one_of(&[0, 6, 7, 7])),
        2 => octets.push(damage),
        3 => change(octets, place, |octet| octet ^ damage),
        4 => {
            let code = generator.one_of(&[0x11, 0x2e, damage, damage]);
            change(octets, start, |_| code);
        }
        5 | 6 => change(octets, start + 1, |_| 255),
        7 => change(octets, start + 1, |octet| octet ^ damage),
        8 => change(octets, ctrl1 + 1, |octet| octet | damage & 0x0f),
        9 => change(octets, ctrl1 + 6, |_| 255),
        10 => change(octets, ctrl1 + 6, |octet| octet ^ damage),
        11 => change(octets, ctrl1, |octet| octet ^ 0x80),
        _ => change(octets, ctrl1 + generator.below(7), |octet| octet ^ damage),
    }
}

/// Something wrong with a KNXnet/IP header, or with the length that it tells.
pub fn damage_header(generator: &mut Generator, octets: &mut Vec<u8>) {
    for _ in 0..some_damages(generator) {
        let place = generator.below(6);
        let damage = generator.damage();
        match generator.below(8) {
            0 => octets.truncate(place),
            1 => octets.push(damage),
            2 | 3 => change(octets, place % 2, |octet| octet ^ damage),
            4 | 5 => change(octets, 2 + place % 2, |octet| octet ^ damage),
            6 => change(octets, 4 + place % 2, |octet| octet ^ damage),
            _ => change(octets, place, |octet| octet ^ damage),
        }
    }
}
