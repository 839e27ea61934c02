//! Frames, and what is wrong with them.

use crate::Generator;
use reference::{Format, Given, Meaning};

/// The numbers that a writer is given for a meaning.
pub fn given(meaning: &Meaning) -> Given {
    Given {
        extended: (meaning.format == Format::Extended).into(),
        first_sending: meaning.first_sending.into(),
        priority: meaning.priority,
        source: meaning.source,
        group: meaning.group.into(),
        destination: meaning.destination,
        count: meaning.count,
    }
}

/// A valid frame.
pub fn tp1(given: &Given, payload: &[u8]) -> Vec<u8> {
    let mut octets = vec![0; payload.len() + 7 + usize::from(given.extended)];
    let written = reference::tp1::write(given, payload, &mut octets);
    assert_eq!(written, Ok(octets.len()));
    octets
}

/// Changes an octet, if it is there.
pub fn change(octets: &mut [u8], place: usize, changed: impl FnOnce(u8) -> u8) {
    if let Some(octet) = octets.get_mut(place) {
        *octet = changed(*octet);
    }
}

/// How many things are wrong at once: only with two does the order of the tests show.
pub fn some_damages(generator: &mut Generator) -> usize {
    1 + usize::from(generator.one_in(3))
}

/// Something wrong with a frame; then perhaps a check octet that fits.
pub fn damage_tp1(generator: &mut Generator, octets: &mut Vec<u8>) {
    for _ in 0..some_damages(generator) {
        damage_tp1_once(generator, octets);
    }
    if generator.one_in(3) {
        mend_check(octets);
    }
}

fn damage_tp1_once(generator: &mut Generator, octets: &mut Vec<u8>) {
    let place = generator.below(octets.len().max(1));
    let damage = generator.damage();
    match generator.below(10) {
        0 => octets.truncate(generator.one_of(&[place, 5, 6, 7, 8])),
        1 => octets.push(damage),
        2 => change(octets, place, |octet| octet ^ damage),
        3 => {
            let control = generator.one_of(&[0xcc, 0x0c, 0xc0, 0xf0, damage]);
            change(octets, 0, |_| control);
        }
        4 => change(octets, 1, |octet| octet | damage & 0x0f),
        5 => change(octets, 6, |_| 255),
        6 => change(octets, 6, |octet| octet.wrapping_add(1)),
        7 => change(octets, 5, |octet| octet ^ 1),
        8 => change(octets, place.min(7), |octet| octet ^ damage),
        _ => *octets = generator.octets(place),
    }
}

/// The check octet that fits what is before it.
pub fn mend_check(octets: &mut [u8]) {
    if let Some((check, before)) = octets.split_last_mut() {
        *check = reference::check_octet(before);
    }
}

/// The total length that a datagram has.
pub fn mend_total(octets: &mut [u8]) {
    let total = octets.len() as u16;
    if let Some(place) = octets.get_mut(4..6) {
        place.copy_from_slice(&total.to_be_bytes());
    }
}
