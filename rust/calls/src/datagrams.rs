//! The two datagrams of tunnelling, whole and damaged.

use crate::frames::{self, cemi, damage_cemi, damage_header, CODES};
use inputs::frames::{change, mend_total, some_damages};
use inputs::Generator;

/// The octet of the service that differs.
pub const REQUEST: u8 = 0x20;
pub const ACKNOWLEDGEMENT: u8 = 0x21;

/// The KNXnet/IP header, 04h, channel, counter, and 00h or the status.
pub const HEAD_SIZE: usize = 10;
const FIRST_AT: usize = 6;

/// What both services begin with, with the total length of what is behind it.
pub fn datagram(service: u8, [channel, counter, last]: [u8; 3], behind: &[u8]) -> Vec<u8> {
    let mut octets = vec![
        0x06, 0x10, 0x04, service, 0, 0, 0x04, channel, counter, last,
    ];
    octets.extend(behind);
    mend_total(&mut octets);
    octets
}

/// With a message of any code, and with the octet 00h, which "is not read", in any state.
pub fn request(generator: &mut Generator, channel: u8, counter: u8) -> Vec<u8> {
    let given = frames::some_given(generator);
    let payload = frames::some_payload(generator, &given);
    let code = generator.one_of(&CODES);
    let message = cemi(generator, code, &given, &payload);
    let any = generator.octet();
    let last = generator.one_of(&[0x00, 0x00, 0x00, any]);
    datagram(REQUEST, [channel, counter, last], &message)
}

/// In one case of three with a status that leaves the send counter.
pub fn acknowledgement(generator: &mut Generator, channel: u8, counter: u8) -> Vec<u8> {
    let damage = generator.damage();
    let status = generator.one_of(&[0x00, 0x00, 0x00, 0x00, 0x21, damage]);
    datagram(ACKNOWLEDGEMENT, [channel, counter, status], &[])
}

pub fn some_request(generator: &mut Generator) -> Vec<u8> {
    let [channel, counter] = [generator.octet(), generator.octet()];
    let mut octets = request(generator, channel, counter);
    if generator.below(3) > 0 {
        damage_request(generator, &mut octets);
    }
    octets
}

pub fn some_acknowledgement(generator: &mut Generator) -> Vec<u8> {
    let [channel, counter] = [generator.octet(), generator.octet()];
    let mut octets = acknowledgement(generator, channel, counter);
    if generator.below(3) > 0 {
        damage_acknowledgement(generator, &mut octets);
    }
    octets
}

/// Something wrong with the header, with what is behind it, or with the message.
pub fn damage_request(generator: &mut Generator, octets: &mut Vec<u8>) {
    match generator.below(6) {
        0 | 1 => damage_header(generator, octets),
        2 => damage_connection(generator, octets),
        _ => damage_cemi(generator, octets, HEAD_SIZE),
    }
}

pub fn damage_acknowledgement(generator: &mut Generator, octets: &mut Vec<u8>) {
    match generator.below(2) {
        0 => damage_header(generator, octets),
        _ => damage_connection(generator, octets),
    }
}

/// Something wrong with the octets behind the header; then perhaps a total length that fits.
fn damage_connection(generator: &mut Generator, octets: &mut Vec<u8>) {
    for _ in 0..some_damages(generator) {
        let place = FIRST_AT + generator.below(HEAD_SIZE - FIRST_AT);
        let damage = generator.damage();
        match generator.below(8) {
            0 => octets.truncate(place),
            1 => octets.truncate(HEAD_SIZE - 1),
            2 | 3 => octets.push(damage),
            4 => change(octets, FIRST_AT, |octet| octet ^ damage),
            5 => change(octets, FIRST_AT, |octet| octet ^ 1),
            6 => change(octets, 3, |octet| octet ^ 1),
            _ => change(octets, place, |octet| octet ^ damage),
        }
    }
    if generator.below(4) > 0 {
        mend_total(octets);
    }
}
