//! Frames of each kind, whole and broken.

use inputs::Generator;
use klumdray::cemi::{self, Code};
use klumdray::{tp1, Meaning};
use planner::frame::Kind;

/// An accepted frame.
pub fn whole(generator: &mut Generator, kind: Kind) -> Vec<u8> {
    let meaning = meaning(generator);
    let longest = if meaning.extended { 255 } else { 16 };
    let length = match generator.below(3) {
        0 => 1 + generator.below(4),
        _ => 1 + generator.below(longest),
    };
    let payload = generator.octets(length as usize);
    let mut room = [0; 300];
    let (channel, counter) = (generator.octet(), generator.octet());
    let mut octets = match kind {
        Kind::Tp1 => {
            let size = tp1::write(&meaning, &payload, &mut room).expect("numbers in range");
            return room[..size].to_vec();
        }
        Kind::Cemi | Kind::Request => message(generator, &meaning, &payload, None),
        Kind::Routing => message(generator, &meaning, &payload, Some(Code::Indication)),
        Kind::Acknowledgement => vec![],
    };
    if let Kind::Request | Kind::Acknowledgement = kind {
        octets.splice(0..0, [channel, counter, generator.octet()]);
    }
    octets.splice(0..0, head(kind).iter().copied());
    mend_total(kind, &mut octets);
    octets
}

/// What a datagram begins with; its total length is to be mended.
pub fn head(kind: Kind) -> &'static [u8] {
    match kind {
        Kind::Tp1 | Kind::Cemi => &[],
        Kind::Routing => &[0x06, 0x10, 0x05, 0x30, 0, 0],
        Kind::Request => &[0x06, 0x10, 0x04, 0x20, 0, 0, 0x04],
        Kind::Acknowledgement => &[0x06, 0x10, 0x04, 0x21, 0, 0, 0x04],
    }
}

/// A message with additional information and the bits that are not read in any state.
fn message(
    generator: &mut Generator,
    meaning: &Meaning,
    payload: &[u8],
    code: Option<Code>,
) -> Vec<u8> {
    let codes = [Code::Request, Code::Confirmation, Code::Indication];
    let code = code.unwrap_or(codes[generator.below(3)]);
    let mark = code == Code::Confirmation && generator.below(2) == 1;
    let mut room = [0; 300];
    let size = cemi::write(code, mark, meaning, payload, &mut room).expect("numbers in range");
    let mut octets = room[..size].to_vec();
    let a = match generator.below(3) {
        0 => generator.below(255),
        1 => generator.below(5),
        _ => 0,
    };
    octets[1] = a as u8;
    octets[2] ^= generator.octet() & 0b0101_0010;
    octets.splice(2..2, generator.octets(a as usize));
    octets
}

fn meaning(generator: &mut Generator) -> Meaning {
    Meaning {
        extended: generator.below(2) == 1,
        first_sending: generator.below(2) == 1,
        priority: generator.below(4) as u8,
        source: generator.field(),
        group: generator.below(2) == 1,
        destination: generator.below(3).min(1) as u16 * generator.field(),
        count: generator.below(8) as u8,
    }
}

/// In a datagram, the total length that it has.
pub fn mend_total(kind: Kind, octets: &mut [u8]) {
    let length = octets.len();
    if let ([_, ..], [_, _, _, _, t1, t0, ..]) = (head(kind), octets) {
        [*t1, *t0] = (length as u16).to_be_bytes();
    }
}

/// Octets that are accepted, nearly accepted, or by chance.
pub fn broken(generator: &mut Generator, kind: Kind) -> Vec<u8> {
    let mut octets = whole(generator, kind);
    match generator.below(8) {
        0 => {
            let length = generator.below(40);
            return generator.octets(length);
        }
        1 => octets.truncate(generator.below(octets.len())),
        2 => {
            let more = 1 + generator.below(20);
            octets.extend(generator.octets(more));
        }
        _ => damage(generator, &mut octets),
    }
    if generator.below(4) > 0 {
        mend_total(kind, &mut octets);
    }
    octets
}

/// Changes one to three octets, more often near the front, where the fields lie, and often to a
/// value at the end of a range.
fn damage(generator: &mut Generator, octets: &mut [u8]) {
    for _ in 0..1 + generator.below(3) {
        let reach = match generator.below(4) {
            0 => octets.len(),
            _ => octets.len().min(20),
        };
        let place = generator.below(reach);
        let ends = [0x00, 0x0f, 0x10, 0xfe, 0xff];
        octets[place] = match generator.below(2) {
            0 => ends[generator.below(5)],
            _ => generator.octet(),
        };
    }
}
