//! Series of steps from a seed: settings kept for a series, frames from a few addresses, many of them
//! sent again or with little changed, and now and then something wrong in any of them.

use crate::couplers::{is_from_ip, settings, Setting, CODES, LINE, MEDIUM, MEMORY, SETTINGS};
use inputs::frames::{damage_tp1, mend_total, tp1};
use inputs::traffic::{fit_both_formats, send_again, some_address, some_line, Address, Next};
use inputs::{tables, Generator};
use reference::coupler::TABLE_SIZE;
use reference::Given;

/// One step of a series, apart from its filter table.
pub struct Step {
    pub settings: Vec<u8>,
    pub side: u8,
    pub memory: usize,
    pub room: usize,
    pub octets: Vec<u8>,
}

pub struct Series {
    line: u8,
    /// With the coupler's own line, or 00h.
    settings: [u8; SETTINGS],
    table: Vec<u8>,
    sources: [u16; 2],
    addresses: [Address; 4],
    /// The numbers and payload of the frame before, and its side.
    previous: (Given, Vec<u8>),
    side: u8,
}

impl Series {
    pub fn new(generator: &mut Generator) -> Series {
        let line = some_line(generator);
        let sources = [generator.field(), generator.field()];
        let addresses = [0; 4].map(|_| some_address(generator, line));
        let mut series = Series {
            line,
            settings: [0; SETTINGS],
            table: Vec::new(),
            sources,
            addresses,
            previous: (some_numbers(generator, sources[0], addresses[0]), vec![0]),
            side: 0,
        };
        series.set(generator);
        series
    }

    /// Other settings of the same coupler: codes, filter table, medium. In one series of eight
    /// something may be wrong with them.
    pub fn set(&mut self, generator: &mut Generator) {
        let medium = generator.below(2) as u8;
        let mut codes = [[0; 4]; 2].map(|row| row.map(|_: u8| generator.below(3) as u8));
        let length = if generator.one_in(6) { 0 } else { TABLE_SIZE };
        for [_, broadcast, groups @ ..] in &mut codes {
            *broadcast &= 2;
            if length == 0 {
                *groups = groups.map(|code| code & 2);
            }
        }
        self.settings = settings(self.line, codes, medium);
        self.table = tables::with_addresses(generator, length, &self.addresses);
        if generator.one_in(8) {
            self.spoil(generator);
        }
    }

    fn spoil(&mut self, generator: &mut Generator) {
        if generator.one_in(3) {
            self.settings[LINE] = 0;
        }
        if generator.one_in(3) {
            let place = generator.below(8);
            self.settings[CODES][place] = match generator.below(3) {
                0 => 1,
                1 => 3,
                _ => generator.octet(),
            };
        }
        if generator.one_in(3) {
            let length = generator.one_of(&[0, TABLE_SIZE - 1, TABLE_SIZE + 1]);
            self.table = tables::with_addresses(generator, length, &self.addresses);
        }
    }

    pub fn setting<'a>(&'a self, step: &'a Step) -> Setting<'a> {
        Setting {
            settings: &step.settings,
            table: &self.table,
            side: step.side,
        }
    }

    pub fn step(&mut self, generator: &mut Generator) -> Step {
        let next = self.next_frame(generator);
        let mut step = Step {
            settings: self.settings.to_vec(),
            side: self.side,
            memory: MEMORY,
            room: generator.one_of(&[272, 300]),
            octets: Vec::new(),
        };
        let (numbers, payload) = &self.previous;
        let mistaken = generator.one_in(64);
        step.octets = match (is_from_ip(&self.setting(&step)) != mistaken, next) {
            (true, _) => some_datagram(generator, numbers, payload),
            (false, Next::Broken(octets)) => octets,
            (false, _) => some_frame(generator, numbers, payload),
        };
        if generator.one_in(8) {
            spoil_lent(generator, &mut step);
        }
        step
    }

    /// A new frame from either side, or the one before with nothing, or little, changed, mostly from
    /// the same side: else it would hardly be a repetition.
    fn next_frame(&mut self, generator: &mut Generator) -> Next {
        let source = generator.one_of(&self.sources);
        let address = generator.one_of(&self.addresses);
        let (numbers, payload) = &mut self.previous;
        let next = send_again(generator, numbers, payload);
        if let Next::New = next {
            *numbers = some_numbers(generator, source, address);
            *payload = some_payload(generator, numbers);
            if generator.one_in(4) {
                fit_both_formats(numbers, payload);
            }
            self.side = generator.below(2) as u8;
        } else if generator.one_in(8) {
            self.side ^= 1;
        }
        next
    }
}

fn some_numbers(generator: &mut Generator, source: u16, (group, destination): Address) -> Given {
    Given {
        extended: u8::from(generator.one_in(3)),
        first_sending: generator.below(2) as u8,
        priority: generator.below(4) as u8,
        source,
        group,
        destination,
        count: generator.below(8) as u8,
    }
}

fn some_payload(generator: &mut Generator, numbers: &Given) -> Vec<u8> {
    let most = match (numbers.extended, generator.below(2)) {
        (1, 0) => 255,
        _ => 16,
    };
    let length = match generator.below(8) {
        0 | 1 => most,
        _ => 1 + generator.below(most),
    };
    generator.octets(length)
}

/// A TP1 frame, in one case of eight damaged.
fn some_frame(generator: &mut Generator, numbers: &Given, payload: &[u8]) -> Vec<u8> {
    let mut octets = tp1(numbers, payload);
    if generator.one_in(8) {
        damage_tp1(generator, &mut octets);
    }
    octets
}

/// A routing datagram with additional information and the bits of Ctrl1 that are not read in any
/// state, in one case of eight damaged.
fn some_datagram(generator: &mut Generator, numbers: &Given, payload: &[u8]) -> Vec<u8> {
    let mut octets = vec![0; payload.len() + 15];
    let written = reference::routing::write(0x29, 0, numbers, payload, &mut octets);
    assert_eq!(written, Ok(octets.len()));
    octets[8] ^= generator.octet() & 0b0101_0011;
    if generator.one_in(3) {
        let bound = generator.one_of(&[8, 255]);
        let a = generator.below(bound) as u8;
        octets[7] = a;
        octets.splice(8..8, generator.octets(a.into()));
        mend_total(&mut octets);
    }
    if generator.one_in(8) {
        damage_datagram(generator, &mut octets);
    }
    octets
}

fn damage_datagram(generator: &mut Generator, octets: &mut Vec<u8>) {
    let place = generator.below(octets.len());
    let ctrl1 = 8 + usize::from(octets[7]);
    let damage = generator.damage();
    match generator.below(14) {
        0 => octets.truncate(place),
        1 => octets.push(damage),
        2 => octets[place] ^= damage,
        3 => octets[place % 2] ^= damage,
        4 => octets[2 + place % 2] ^= damage,
        5 => octets[4 + place % 2] ^= damage,
        6 => octets[6] = [0x11, 0x2e, damage][place % 3],
        7 => octets[7] = 255,
        8 => octets[7] ^= damage,
        9 => octets[ctrl1 + 1] |= damage & 0x0f,
        10 => octets[ctrl1 + 6] = 255,
        11 => octets[ctrl1 + 6] ^= damage,
        12 => octets[ctrl1 + place % 7] ^= damage,
        _ => *octets = generator.octets(place),
    }
    if generator.one_in(3) {
        mend_total(octets);
    }
}

/// Numbers out of their ranges and lengths that are too small or too large, several at once.
fn spoil_lent(generator: &mut Generator, step: &mut Step) {
    let mut some = |cases| generator.one_in(cases);
    if some(4) {
        step.side = if some(2) { 2 } else { 255 };
    }
    if some(4) {
        step.settings[MEDIUM] = if some(2) { 2 } else { 255 };
    }
    if some(3) {
        step.room = if some(2) { 0 } else { 271 };
    }
    if some(8) {
        step.memory = if some(2) { MEMORY - 1 } else { MEMORY + 1 };
    }
    if some(16) {
        step.memory = 0;
    }
    if some(8) {
        let size = if some(2) { SETTINGS - 1 } else { SETTINGS + 1 };
        step.settings.resize(size, 0);
    }
    if some(16) {
        step.settings.clear();
    }
}
