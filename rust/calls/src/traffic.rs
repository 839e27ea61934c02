//! Series of steps: settings kept for a series, frames from a few addresses, many of them sent again or
//! with little changed, and now and then something wrong in any of them.

use crate::answer::{MEMORY_SIZE, SETTINGS_SIZE};
use crate::call::{Argument, Call, Function, Lent};
use crate::frames;
use crate::numbers::outside;
use inputs::frames::{damage_tp1, tp1};
use inputs::traffic::{send_again, some_address, some_line, Address, Next};
use inputs::{tables, Generator};
use reference::coupler::{ROOM_SIZE, TABLE_SIZE};
use reference::Given;

const MEDIUM: usize = 9;

/// One coupler, and what is heard on its two sides.
pub struct Series {
    line: u8,
    settings: [u8; SETTINGS_SIZE],
    /// The coupler's filter table, and what is lent for it.
    table: Lent,
    lent_table: Lent,
    sources: [u16; 2],
    addresses: [Address; 4],
    /// The numbers and payload of the frame before, and its side.
    previous: (Given, Vec<u8>),
    side: u32,
    memory: Vec<u8>,
}

impl Series {
    pub fn new(generator: &mut Generator) -> Series {
        let line = some_line(generator);
        let addresses = [0; 4].map(|_| some_address(generator, line));
        let mut series = Series {
            line,
            settings: [0; SETTINGS_SIZE],
            table: tables::with_addresses(generator, TABLE_SIZE, &addresses).into(),
            lent_table: Lent::Null,
            sources: [generator.field(), generator.field()],
            addresses,
            previous: (frames::some_given(generator), vec![0]),
            side: 0,
            memory: vec![0; MEMORY_SIZE],
        };
        series.set(generator);
        series
    }

    /// Other settings of the same coupler: codes and medium. In one case of six something is wrong
    /// with them. The filter table is another one only where it is wrong, since it is large.
    pub fn set(&mut self, generator: &mut Generator) {
        let has_table = generator.below(6) > 0;
        let mut settings = [0; SETTINGS_SIZE].map(|_: u8| generator.below(3) as u8);
        settings[0] = self.line;
        settings[MEDIUM] = generator.one_of(&[0, 1, 1]);
        for (broadcast, groups) in [(2, 3..5), (6, 7..9)] {
            settings[broadcast] &= 2;
            if !has_table {
                settings[groups].iter_mut().for_each(|code| *code &= 2);
            }
        }
        self.settings = settings;
        self.lent_table = match has_table {
            true => self.table.clone(),
            false => Lent::Null,
        };
        if generator.one_in(6) {
            self.spoil(generator);
        }
    }

    fn spoil(&mut self, generator: &mut Generator) {
        match generator.below(5) {
            0 => self.settings[0] = 0,
            1 => self.settings[1 + generator.below(8)] = generator.octet() | 3,
            2 => self.settings[generator.one_of(&[2, 6])] = 1,
            3 => {
                self.settings[generator.one_of(&[3, 4, 7, 8])] = 1;
                self.lent_table = Lent::Null;
            }
            _ => {
                let length = generator.one_of(&[0, 1, TABLE_SIZE - 1]);
                self.settings[3] = 1;
                self.lent_table = tables::with_addresses(generator, length, &self.addresses).into();
            }
        }
    }

    /// What the last step left.
    pub fn keep(&mut self, memory: &[u8]) {
        if memory.len() == MEMORY_SIZE {
            self.memory.copy_from_slice(memory);
        }
    }

    /// A size that no step leaves: of no frame, or of less than one.
    pub fn spoil_size(&mut self, generator: &mut Generator) {
        let size = match generator.below(3) {
            0 => 264,
            1 => 264 + generator.below(65_536 - 264),
            _ => 1 + generator.below(7),
        };
        let start = generator.one_of(&[0, MEMORY_SIZE / 2]);
        self.memory[start..][..2].copy_from_slice(&(size as u16).to_be_bytes());
    }

    pub fn step(&mut self, generator: &mut Generator) -> Call {
        // What is sent again mostly comes from the same side: else it would hardly be a repetition.
        let next = self.next_frame(generator);
        let cases = if let Next::New = next { 3 } else { 8 };
        if generator.one_in(cases) {
            self.side ^= 1;
        }
        let octets = self.some_octets(generator, next);
        let mut lent = Spoiled {
            settings: self.settings.to_vec(),
            side: self.side,
            memory: self.memory.clone(),
            room: generator.one_of(&[ROOM_SIZE, 300]),
        };
        if generator.one_in(6) {
            lent.spoil(generator);
        }
        Call {
            function: Function::Step,
            arguments: vec![
                Argument::Octets(lent.settings.into()),
                Argument::Octets(self.lent_table.clone()),
                Argument::Number(lent.side),
                Argument::Room(lent.memory.into()),
                Argument::Octets(octets),
                Argument::Room(Lent::Filled {
                    length: lent.room,
                    octet: generator.octet(),
                }),
            ],
        }
    }

    /// A frame or a datagram as the side has it, seldom the other; in one case of three damaged.
    fn some_octets(&self, generator: &mut Generator, next: Next) -> Lent {
        let (given, payload) = &self.previous;
        let damaged = generator.one_in(3);
        if (self.side == 0 && self.settings[MEDIUM] == 1) != generator.one_in(64) {
            let mut octets = frames::routing(generator, given, payload);
            if damaged {
                frames::damage_routing(generator, &mut octets);
            }
            return octets.into();
        }
        if let Next::Broken(octets) = next {
            return octets.into();
        }
        let mut octets = tp1(given, payload);
        match (damaged, generator.below(16)) {
            (true, 0) => return Lent::Null,
            (true, _) => damage_tp1(generator, &mut octets),
            _ => {}
        }
        octets.into()
    }

    /// A new frame, or the one before with nothing, or little, changed.
    fn next_frame(&mut self, generator: &mut Generator) -> Next {
        let source = generator.one_of(&self.sources);
        let (group, destination) = generator.one_of(&self.addresses);
        let (given, payload) = &mut self.previous;
        let next = send_again(generator, given, payload);
        if let Next::New = next {
            *given = Given {
                source,
                group,
                destination,
                ..frames::some_given(generator)
            };
            *payload = frames::some_payload(generator, given);
        }
        next
    }
}

/// What a step is lent and may be lent wrongly.
struct Spoiled {
    settings: Vec<u8>,
    side: u32,
    memory: Vec<u8>,
    room: usize,
}

impl Spoiled {
    /// Numbers outside their ranges and lengths too small or too large, one or several.
    fn spoil(&mut self, generator: &mut Generator) {
        for _ in 0..1 + generator.below(4) / 3 {
            match generator.below(8) {
                0 | 1 => self.side = outside(generator, self.side, 1),
                2 => {
                    if let Some(medium) = self.settings.get_mut(MEDIUM) {
                        *medium = generator.one_of(&[2, 255]);
                    }
                }
                3 | 4 => self.room = generator.one_of(&[0, ROOM_SIZE - 1, ROOM_SIZE - 1]),
                5 | 6 => {
                    let length = generator.one_of(&[0, MEMORY_SIZE - 1, MEMORY_SIZE + 1]);
                    self.memory.resize(length, 0);
                }
                _ => {
                    let length = generator.one_of(&[0, SETTINGS_SIZE - 1, SETTINGS_SIZE + 1]);
                    self.settings.resize(length, 0);
                }
            }
        }
    }
}
