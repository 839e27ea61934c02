//! Calls of the two-octet float and of the total, and series of frames to a station, whose total and
//! memory are carried on from call to call.

use crate::answer::leak::{MEMORY_SIZE, TOTAL_SIZE};
use crate::call::{Argument, Call, Function, Lent};
use crate::numbers::outside;
use inputs::frames::tp1;
use inputs::leaks::{borders, some_code, some_hundredths, some_total, INVALID, LEAST, MOST};
use inputs::meters::Meters;
use inputs::Generator;
use reference::Given;

/// A code, seldom a number that is none.
fn some_number(generator: &mut Generator) -> u32 {
    let code = some_code(generator).into();
    match generator.below(16) {
        0 => outside(generator, code, 65_535),
        _ => code,
    }
}

/// A code to read, or hundredths to write.
pub fn some_of_numbers(generator: &mut Generator, function: Function) -> Call {
    match function {
        Function::FloatValue => Call {
            function,
            arguments: vec![Argument::Number(some_number(generator))],
        },
        _ => write(some_written(generator)),
    }
}

/// Two octets, or fewer, or more.
pub fn some_octets(generator: &mut Generator) -> Vec<u8> {
    let [high, low] = some_code(generator).to_be_bytes();
    match generator.below(8) {
        0 => vec![high],
        1 => vec![high, low, generator.octet()],
        2 => {
            let length = 3 + generator.below(4);
            generator.octets(length)
        }
        _ => vec![high, low],
    }
}

/// Near a border of the writer's rules, any in its range, or outside.
fn some_written(generator: &mut Generator) -> i64 {
    let way = generator.below(9) as i64 - 4;
    match generator.below(8) {
        0 | 1 => generator.one_of(&borders()) + way,
        2..=4 => some_hundredths(generator),
        5 => LEAST - 1 - way.abs(),
        6 => MOST + 1 + way.abs(),
        _ => generator.number() as i64,
    }
}

fn write(hundredths: i64) -> Call {
    Call {
        function: Function::FloatWrite,
        arguments: vec![Argument::Signed(hundredths)],
    }
}

fn add(total: Lent, code: u32) -> Call {
    Call {
        function: Function::TotalAdd,
        arguments: vec![Argument::Room(total), Argument::Number(code)],
    }
}

fn take(total: Lent, memory: Lent, group: u32, octets: Lent) -> Call {
    Call {
        function: Function::Take,
        arguments: vec![
            Argument::Room(total),
            Argument::Room(memory),
            Argument::Number(group),
            Argument::Octets(octets),
        ],
    }
}

/// What is not left to chance: each border of the writer's rules with its neighbours, the sums at both
/// ends of the total, blocks of other lengths.
pub fn calls() -> Vec<Call> {
    let mut calls = Vec::new();
    for border in borders() {
        calls.extend((border - 1..=border + 1).map(write));
    }
    // Bits that 32 bits lack, and low ones that alone would be right.
    calls.extend(
        [
            i64::MIN,
            i64::MAX,
            1 << 32,
            (1 << 32) + 2_100,
            2_100 - (1 << 32),
        ]
        .map(write),
    );
    for code in [0x0001, 0x0c1a, 0x7ffe, 0x87ff, 0xf800, 0x0000, INVALID] {
        let value = i64::from(reference::leak::value(code).unwrap_or(0));
        for end in [i64::MIN, i64::MAX] {
            for past in -1..=1 {
                let start = end.wrapping_sub(value).wrapping_add(past);
                calls.push(add(start.to_be_bytes().to_vec().into(), code.into()));
            }
        }
    }
    let zeros = |length| vec![0; length].into();
    for length in other_lengths(TOTAL_SIZE) {
        calls.push(add(zeros(length), 0x0c1a));
        calls.push(take(zeros(length), zeros(MEMORY_SIZE), 0x1234, increment()));
    }
    for length in other_lengths(MEMORY_SIZE) {
        calls.push(take(zeros(TOTAL_SIZE), zeros(length), 0x1234, increment()));
    }
    calls
}

fn other_lengths(size: usize) -> [usize; 3] {
    [0, size - 1, size + 1]
}

/// A frame with an increment to group 1234h.
fn increment() -> Lent {
    let given = Given {
        extended: 0,
        first_sending: 1,
        priority: 3,
        source: 0x4712,
        group: 1,
        destination: 0x1234,
        count: 6,
    };
    tp1(&given, &[0x00, 0x80, 0x0c, 0x1a]).into()
}

/// One station, and what is heard on its line.
pub struct Series {
    meters: Meters,
    total: Vec<u8>,
    memory: Vec<u8>,
}

impl Series {
    pub fn new(generator: &mut Generator) -> Series {
        Series {
            meters: Meters::new(generator),
            total: some_total(generator).to_be_bytes().to_vec(),
            memory: vec![0; MEMORY_SIZE],
        }
    }

    /// What the last call left, where its blocks had their lengths.
    pub fn keep(&mut self, rooms: &[Vec<u8>]) {
        for room in rooms {
            match room.len() {
                TOTAL_SIZE => self.total.clone_from(room),
                MEMORY_SIZE => self.memory.clone_from(room),
                _ => {}
            }
        }
    }

    /// A size that no call leaves: of no frame, or of less than one.
    pub fn spoil_size(&mut self, generator: &mut Generator) {
        let size = match generator.below(3) {
            0 => 264,
            1 => 264 + generator.below(65_536 - 264),
            _ => 1 + generator.below(7),
        };
        self.memory[..2].copy_from_slice(&(size as u16).to_be_bytes());
    }

    pub fn add(&self, generator: &mut Generator) -> Call {
        let total = some_block(generator, &self.total);
        add(total, some_number(generator))
    }

    pub fn take(&mut self, generator: &mut Generator) -> Call {
        let octets = match generator.below(64) {
            0 => Lent::Null,
            _ => self.meters.next(generator).into(),
        };
        let group = self.meters.group.into();
        let group = match generator.below(32) {
            0 => outside(generator, group, 65_535),
            _ => group,
        };
        let total = some_block(generator, &self.total);
        take(total, some_block(generator, &self.memory), group, octets)
    }
}

/// The block, or seldom one of another length.
fn some_block(generator: &mut Generator, block: &[u8]) -> Lent {
    let mut block = block.to_vec();
    match generator.below(96) {
        0 => return Lent::Null,
        1 => block.truncate(block.len() - 1),
        2 => block.push(generator.octet()),
        _ => {}
    }
    block.into()
}
