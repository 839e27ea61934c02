//! A station's calls for the comparison: two implementations are asked the same, each with a total
//! and a memory of its own that are carried on, and the first answer or block in which they differ is
//! reported.

use klumdray::raw;
use klumdray::station::MEMORY_SIZE;
use reference::coupler::Remembered;
use reference::station::{Station, Taken};
use std::fmt;

pub const TOTAL: usize = klumdray::leak::TOTAL_SIZE;
pub const MEMORY: usize = MEMORY_SIZE;

/// What is lent at most, and octets behind it that were not.
const LARGEST_TOTAL: usize = TOTAL + 1;
const LARGEST_MEMORY: usize = MEMORY + 1;
const NOT_LENT: usize = 16;

/// What one call is lent.
pub struct Lent<'a> {
    pub total: &'a mut [u8],
    pub memory: &'a mut [u8],
    pub group: u32,
    pub octets: &'a [u8],
}

pub type Taker = dyn FnMut(&mut Lent<'_>) -> u32;

pub fn library_take(lent: &mut Lent<'_>) -> u32 {
    raw::take(lent.total, lent.memory, lent.group, lent.octets)
}

pub fn reference_take(lent: &mut Lent<'_>) -> u32 {
    by_station(lent, Station::take)
}

/// A station behind the library's surface, which adds the blocks and refusals of its own.
pub fn by_station(
    lent: &mut Lent<'_>,
    take: impl Fn(&mut Station, &[u8]) -> Result<Taken, u8>,
) -> u32 {
    let Some(mut station) = lent.station() else {
        return 14;
    };
    let answer = take(&mut station, lent.octets);
    lent.total.copy_from_slice(&station.total.to_be_bytes());
    put_remembered(lent.memory, &station.remembered);
    packed(answer)
}

impl Lent<'_> {
    /// The station; none where a block has another length or the number is no group's.
    pub fn station(&self) -> Option<Station> {
        let octets = <[u8; TOTAL]>::try_from(&*self.total).ok()?;
        let memory = <[u8; MEMORY]>::try_from(&*self.memory).ok()?;
        Some(Station {
            group: self.group.try_into().ok()?,
            total: i64::from_be_bytes(octets),
            remembered: remembered(&memory),
        })
    }
}

/// The memory's block: two octets of size, high first, and the frame.
pub fn remembered(memory: &[u8]) -> Remembered {
    let (size, octets) = memory[..MEMORY].split_at(2);
    Remembered {
        size: usize::from(u16::from_be_bytes([size[0], size[1]])),
        octets: octets.try_into().expect("the octets of a frame"),
    }
}

pub fn put_remembered(memory: &mut [u8], remembered: &Remembered) {
    let (size, octets) = memory[..MEMORY].split_at_mut(2);
    size.copy_from_slice(&(remembered.size as u16).to_be_bytes());
    octets.copy_from_slice(&remembered.octets);
}

/// What came of a call, as a place in `KINDS`.
fn kind(taken: Taken) -> u32 {
    match taken {
        Taken::Counted(_) => 1,
        Taken::Repetition => 2,
        Taken::AnotherGroup => 3,
        Taken::NoIncrement => 4,
    }
}

const KINDS: [&str; 5] = [
    "refused",
    "counted",
    "repetition",
    "another group",
    "no increment",
];

/// An answer by the bits that include/klumdray.h names.
pub fn packed(answer: Result<Taken, u8>) -> u32 {
    match answer {
        Ok(taken @ Taken::Counted(code)) => kind(taken) << 8 | u32::from(code) << 16,
        Ok(taken) => kind(taken) << 8,
        Err(number) => number.into(),
    }
}

/// One call of a series, and how much of the blocks it is lent.
pub struct Call {
    pub group: u32,
    pub total: usize,
    pub memory: usize,
    pub octets: Vec<u8>,
}

/// Total and memory, and what is behind them.
type Blocks = (
    [u8; LARGEST_TOTAL + NOT_LENT],
    [u8; LARGEST_MEMORY + NOT_LENT],
);

pub struct Comparison<'s> {
    proved: &'s mut Taker,
    reference: &'s mut Taker,
    /// The blocks of each, equal so far.
    blocks: [Blocks; 2],
    numbers: [u64; 256],
    kinds: [u64; KINDS.len()],
}

impl<'s> Comparison<'s> {
    pub fn new(proved: &'s mut Taker, reference: &'s mut Taker) -> Comparison<'s> {
        let blocks = (
            [0; LARGEST_TOTAL + NOT_LENT],
            [0; LARGEST_MEMORY + NOT_LENT],
        );
        Comparison {
            proved,
            reference,
            blocks: [blocks; 2],
            numbers: [0; 256],
            kinds: [0; KINDS.len()],
        }
    }

    /// Stations that have this total and remember nothing.
    pub fn begin(&mut self, total: i64) {
        for (octets, memory) in &mut self.blocks {
            octets[..TOTAL].copy_from_slice(&total.to_be_bytes());
            memory[..MEMORY].fill(0);
        }
    }

    pub fn remembered(&self) -> Remembered {
        remembered(&self.blocks[0].1)
    }

    /// A memory as no call leaves it: of another size, or with other octets.
    pub fn spoil(&mut self, remembered: &Remembered) {
        for (_, memory) in &mut self.blocks {
            put_remembered(memory, remembered);
        }
    }

    /// Compares the answers, the whole blocks, and octets behind them.
    pub fn take(&mut self, call: &Call) -> Result<(), String> {
        let [found, expected] = &mut self.blocks;
        let answer = (self.proved)(&mut call.lent(found));
        let answer_expected = (self.reference)(&mut call.lent(expected));
        if answer == answer_expected && found == expected {
            self.numbers[usize::from(answer as u8)] += 1;
            self.kinds[(answer >> 8 & 0xff) as usize] += 1;
            return Ok(());
        }
        let [total, total_expected] = [&found.0, &expected.0].map(|block| &block[..TOTAL]);
        let memories = if found.1 == expected.1 {
            "alike"
        } else {
            "different"
        };
        Err(format!(
            "{answer:x}, reference {answer_expected:x}; total {total:02x?}, reference \
             {total_expected:02x?}; memories {memories}; {call}"
        ))
    }

    pub fn calls(&self) -> u64 {
        self.numbers.iter().sum()
    }

    /// Asserts that the comparison was about something: each outcome many times.
    pub fn assert_covers(&self, calls: u64, numbers: &[u8]) {
        assert!(self.calls() >= calls, "only {} calls", self.calls());
        for (name, times) in KINDS.iter().zip(self.kinds) {
            assert!(times >= calls / 50, "{name} only {times} times");
        }
        for &number in numbers {
            let times = self.numbers[usize::from(number)];
            assert!(times >= calls / 2000, "{number} only {times} times");
        }
    }
}

impl Call {
    fn lent<'a>(&'a self, (total, memory): &'a mut Blocks) -> Lent<'a> {
        Lent {
            total: &mut total[..self.total],
            memory: &mut memory[..self.memory],
            group: self.group,
            octets: &self.octets,
        }
    }
}

impl fmt::Display for Call {
    fn fmt(&self, f: &mut fmt::Formatter<'_>) -> fmt::Result {
        let Call {
            group,
            total,
            memory,
            octets,
        } = self;
        write!(
            f,
            "group {group:x}, total of {total}, memory of {memory}, octets {octets:02x?}"
        )
    }
}

impl fmt::Display for Comparison<'_> {
    fn fmt(&self, f: &mut fmt::Formatter<'_>) -> fmt::Result {
        write!(f, "{} calls;", self.calls())?;
        for (name, times) in KINDS.iter().zip(self.kinds) {
            write!(f, " {name}: {times};")?;
        }
        write!(f, " by number:")?;
        let numbers = self.numbers.iter().enumerate();
        numbers
            .filter(|(_, &times)| times > 0)
            .try_for_each(|(number, times)| write!(f, " {number}: {times}"))
    }
}
