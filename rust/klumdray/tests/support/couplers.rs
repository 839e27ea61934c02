//! Steps for the comparison: two implementations are asked the same, each with a memory of its own
//! that is carried on, and the first answer, memory or room in which they differ is reported.

use crate::repetitions::Repetitions;
use inputs::frames::given;
use klumdray::raw;
use reference::coupler::{Acknowledgement, Coupler, Memory, Outcome, Remembered};
use reference::Meaning;
use std::fmt;
use std::ops::Range;

/// The octets of a block of settings, and what stands where in it: line, codes, main medium.
pub const SETTINGS: usize = 10;
pub const LINE: usize = 0;
pub const CODES: Range<usize> = 1..9;
pub const MEDIUM: usize = 9;

pub const MEMORY: usize = 530;
const PART: usize = MEMORY / 2;

/// Memory and room lent at most, and octets behind them that were not.
const LARGEST_MEMORY: usize = MEMORY + 1;
pub const LARGEST_ROOM: usize = 300;
const NOT_LENT: usize = 16;

/// The settings of a step, in their ranges or not.
#[derive(Clone, Copy)]
pub struct Setting<'a> {
    pub settings: &'a [u8],
    pub table: &'a [u8],
    pub side: u8,
}

impl<'a> Setting<'a> {
    pub fn numbers(&self) -> raw::Setting<'a> {
        raw::Setting {
            settings: self.settings,
            table: self.table,
            side: self.side.into(),
        }
    }
}

/// What one step is lent.
pub struct Lent<'a> {
    pub setting: Setting<'a>,
    pub memory: &'a mut [u8],
    pub octets: &'a [u8],
    pub room: &'a mut [u8],
}

pub type Stepper = dyn FnMut(&mut Lent<'_>) -> u64;

pub fn library_step(lent: &mut Lent<'_>) -> u64 {
    raw::step(&lent.setting.numbers(), lent.memory, lent.octets, lent.room)
}

/// The reference behind the library's surface, which adds the blocks and a refusal of their own.
pub fn reference_step(lent: &mut Lent<'_>) -> u64 {
    let (Some((coupler, medium)), MEMORY) = (lent.coupler(), lent.memory.len()) else {
        return packed(Outcome::refused(14));
    };
    let mut memory = Memory {
        main: part(lent.memory, 0),
        sub: part(lent.memory, 1),
    };
    let side = lent.setting.side;
    let outcome =
        reference::coupler::step(&coupler, side, medium, &mut memory, lent.octets, lent.room);
    put_part(lent.memory, 0, &memory.main);
    put_part(lent.memory, 1, &memory.sub);
    packed(outcome)
}

/// A block of settings.
pub fn settings(line: u8, codes: [[u8; 4]; 2], medium: u8) -> [u8; SETTINGS] {
    let mut settings = [0; SETTINGS];
    settings[LINE] = line;
    settings[CODES].copy_from_slice(codes.as_flattened());
    settings[MEDIUM] = medium;
    settings
}

impl<'a> Lent<'a> {
    /// The coupler and its main medium's number; none where the settings are not ten octets.
    pub fn coupler(&self) -> Option<(Coupler<'a>, u8)> {
        let &[line, d0, d1, d2, d3, u0, u1, u2, u3, medium] = self.setting.settings else {
            return None;
        };
        let coupler = Coupler {
            line,
            codes: [[d0, d1, d2, d3], [u0, u1, u2, u3]],
            table: self.setting.table,
        };
        Some((coupler, medium))
    }

    pub fn medium(&self) -> Option<u8> {
        medium(&self.setting)
    }

    pub fn is_from_ip(&self) -> bool {
        is_from_ip(&self.setting)
    }

    pub fn heard(&self) -> Option<(Meaning, &'a [u8])> {
        heard(&self.setting, self.octets)
    }
}

fn medium(setting: &Setting<'_>) -> Option<u8> {
    setting.settings.get(MEDIUM).copied()
}

/// Whether the octets are to be a routing datagram.
pub fn is_from_ip(setting: &Setting<'_>) -> bool {
    (setting.side, medium(setting)) == (0, Some(1))
}

/// Meaning and payload of octets that the reader of that side accepts.
fn heard<'a>(setting: &Setting<'_>, octets: &'a [u8]) -> Option<(Meaning, &'a [u8])> {
    if is_from_ip(setting) {
        let frame = reference::routing::read(octets).ok()?;
        Some((frame.meaning, frame.payload))
    } else {
        let frame = reference::tp1::read(octets).ok()?;
        Some((frame.meaning, frame.payload))
    }
}

/// A side's part of the block: two octets of size, high first, and the frame.
pub fn part(memory: &[u8], side: usize) -> Remembered {
    let (size, octets) = memory[side * PART..][..PART].split_at(2);
    Remembered {
        size: usize::from(u16::from_be_bytes([size[0], size[1]])),
        octets: octets.try_into().expect("the octets of a part"),
    }
}

pub fn put_part(memory: &mut [u8], side: usize, remembered: &Remembered) {
    let (size, octets) = memory[side * PART..][..PART].split_at_mut(2);
    size.copy_from_slice(&(remembered.size as u16).to_be_bytes());
    octets.copy_from_slice(&remembered.octets);
}

/// Puts a frame into a side's part, and leaves what stands behind it.
pub fn put_frame(memory: &mut [u8], side: usize, frame: &[u8]) {
    let (size, octets) = memory[side * PART..][..PART].split_at_mut(2);
    size.copy_from_slice(&(frame.len() as u16).to_be_bytes());
    octets[..frame.len()].copy_from_slice(frame);
}

/// A step's answer by the bits that include/klumdray.h names, all four parts whatever the number is.
pub fn packed(outcome: Outcome) -> u64 {
    let acknowledgement = outcome.acknowledgement.map_or(0, Acknowledgement::octet);
    u64::from(outcome.number)
        | u64::from(acknowledgement) << 8
        | u64::from(outcome.own) << 16
        | (outcome.forwarded as u64) << 32
}

pub fn is_acknowledged(answer: u64) -> bool {
    answer >> 8 & 0xff != 0
}

pub fn is_own(answer: u64) -> bool {
    answer >> 16 & 1 == 1
}

pub fn forwarded(answer: u64) -> usize {
    (answer >> 32) as usize
}

/// Only a repetition is acknowledged, not the coupler's own, and yet not forwarded.
pub fn is_repetition(answer: u64) -> bool {
    is_acknowledged(answer) && !is_own(answer) && forwarded(answer) == 0
}

const KINDS: [&str; 9] = [
    "TP1 to TP1 down",
    "TP1 to TP1 up",
    "IP to TP1",
    "TP1 to IP",
    "stopped from TP1",
    "stopped from IP",
    "own from TP1",
    "own from IP",
    "repetition",
];

/// The kind of a step that is not refused, as a place in `KINDS`.
fn kind(setting: &Setting<'_>, answer: u64) -> usize {
    let from_ip = usize::from(is_from_ip(setting));
    if forwarded(answer) > 0 {
        usize::from(setting.side) + 2 * usize::from(setting.settings[MEDIUM])
    } else if is_own(answer) {
        6 + from_ip
    } else if is_repetition(answer) {
        8
    } else {
        4 + from_ip
    }
}

/// The place of an address in a row of codes.
fn class(meaning: &Meaning) -> usize {
    match (meaning.group, meaning.destination) {
        (false, _) => 0,
        (true, 0) => 1,
        (true, 1..=0x6fff) => 2,
        (true, _) => 3,
    }
}

/// How often each came of the reference.
struct Counts {
    kinds: [u64; KINDS.len()],
    numbers: [u64; 256],
    /// By format and payload length.
    lengths: [[u64; 256]; 2],
    /// By place and value of the code asked, stopped and forwarded, the coupler's own and count 0
    /// apart.
    codes: [[[u64; 2]; 3]; 8],
    repetitions: Repetitions,
}

impl Counts {
    fn add(&mut self, setting: &Setting<'_>, memory: &[u8], octets: &[u8], answer: u64) {
        self.numbers[usize::from(answer as u8)] += 1;
        if setting.side < 2 && !is_from_ip(setting) {
            let remembered = part(memory, setting.side.into());
            self.repetitions.add(&remembered, octets, answer);
        }
        if answer as u8 != 0 {
            return;
        }
        self.kinds[kind(setting, answer)] += 1;
        let (meaning, payload) = heard(setting, octets).expect("an accepted frame");
        self.lengths[usize::from(given(&meaning).extended)][payload.len()] += 1;
        if !is_own(answer) && !is_repetition(answer) && meaning.count > 0 {
            let place = usize::from(setting.side) * 4 + class(&meaning);
            let code = usize::from(setting.settings[CODES][place]);
            self.codes[place][code][usize::from(forwarded(answer) > 0)] += 1;
        }
    }

    /// Each code stops or forwards; 1 does both, and is no code for broadcast.
    fn assert_codes(&self, least: u64) {
        for (place, [closed, asks, open]) in self.codes.iter().enumerate() {
            assert!(
                closed[0] >= least && closed[1] == 0,
                "0 at {place}: {closed:?}"
            );
            assert!(open[1] >= least && open[0] == 0, "2 at {place}: {open:?}");
            let least = if place % 4 == 1 { 0 } else { least };
            assert!(asks.iter().min() >= Some(&least), "1 at {place}: {asks:?}");
        }
    }
}

pub struct Comparison<'s> {
    proved: &'s mut Stepper,
    reference: &'s mut Stepper,
    /// The memory of each, equal so far.
    memories: [[u8; LARGEST_MEMORY + NOT_LENT]; 2],
    counts: Counts,
}

impl<'s> Comparison<'s> {
    pub fn new(proved: &'s mut Stepper, reference: &'s mut Stepper) -> Comparison<'s> {
        Comparison {
            proved,
            reference,
            memories: [[0; LARGEST_MEMORY + NOT_LENT]; 2],
            counts: Counts {
                kinds: [0; KINDS.len()],
                numbers: [0; 256],
                lengths: [[0; 256]; 2],
                codes: [[[0; 2]; 3]; 8],
                repetitions: Repetitions::default(),
            },
        }
    }

    /// Both memories as at the start.
    pub fn forget(&mut self) {
        for memory in &mut self.memories {
            memory[..MEMORY].fill(0);
        }
    }

    /// What a side remembers, in both memories.
    pub fn remembered(&self, side: usize) -> Remembered {
        part(&self.memories[0], side)
    }

    /// A memory as no step leaves it: of another size, or with other octets.
    pub fn spoil(&mut self, side: usize, remembered: &Remembered) {
        for memory in &mut self.memories {
            put_part(memory, side, remembered);
        }
    }

    /// Compares the answers, the whole memories and rooms, and octets behind both; gives the answer.
    pub fn step(
        &mut self,
        setting: Setting<'_>,
        lent_memory: usize,
        octets: &[u8],
        lent_room: usize,
    ) -> Result<u64, String> {
        let mut room = [self.steps() as u8; LARGEST_ROOM + NOT_LENT];
        let mut expected_room = room;
        let [memory, expected_memory] = &mut self.memories;
        let before = *expected_memory;
        let answer = (self.proved)(&mut Lent {
            setting,
            memory: &mut memory[..lent_memory],
            octets,
            room: &mut room[..lent_room],
        });
        let expected = (self.reference)(&mut Lent {
            setting,
            memory: &mut expected_memory[..lent_memory],
            octets,
            room: &mut expected_room[..lent_room],
        });
        let difference = if answer != expected {
            format!("{answer:x}, reference {expected:x}")
        } else if let Some(place) = difference(&room, &expected_room) {
            format!("room differs at {place}")
        } else if let Some(place) = difference(memory, expected_memory) {
            format!("memory differs at {place}")
        } else {
            self.counts.add(&setting, &before, octets, expected);
            return Ok(expected);
        };
        let asked = asked(&setting, lent_memory, octets, lent_room);
        Err(format!("{difference}; {asked}"))
    }

    pub fn steps(&self) -> u64 {
        self.counts.numbers.iter().sum()
    }

    /// Asserts that the comparison was about something: each outcome many times.
    pub fn assert_covers(&self, steps: u64, numbers: &[u8]) {
        assert!(self.steps() >= steps, "only {} steps", self.steps());
        for (name, times) in KINDS.iter().zip(self.counts.kinds) {
            assert!(times >= steps / 100, "{name} only {times} times");
        }
        for &number in numbers {
            let times = self.counts.numbers[usize::from(number)];
            assert!(times >= steps / 2000, "{number} only {times} times");
        }
        self.counts.assert_codes(steps / 1000);
        self.counts.repetitions.assert_covers(steps);
        let [standard, extended] = &self.counts.lengths;
        let least = standard[1..=16].iter().chain(&extended[1..]).min();
        assert!(least >= Some(&(steps / 20_000)), "a length {least:?} times");
    }
}

/// The first place where octets and the reference's differ, and both of them.
fn difference(found: &[u8], expected: &[u8]) -> Option<String> {
    let mut pairs = found.iter().zip(expected).enumerate();
    let (place, (found, expected)) = pairs.find(|(_, (found, expected))| found != expected)?;
    Some(format!("{place}: {found:02x}, reference {expected:02x}"))
}

/// What was asked, the filter table by its size alone.
fn asked(setting: &Setting<'_>, memory: usize, octets: &[u8], room: usize) -> String {
    let Setting {
        settings,
        table,
        side,
    } = setting;
    let table = table.len();
    format!(
        "settings {settings:02x?} side {side}, table of {table}, memory of {memory}, \
         room of {room}, octets {octets:02x?}"
    )
}

impl fmt::Display for Comparison<'_> {
    fn fmt(&self, f: &mut fmt::Formatter<'_>) -> fmt::Result {
        write!(f, "{} steps;", self.steps())?;
        for (name, times) in KINDS.iter().zip(self.counts.kinds) {
            write!(f, " {name}: {times};")?;
        }
        write!(f, " by number:")?;
        let numbers = self.counts.numbers.iter().enumerate();
        numbers
            .filter(|(_, &times)| times > 0)
            .try_for_each(|(number, times)| write!(f, " {number}: {times}"))?;
        write!(f, "; {}", self.counts.repetitions)
    }
}
