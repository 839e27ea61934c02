//! Steps that hear frames marked repeated, each with one bit other than the frame that its side
//! remembers, or with a payload one octet longer or shorter. None is a repetition, so that each is
//! forwarded; only the last but one of a walk is the same again.

use crate::answer::{Answer, MEMORY_SIZE, SETTINGS_SIZE};
use crate::call::{Argument, Call, Function, Lent};
use inputs::frames::{mend_check, tp1};
use reference::coupler::ROOM_SIZE;
use reference::Given;

const REPEAT_BIT: u8 = 0x20;
/// Its octet, and its place there.
const MARK: (usize, u8) = (0, 5);

/// The settings of the coupler 4.7 with every code open, and a side of it.
#[derive(Clone, Copy)]
struct Way {
    medium: u8,
    side: u32,
}

impl Way {
    fn step(self, memory: &[u8], octets: &[u8]) -> Call {
        let mut settings = [2; SETTINGS_SIZE];
        settings[0] = 0x47;
        settings[SETTINGS_SIZE - 1] = self.medium;
        Call {
            function: Function::Step,
            arguments: vec![
                Argument::Octets(settings.to_vec().into()),
                Argument::Octets(Lent::Null),
                Argument::Number(self.side),
                Argument::Room(memory.to_vec().into()),
                Argument::Octets(octets.to_vec().into()),
                Argument::Room(Lent::Filled {
                    length: ROOM_SIZE,
                    octet: 0x55,
                }),
            ],
        }
    }

    /// One step after the other, beginning with nothing remembered.
    fn steps(self, frames: &[Vec<u8>]) -> Vec<Call> {
        let mut memory = vec![0; MEMORY_SIZE];
        let mut calls = Vec::new();
        for octets in frames {
            let call = self.step(&memory, octets);
            memory = Answer::of(&call).rooms.swap_remove(0);
            calls.push(call);
        }
        calls
    }
}

/// A first sending to group 1234h.
fn first(extended: u8, length: usize) -> Vec<u8> {
    let given = Given {
        extended,
        first_sending: 1,
        priority: 3,
        source: 0x4712,
        group: 1,
        destination: 0x1234,
        count: 6,
    };
    tp1(&given, &vec![0x81; length])
}

/// The frame marked repeated, if it is one with the check octet mended.
fn repeated(octets: &[u8]) -> Option<Vec<u8>> {
    let mut octets = octets.to_vec();
    octets[0] &= !REPEAT_BIT;
    mend_check(&mut octets);
    reference::tp1::read(&octets).is_ok().then_some(octets)
}

/// A frame; then each marked repeated and one bit other than the one before, in these bits of every
/// octet; the last one again, and once more as a first sending.
fn walk(first: Vec<u8>, bits: impl Fn(usize) -> Vec<u8>) -> Vec<Vec<u8>> {
    let mut frames = vec![first];
    for place in 0..frames[0].len() - 1 {
        for bit in bits(place).into_iter().filter(|&bit| (place, bit) != MARK) {
            let mut octets = frames[frames.len() - 1].clone();
            octets[place] ^= 1 << bit;
            frames.extend(repeated(&octets));
        }
    }
    let last = frames[frames.len() - 1].clone();
    let mut again = last.clone();
    again[0] |= REPEAT_BIT;
    mend_check(&mut again);
    frames.extend([last, again]);
    frames
}

/// Payloads that are the front of the one before, or have it as their front.
fn lengths(extended: u8, lengths: &[usize]) -> Vec<Vec<u8>> {
    let frames = lengths.iter().map(|&length| first(extended, length));
    frames.filter_map(|octets| repeated(&octets)).collect()
}

const WAYS: [Way; 3] = [
    Way { medium: 0, side: 0 },
    Way { medium: 0, side: 1 },
    Way { medium: 1, side: 1 },
];

/// From TP1 to TP1 and to IP: all bits of 9 and of 23 octets; of 263, those of the first and last ones,
/// and one of every second octet between.
pub fn calls() -> Vec<Call> {
    let every_bit = |_| (0..8).collect();
    let some_bits = |place| match place {
        0..8 | 260.. => (0..8).collect(),
        _ if place % 2 == 1 => vec![(place / 2 % 8) as u8],
        _ => Vec::new(),
    };
    let [down, up, to_ip] = WAYS;
    [
        down.steps(&walk(first(0, 2), every_bit)),
        to_ip.steps(&walk(first(0, 16), every_bit)),
        up.steps(&walk(first(1, 255), some_bits)),
        down.steps(&lengths(0, &[2, 3, 2, 1, 2, 15, 16, 15])),
        up.steps(&lengths(1, &[2, 1, 2, 254, 255, 254])),
    ]
    .concat()
}

#[cfg(test)]
mod tests {
    use super::*;

    /// The bits in which octets differ, apart from the repeat bit and the check octet.
    fn differing(one: &[u8], other: &[u8]) -> u32 {
        let pairs = one.iter().zip(other).take(one.len() - 1).enumerate();
        let bits = pairs.map(|(place, (one, other))| match place {
            0 => (one ^ other) & !REPEAT_BIT,
            _ => one ^ other,
        });
        bits.map(u8::count_ones).sum()
    }

    #[test]
    fn each_frame_differs_from_the_one_before_in_one_bit() {
        let every_bit = |_| (0..8).collect();
        for (first, steps) in [(first(0, 2), 54), (first(0, 16), 166)] {
            let frames = walk(first, every_bit);
            let (walked, again) = frames.split_at(frames.len() - 2);
            assert_eq!(walked.len(), 1 + steps);
            for pair in walked.windows(2) {
                assert_eq!(differing(&pair[0], &pair[1]), 1);
                assert_eq!(pair[1][0] & REPEAT_BIT, 0);
            }
            assert_eq!(again[0], walked[steps]);
            assert_eq!(differing(&again[0], &again[1]), 0);
        }
    }

    #[test]
    fn each_is_forwarded_but_for_the_repetition() {
        let calls = calls();
        let forwarded = |call: &&Call| Answer::of(call).number >> 32 > 0;
        assert_eq!(calls.iter().filter(forwarded).count(), calls.len() - 3);
        let acknowledged = |call: &Call| Answer::of(call).number & 0xffff_ffff == 0xcc00;
        assert!(calls.iter().all(acknowledged));
    }
}
