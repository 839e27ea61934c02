//! How often frames came that are repetitions, or differ from one by little: "all octets must agree
//! except the repeat bit and the check octet" (R-2).

use crate::couplers::forwarded;
use reference::coupler::{Remembered, LARGEST_FRAME};
use reference::tp1::{self, Frame};
use reference::{Format, Meaning};
use std::fmt;

/// Bit 5 of the control octet: 0 repeated.
pub const REPEAT_BIT: u8 = 0x20;

/// The bits of an octet that are compared: all "except the repeat bit and the check octet".
pub fn compared_bits(size: usize, place: usize) -> u8 {
    match place {
        0 => !REPEAT_BIT,
        _ if place + 1 == size => 0,
        _ => 0xff,
    }
}

/// The compared bits that differ, where both have as many octets: each by the place of its octet and
/// its own there.
pub fn differences(remembered: &[u8], octets: &[u8]) -> Vec<(usize, usize)> {
    assert_eq!(remembered.len(), octets.len());
    let mut differences = Vec::new();
    for (place, (one, other)) in remembered.iter().zip(octets).enumerate() {
        let mut bits = (one ^ other) & compared_bits(octets.len(), place);
        while bits != 0 {
            differences.push((place, bits.trailing_zeros() as usize));
            bits &= bits - 1;
        }
    }
    differences
}

/// Whether accepted octets are a repetition of those remembered: marked repeated, as many, and alike.
pub fn is_repetition_of(remembered: &[u8], octets: &[u8]) -> bool {
    octets[0] & REPEAT_BIT == 0
        && remembered.len() == octets.len()
        && differences(remembered, octets).is_empty()
}

/// Whether a frame with this bit changed, its check octet mended, can be a frame: the format's bit too,
/// where the octets are one in either format.
fn leaves_a_frame(format: Format, place: usize, bit: usize) -> bool {
    match (format, place) {
        (_, 0) => matches!(bit, 2 | 3 | 7),
        (Format::Standard, 5) | (Format::Extended, 1) => bit >= 4,
        (Format::Extended, 6) => false,
        _ => true,
    }
}

/// How often each came from a TP1 side.
pub struct Repetitions {
    /// Repetitions by the mark of the frame remembered: repeated, first sending.
    by_mark: [u64; 2],
    /// Accepted frames marked repeated that differ from the remembered one in a single bit: by format,
    /// octet and bit.
    by_bit: [Box<[[u64; 8]; LARGEST_FRAME]>; 2],
    /// How many of these were forwarded.
    forwarded: u64,
    /// Accepted frames marked repeated with a payload one octet shorter than the remembered one's, or
    /// longer, and nothing else changed.
    by_length: [u64; 2],
    /// Those that differ in the count alone, by however many bits, and in the format alone.
    other_count: u64,
    other_format: u64,
    /// Octets refused, marked repeated, that differ from those remembered in a single bit at most.
    refused: [u64; 7],
}

impl Default for Repetitions {
    fn default() -> Repetitions {
        Repetitions {
            by_mark: [0; 2],
            by_bit: [(); 2].map(|()| Box::new([[0; 8]; LARGEST_FRAME])),
            forwarded: 0,
            by_length: [0; 2],
            other_count: 0,
            other_format: 0,
            refused: [0; 7],
        }
    }
}

impl Repetitions {
    pub fn add(&mut self, remembered: &Remembered, octets: &[u8], answer: u64) {
        let (Some(remembered), Some(&control)) = (remembered.frame(), octets.first()) else {
            return;
        };
        if control & REPEAT_BIT != 0 {
            return;
        }
        let as_many = remembered.len() == octets.len();
        let differences = as_many.then(|| differences(remembered, octets));
        match (answer as u8, differences.as_deref()) {
            (0, Some([])) => self.by_mark[usize::from(remembered[0] & REPEAT_BIT != 0)] += 1,
            (0, Some(&[(place, bit)])) => {
                let extended = usize::from(control & 0x80 == 0);
                self.by_bit[extended][place][bit] += 1;
                self.forwarded += u64::from(forwarded(answer) > 0);
            }
            (number @ 1..=6, Some([] | [_])) => self.refused[usize::from(number)] += 1,
            _ => {}
        }
        if answer as u8 == 0 {
            self.add_meanings(remembered, octets);
        }
    }

    /// What shows in the meanings rather than in single bits.
    fn add_meanings(&mut self, remembered: &[u8], octets: &[u8]) {
        let (Ok(before), Ok(heard)) = (tp1::read(remembered), tp1::read(octets)) else {
            return;
        };
        let (one, other) = (before.payload, heard.payload);
        if is_marked_alike(&before, &heard, |_, meaning| meaning) {
            let shorter = one.len() == other.len() + 1 && one.starts_with(other);
            let longer = one.len() + 1 == other.len() && other.starts_with(one);
            self.by_length[0] += u64::from(shorter);
            self.by_length[1] += u64::from(longer);
        } else if one == other {
            let count = |from: &Meaning, to| Meaning {
                count: from.count,
                ..to
            };
            let format = |from: &Meaning, to| Meaning {
                format: from.format,
                ..to
            };
            self.other_count += u64::from(is_marked_alike(&before, &heard, count));
            self.other_format += u64::from(is_marked_alike(&before, &heard, format));
        }
    }

    /// Asserts that each came: every bit that leaves a frame, of all octets of a standard frame and of
    /// the first and last ones of a long one; and each octet between.
    pub fn assert_covers(&self, steps: u64) {
        let [repeated, first] = self.by_mark;
        let often = [repeated, first, self.forwarded];
        assert!(often.iter().min() >= Some(&(steps / 100)), "{self}");
        let [shorter, longer] = self.by_length;
        let seldom = [shorter, longer, self.other_count, self.other_format];
        assert!(seldom.iter().min() >= Some(&(steps / 2000)), "{self}");
        let refused = self.refused[1..].iter().min();
        assert!(refused >= Some(&(steps / 100_000)), "{self}");
        // The last octet, the 23rd or the 263rd, is the check octet.
        self.assert_bits(Format::Standard, 0..=21);
        self.assert_bits(Format::Extended, (0..=22).chain(260..=261));
        let [_, extended] = &self.by_bit;
        for place in (0..=261).filter(|&place| place != 6) {
            let times: u64 = extended[place].iter().sum();
            assert!(times > 0, "octet {place} of an extended frame never");
        }
    }

    fn assert_bits(&self, format: Format, places: impl Iterator<Item = usize>) {
        let by_bit = &self.by_bit[usize::from(format == Format::Extended)];
        for place in places {
            for bit in (0..8).filter(|&bit| leaves_a_frame(format, place, bit)) {
                let times = by_bit[place][bit];
                assert!(times > 0, "bit {bit} of octet {place}, {format:?}, never");
            }
        }
    }
}

/// Whether two frames agree in all but payload and repeat flag, once something is carried over from
/// the first.
fn is_marked_alike(
    before: &Frame<'_>,
    heard: &Frame<'_>,
    carry: impl Fn(&Meaning, Meaning) -> Meaning,
) -> bool {
    let heard = Meaning {
        first_sending: before.meaning.first_sending,
        ..heard.meaning
    };
    carry(&before.meaning, heard) == before.meaning
}

impl fmt::Display for Repetitions {
    fn fmt(&self, f: &mut fmt::Formatter<'_>) -> fmt::Result {
        let times = |bits: &[[u64; 8]; LARGEST_FRAME]| bits.as_flattened().iter().sum::<u64>();
        let [standard, extended] = self.by_bit.each_ref().map(|bits| times(bits));
        let [repeated, first] = self.by_mark;
        let [shorter, longer] = self.by_length;
        write!(
            f,
            "repetitions of a repeat: {repeated}, of a first sending: {first}; another bit, \
             standard: {standard}, extended: {extended}, forwarded: {}; an octet shorter: \
             {shorter}, longer: {longer}; another count: {}; another format: {}; another bit and \
             refused, by number:",
            self.forwarded, self.other_count, self.other_format
        )?;
        let mut refused = (1..).zip(&self.refused[1..]);
        refused.try_for_each(|(number, times)| write!(f, " {number}: {times}"))
    }
}
