//! "all octets must agree except the repeat bit and the check octet": what is a repetition,
//! and what differs from one by little.

use super::*;

/// Where frames come from TP1: the main medium, and the receiving side.
const FROM_TP1: [(u8, u8); 3] = [(TP1, MAIN), (TP1, SUB), (IP, SUB)];

/// The payloads of a standard frame of 9 octets, the longest standard and the longest extended one.
const LENGTHS: [(Format, usize); 3] = [
    (Format::Standard, 2),
    (Format::Standard, 16),
    (Format::Extended, 255),
];

fn marked(sent: &Meaning, first_sending: bool) -> Meaning {
    Meaning {
        first_sending,
        ..*sent
    }
}

/// The answer to a frame that an open coupler forwards.
fn sent_on(medium: u8, sent: &Meaning, payload: &[u8]) -> Answer {
    let onward = Meaning {
        first_sending: true,
        count: lowered(sent.count).expect("a count that is forwarded"),
        ..*sent
    };
    match medium {
        IP => forwarded(&datagram_with(&onward, payload)),
        _ => forwarded(&frame_with(&onward, payload)),
    }
}

fn sent_on_as_read(medium: u8, octets: &[u8]) -> Answer {
    let read = tp1::read(octets).expect("a frame");
    sent_on(medium, &read.meaning, read.payload)
}

fn mend(octets: &mut [u8]) {
    let (check, before) = octets.split_last_mut().expect("a check octet");
    *check = before.iter().fold(0xff, |sum, octet| sum ^ octet);
}

fn some_payload(length: usize) -> Vec<u8> {
    (0..length).map(|place| (place * 7) as u8 ^ 0x5a).collect()
}

/// A first sending to group 1234h.
fn sent_in(format: Format) -> Meaning {
    Meaning {
        format,
        ..to_group(0x1234, 6)
    }
}

/// A first sending of each length, and its payload.
fn each_length() -> impl Iterator<Item = (Meaning, Vec<u8>)> {
    LENGTHS
        .into_iter()
        .map(|(format, length)| (sent_in(format), some_payload(length)))
}

/// A frame on its way from TP1, as it is sent first and again.
struct Sending {
    medium: u8,
    side: u8,
    first: Vec<u8>,
    /// The same marked repeated.
    again: Vec<u8>,
    /// The answer where it is no repetition.
    onward: Answer,
}

impl Sending {
    fn new((medium, side): (u8, u8), sent: &Meaning, payload: &[u8]) -> Sending {
        Sending {
            medium,
            side,
            first: frame_with(sent, payload),
            again: frame_with(&repeated(*sent), payload),
            onward: sent_on(medium, sent, payload),
        }
    }
}

/// Each length on each way from TP1.
fn sendings() -> impl Iterator<Item = Sending> {
    each_length().flat_map(|(sent, payload)| FROM_TP1.map(|way| Sending::new(way, &sent, &payload)))
}

// One bit.

/// The refusal that one changed bit draws, the check octet being mended, in a frame from 4712h to
/// group 1234h of 9, 23 or 263 octets; or 0.
fn refusal(size: usize, place: usize, bit: u8) -> u8 {
    match (size, place, bit) {
        (_, 0, 6 | 4 | 1 | 0) => 2,
        // In the other format, EFF is the low half of 47h, and LG that of 34h.
        (9 | 23, 0, 7) => 3,
        (263, 0, 7) => 5,
        (263, 1, 0..=3) => 3,
        // LG is 1, 15 and 254.
        (9, 5, 0) | (23, 5, 0..=3) | (263, 6, 1..=7) => 5,
        (9, 5, 1..=3) => 1,
        (263, 6, 0) => 4,
        _ => 0,
    }
}

/// A frame accepted before, and one with a single bit changed against it, apart from its mark.
struct Pair {
    medium: u8,
    side: u8,
    before: Vec<u8>,
    /// The frame, marked first sending or repeated.
    octets: Vec<u8>,
    /// The same marked repeated.
    again: Vec<u8>,
}

impl Pair {
    /// A coupler that has accepted the frame before.
    fn coupler(&self) -> Fitted<'static> {
        let mut coupler = open(0x47, self.medium);
        coupler.accept(self.side, &self.before);
        coupler
    }

    /// With one bit changed and the check octet mended.
    fn changed(&self, place: usize, bit: u8) -> Vec<u8> {
        let mut octets = self.octets.clone();
        octets[place] ^= 1 << bit;
        mend(&mut octets);
        octets
    }

    /// What "all octets must agree except the repeat bit" says of the changed frame.
    fn expected(&self, place: usize, bit: u8) -> Answer {
        let octets = self.changed(place, bit);
        match refusal(octets.len(), place, bit) {
            0 if octets == self.again => held(),
            0 => sent_on_as_read(self.medium, &octets),
            number => refused(number),
        }
    }

    /// Asserts the answer, and whose repetition the frame marked repeated is afterwards.
    fn assert_bit(&self, place: usize, bit: u8) {
        let (mut coupler, octets) = (self.coupler(), self.changed(place, bit));
        let (answer, expected) = (coupler.take(self.side, &octets), self.expected(place, bit));
        assert_eq!(answer, expected, "bit {bit} of octet {place}");
        if answer.number != 0 || (place, bit) == (0, 5) {
            assert_eq!(coupler.take(self.side, &self.again), held());
            return;
        }
        let mut repeat = octets;
        repeat[0] &= !0x20;
        mend(&mut repeat);
        assert_eq!(coupler.take(self.side, &repeat), held());
        let back = sent_on_as_read(self.medium, &self.again);
        assert_eq!(coupler.take(self.side, &self.again), back);
    }
}

/// Pairs of each length, on each way from TP1, with each mark of the frame before and of the frame.
fn pairs() -> Vec<Pair> {
    let mut pairs = Vec::new();
    for sending in sendings() {
        let marked = [&sending.again, &sending.first];
        for marks in 0..4 {
            pairs.push(Pair {
                medium: sending.medium,
                side: sending.side,
                before: marked[marks % 2].clone(),
                octets: marked[marks / 2].clone(),
                again: sending.again.clone(),
            });
        }
    }
    pairs
}

/// Each bit of each octet in turn, of frames of 9, 23 and 263 octets. The repeat bit changed in a
/// first sending makes it the repetition; any other bit makes it another frame, or none.
#[test]
fn one_bit_of_any_octet_but_the_check_octet() {
    let sizes: Vec<usize> = pairs().iter().map(|pair| pair.before.len()).collect();
    assert!([9, 23, 263].iter().all(|size| sizes.contains(size)));
    for pair in pairs() {
        for place in 0..pair.octets.len() - 1 {
            for bit in 0..8 {
                pair.assert_bit(place, bit);
            }
        }
    }
}

/// Unmended, the frame is refused, by 6 at the latest, and the one before stays remembered.
#[test]
fn one_bit_with_the_check_octet_left_as_it_was() {
    for pair in pairs() {
        let mut coupler = pair.coupler();
        for place in 0..pair.octets.len() {
            for bit in 0..8 {
                let mut octets = pair.octets.clone();
                octets[place] ^= 1 << bit;
                let number = match refusal(octets.len(), place, bit) {
                    0 => 6,
                    number => number,
                };
                assert_eq!(coupler.take(pair.side, &octets), refused(number));
            }
        }
        assert_eq!(coupler.take(pair.side, &pair.again), held());
    }
}

// One part of the frame.

/// Asserts that the second, marked repeated, is no repetition of the first, and is its own.
#[track_caller]
fn assert_no_repetition(first: (&Meaning, &[u8]), second: (&Meaning, &[u8])) {
    for (medium, side) in FROM_TP1 {
        for first_sending in [true, false] {
            let before = frame_with(&marked(first.0, first_sending), first.1);
            let again = frame_with(&repeated(*second.0), second.1);
            let mut coupler = open(0x47, medium);
            coupler.accept(side, &before);
            let onward = sent_on(medium, second.0, second.1);
            assert_eq!(coupler.take(side, &again), onward);
            assert_eq!(coupler.take(side, &again), held());
        }
    }
}

/// The frame with something of its addresses or its priority changed.
fn others(first: Meaning) -> [Meaning; 8] {
    [
        Meaning {
            source: first.source ^ 0x0100,
            ..first
        },
        Meaning {
            source: first.source ^ 0x0001,
            ..first
        },
        Meaning {
            destination: 0x1235,
            ..first
        },
        Meaning {
            destination: 0x9234,
            ..first
        },
        Meaning {
            group: false,
            ..first
        },
        Meaning {
            source: first.destination,
            destination: first.source,
            ..first
        },
        Meaning {
            priority: 0b10,
            ..first
        },
        Meaning {
            priority: 0b00,
            ..first
        },
    ]
}

#[test]
fn another_source_destination_at_or_priority_is_no_repetition() {
    for (first, payload) in each_length() {
        for other in others(first) {
            assert_no_repetition((&first, &payload), (&other, &payload));
            assert_no_repetition((&other, &payload), (&first, &payload));
        }
    }
}

#[test]
fn another_format_is_no_repetition() {
    let (standard, extended) = (sent_in(Format::Standard), sent_in(Format::Extended));
    for length in 1..=16 {
        let payload = some_payload(length);
        assert_no_repetition((&standard, &payload), (&extended, &payload));
        assert_no_repetition((&extended, &payload), (&standard, &payload));
    }
}

/// "equal payload but another count"
#[test]
fn another_count_is_no_repetition() {
    for (first, payload) in each_length() {
        for (one, two) in (0..64).map(|pair| (pair / 8, pair % 8)) {
            let (one, two) = (counted(first, one), counted(first, two));
            if two.count > 0 && one != two {
                assert_no_repetition((&one, &payload), (&two, &payload));
            }
        }
    }
}

/// Count 0 is not forwarded, repetition or not; but what comes behind it is no repetition of what
/// came before it.
#[test]
fn count_0_is_another_count() {
    let (sent, count_0) = (to_group(0x1234, 6), to_group(0x1234, 0));
    let mut coupler = open(0x47, TP1);
    coupler.accept(MAIN, &frame(&sent));
    assert_eq!(coupler.take(MAIN, &frame(&repeated(count_0))), ignored());
    let onward = sent_on(TP1, &sent, &PAYLOAD);
    assert_eq!(coupler.take(MAIN, &frame(&repeated(sent))), onward);
}

/// A payload that is the front of the other's, both ways.
#[test]
fn another_length_is_no_repetition() {
    for (format, most) in [(Format::Standard, 16), (Format::Extended, 255)] {
        let (sent, payload) = (sent_in(format), some_payload(most));
        for length in 1..most {
            let (short, long) = (&payload[..length], &payload[..length + 1]);
            assert_no_repetition((&sent, short), (&sent, long));
            assert_no_repetition((&sent, long), (&sent, short));
        }
        assert_no_repetition((&sent, &payload[..1]), (&sent, &payload));
        assert_no_repetition((&sent, &payload), (&sent, &payload[..1]));
    }
}

// The mark.

/// The repeat bit of the remembered frame does not matter: a repeat of a repeat is a repetition.
#[test]
fn repeat_of_a_repeat() {
    for sending in sendings() {
        let mut coupler = open(0x47, sending.medium);
        coupler.accept(sending.side, &sending.first);
        for _ in 0..3 {
            assert_eq!(coupler.take(sending.side, &sending.again), held());
        }
    }
}

#[test]
fn first_sending_is_never_a_repetition() {
    for sending in sendings() {
        let (side, first) = (sending.side, &sending.first);
        let mut coupler = open(0x47, sending.medium);
        for _ in 0..3 {
            assert_eq!(coupler.take(side, first), sending.onward);
        }
        coupler.accept(side, &sending.again);
        assert_eq!(coupler.take(side, first), sending.onward);
    }
}

// R-2's meter.

/// "Our meter's second telegram was damaged on its first sending, its repeat came marked repeated":
/// it is forwarded, though the telegram before differs from it in one bit of the increment alone.
#[test]
fn increment_whose_first_sending_was_damaged() {
    let sent = sent_in(Format::Standard);
    for (medium, side) in FROM_TP1 {
        let [telegram_one, telegram_two] = [0x1a, 0x1b]
            .map(|increment| Sending::new((medium, side), &sent, &[0x00, 0x80, 0x0c, increment]));
        let mut coupler = open(0x47, medium);
        let answer = coupler.take(side, &telegram_one.first);
        assert_eq!(answer, telegram_one.onward);

        let mut damaged = telegram_two.first;
        damaged[8] ^= 0x40;
        assert_eq!(coupler.take(side, &damaged), refused(6));
        let answer = coupler.take(side, &telegram_two.again);
        assert_eq!(answer, telegram_two.onward);
        assert_eq!(coupler.take(side, &telegram_two.again), held());
    }
}

// Octets remembered that are no frame.

/// A coupler that remembers these octets from its main side, and behind them others.
fn remembering(octets: &[u8]) -> Fitted<'static> {
    let mut coupler = open(0x47, TP1);
    coupler.memory.main.octets[..octets.len()].copy_from_slice(octets);
    coupler.memory.main.size = octets.len();
    coupler
}

/// The check octet is not compared, so that it need not be right in what is remembered.
#[test]
fn remembered_octets_with_a_wrong_check_octet() {
    let sent = to_group(0x1234, 6);
    for first_sending in [true, false] {
        let mut octets = frame(&marked(&sent, first_sending));
        let last = octets.len() - 1;
        for check in 0..=255 {
            octets[last] = check;
            let mut coupler = remembering(&octets);
            assert_eq!(coupler.take(MAIN, &frame(&repeated(sent))), held());
        }
    }
}

/// All others are compared as they stand, whatever they would be read as.
#[test]
fn remembered_octets_that_no_reader_accepts() {
    let sent = to_group(0x1234, 6);
    let again = frame(&repeated(sent));
    let onward = sent_on(TP1, &sent, &PAYLOAD);
    for (place, bit) in (0..8 * (again.len() - 1)).map(|bit| (bit / 8, bit % 8)) {
        let mut octets = again.clone();
        octets[place] ^= 1 << bit;
        let expected = match (place, bit) {
            (0, 5) => held(),
            _ => onward.clone(),
        };
        assert_eq!(remembering(&octets).take(MAIN, &again), expected);
    }
}

/// The same octets in another number, as no frame has them, are no repetition either.
#[test]
fn remembered_octets_in_another_number() {
    for (sent, payload) in each_length() {
        let Sending { again, onward, .. } = Sending::new((TP1, MAIN), &sent, &payload);
        for size in (0..=LARGEST_FRAME).filter(|&size| size != again.len()) {
            let mut coupler = remembering(&again);
            coupler.memory.main.size = size;
            assert_eq!(coupler.take(MAIN, &again), onward, "{size}");
            assert_eq!(coupler.take(MAIN, &again), held());
        }
        assert_eq!(remembering(&again).take(MAIN, &again), held());
    }
}
