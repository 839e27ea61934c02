//! Each sentence of "The coupler", and the telegrams P7 to P10.

use super::*;
use crate::site::main_side;
use crate::Format;

mod repetitions;

/// Receiving sides and main media, as the numbers that a caller gives.
const MAIN: u8 = 0;
const SUB: u8 = 1;
const TP1: u8 = 0;
const IP: u8 = 1;

/// Stands where nothing may be written.
const UNTOUCHED: u8 = 0x55;
const PAYLOAD: [u8; 2] = [0x00, 0x81];

const P1: [u8; 12] = [
    0xbc, 0x00, 0x00, 0x12, 0x34, 0xb4, 0x00, 0x80, 0x56, 0x78, 0x9a, 0xe5,
];
const P7: [u8; 20] = [
    0x06, 0x10, 0x05, 0x30, 0x00, 0x14, 0x29, 0x00, 0xbc, 0xc0, 0x00, 0x00, 0x12, 0x34, 0x04, 0x00,
    0x80, 0x56, 0x78, 0x9a,
];
const P10: [u8; 9] = [0xb0, 0xaf, 0xfe, 0x00, 0x00, 0xe1, 0x01, 0x00, 0xfe];

/// An outcome with the octets forwarded, not how many they are.
#[derive(Clone, Debug, PartialEq, Eq)]
struct Answer {
    number: u8,
    acknowledgement: Option<u8>,
    own: bool,
    octets: Vec<u8>,
}

/// The answer to an accepted frame, with CCh or without an acknowledgement.
fn answer(acknowledged: bool, own: bool, octets: &[u8]) -> Answer {
    Answer {
        number: 0,
        acknowledgement: acknowledged.then_some(0xcc),
        own,
        octets: octets.to_vec(),
    }
}

/// "On a refusal: its number, none, not, 0."
fn refused(number: u8) -> Answer {
    Answer {
        number,
        ..answer(false, false, &[])
    }
}

/// CCh and these octets.
fn forwarded(octets: &[u8]) -> Answer {
    answer(true, false, octets)
}

/// CCh alone: a repetition.
fn held() -> Answer {
    answer(true, false, &[])
}

fn for_itself() -> Answer {
    answer(true, true, &[])
}

fn ignored() -> Answer {
    answer(false, false, &[])
}

/// These octets, without an acknowledgement.
fn forwarded_from_ip(octets: &[u8]) -> Answer {
    answer(false, false, octets)
}

fn for_itself_from_ip() -> Answer {
    answer(false, true, &[])
}

/// A coupler at work.
#[derive(Clone)]
struct Fitted<'a> {
    coupler: Coupler<'a>,
    medium: u8,
    memory: Memory,
}

impl Fitted<'_> {
    /// One step in a room of more than enough octets. Whatever the answer is, it must keep the
    /// sentences about memory and room.
    #[track_caller]
    fn take(&mut self, side: u8, octets: &[u8]) -> Answer {
        let mut room = [UNTOUCHED; 300];
        let mut expected = self.memory.clone();
        let (coupler, medium, memory) = (&self.coupler, self.medium, &mut self.memory);
        let outcome = step(coupler, side, medium, memory, octets, &mut room);
        let (forwarded, behind) = room.split_at(outcome.forwarded);
        assert!(behind.iter().all(|&octet| octet == UNTOUCHED));
        if outcome.number == 0 && (side, medium) != (MAIN, IP) {
            let part = match side {
                MAIN => &mut expected.main,
                _ => &mut expected.sub,
            };
            part.size = octets.len();
            part.octets[..octets.len()].copy_from_slice(octets);
        }
        assert!(self.memory == expected, "memory");
        Answer {
            number: outcome.number,
            acknowledgement: outcome.acknowledgement.map(Acknowledgement::octet),
            own: outcome.own,
            octets: forwarded.to_vec(),
        }
    }

    /// One step that must not be refused.
    #[track_caller]
    fn accept(&mut self, side: u8, octets: &[u8]) {
        assert_eq!(self.take(side, octets).number, 0);
    }
}

/// Nothing is remembered yet, and the octets to remember in are not those of the start.
fn fitted(line: u8, codes: [[u8; 4]; 2], medium: u8) -> Fitted<'static> {
    let none = |octet| Remembered {
        size: 0,
        octets: [octet; LARGEST_FRAME],
    };
    Fitted {
        coupler: Coupler {
            line,
            codes,
            table: &[],
        },
        medium,
        memory: Memory {
            main: none(0xa1),
            sub: none(0xa2),
        },
    }
}

/// All codes open.
fn open(line: u8, medium: u8) -> Fitted<'static> {
    fitted(line, [[2; 4]; 2], medium)
}

fn closed(line: u8, medium: u8) -> Fitted<'static> {
    fitted(line, [[0; 4]; 2], medium)
}

/// A first sending in the standard format.
fn to(group: bool, destination: u16, count: u8) -> Meaning {
    Meaning {
        format: Format::Standard,
        first_sending: true,
        priority: 0b11,
        source: 0x4712,
        group,
        destination,
        count,
    }
}

fn to_group(destination: u16, count: u8) -> Meaning {
    to(true, destination, count)
}

fn to_device(destination: u16, count: u8) -> Meaning {
    to(false, destination, count)
}

fn repeated(meaning: Meaning) -> Meaning {
    Meaning {
        first_sending: false,
        ..meaning
    }
}

fn counted(meaning: Meaning, count: u8) -> Meaning {
    Meaning { count, ..meaning }
}

fn control(meaning: &Meaning) -> u8 {
    let format = match meaning.format {
        Format::Standard => 0b1000_0000,
        Format::Extended => 0b0000_0000,
    };
    let repeat = match meaning.first_sending {
        true => 0b0010_0000,
        false => 0b0000_0000,
    };
    0b0001_0000 + format + repeat + 4 * meaning.priority
}

fn at_and_count(meaning: &Meaning) -> u8 {
    match meaning.group {
        true => 0x80 + 16 * meaning.count,
        false => 16 * meaning.count,
    }
}

fn addresses(meaning: &Meaning) -> Vec<u8> {
    [
        meaning.source.to_be_bytes(),
        meaning.destination.to_be_bytes(),
    ]
    .concat()
}

/// The frame on TP1, laid out here by "Standard" and "Extended".
fn frame_with(meaning: &Meaning, payload: &[u8]) -> Vec<u8> {
    let (control, at_and_count) = (control(meaning), at_and_count(meaning));
    let addresses = addresses(meaning);
    let lg = payload.len() as u8 - 1;
    let mut octets = match meaning.format {
        Format::Standard => [&[control], &addresses[..], &[at_and_count + lg]].concat(),
        Format::Extended => [&[control, at_and_count], &addresses[..], &[lg]].concat(),
    };
    octets.extend(payload);
    octets.push(octets.iter().fold(0xff, |sum, octet| sum ^ octet));
    octets
}

fn frame(meaning: &Meaning) -> Vec<u8> {
    frame_with(meaning, &PAYLOAD)
}

/// The datagram on IP, in cEMI's plain form.
fn datagram_with(meaning: &Meaning, payload: &[u8]) -> Vec<u8> {
    let [t1, t0] = (15 + payload.len() as u16).to_be_bytes();
    let header = [0x06, 0x10, 0x05, 0x30, t1, t0, 0x29, 0x00];
    let lg = payload.len() as u8 - 1;
    let controls = [control(meaning), at_and_count(meaning)];
    [&header, &controls[..], &addresses(meaning), &[lg], payload].concat()
}

fn datagram(meaning: &Meaning) -> Vec<u8> {
    datagram_with(meaning, &PAYLOAD)
}

/// A filter table with only these groups in it.
fn table(groups: &[u16]) -> Vec<u8> {
    let mut table = vec![0; 8192];
    for &group in groups {
        table[usize::from(group) / 8] |= 1 << (group % 8);
    }
    table
}

// The telegrams to check against.

#[test]
fn p7_groups_open_from_ip() {
    let mut coupler = fitted(0x11, [[0, 0, 2, 2], [0; 4]], IP);
    assert_eq!(coupler.take(MAIN, &P7), forwarded_from_ip(&P1));
}

#[test]
fn p8_count_0_from_ip() {
    let mut octets = P7;
    octets[9] = 0x80;
    assert_eq!(open(0x11, IP).take(MAIN, &octets), ignored());
}

#[test]
fn p9_count_7_stays() {
    let mut octets = P7;
    octets[9] = 0xf0;
    let expected = [
        0xbc, 0x00, 0x00, 0x12, 0x34, 0xf4, 0x00, 0x80, 0x56, 0x78, 0x9a, 0xa5,
    ];
    let answer = open(0x11, IP).take(MAIN, &octets);
    assert_eq!(answer, forwarded_from_ip(&expected));
}

#[test]
fn p10_broadcast_open() {
    let mut coupler = fitted(0xff, [[0, 2, 0, 0], [0; 4]], TP1);
    let expected = [0xb0, 0xaf, 0xfe, 0x00, 0x00, 0xd1, 0x01, 0x00, 0xce];
    assert_eq!(coupler.take(MAIN, &P10), forwarded(&expected));
}

#[test]
fn p11_border_of_the_groups() {
    for (group, place, octet) in [(0x6fff, 3583, 0x80), (0x7000, 3584, 0x01)] {
        let mut octets = [0; 8192];
        octets[place] = octet;
        let mut coupler = fitted(0x11, [[0, 0, 1, 1]; 2], TP1);
        coupler.coupler.table = &octets;
        for other in [0x6ff7, 0x6ff8, 0x6ffe, 0x6fff, 0x7000, 0x7001, 0x7008] {
            assert_eq!(coupler.coupler.is_in_table(other), other == group);
            let expected = match other == group {
                true => forwarded(&frame(&to_group(other, 4))),
                false => ignored(),
            };
            let answer = coupler.take(MAIN, &frame(&to_group(other, 5)));
            assert_eq!(answer, expected, "{other:x} by the bit of {group:x}");
        }
    }
}

#[test]
fn p1_from_sub_to_ip() {
    let mut expected = P7;
    expected[9] = 0xa0;
    let answer = open(0x11, IP).take(SUB, &P1);
    assert_eq!(answer, forwarded(&expected));
}

// Codes.

/// One code of the eight open, all others closed: it lets its class pass in its direction.
#[test]
fn each_code_rules_its_class_and_direction() {
    let classes: [(bool, &[u16]); 4] = [
        (false, &[0x0000, 0x0001, 0x6fff, 0x7000, 0xffff]),
        (true, &[0x0000]),
        (true, &[0x0001, 0x1234, 0x6fff]),
        (true, &[0x7000, 0xabcd, 0xffff]),
    ];
    for (row, place) in (0..8).map(|code| (code / 4, code % 4)) {
        let mut codes = [[0; 4]; 2];
        codes[row][place] = 2;
        let mut coupler = fitted(0x11, codes, TP1);
        for (side, class) in (0..8).map(|class| (class / 4, class % 4)) {
            let (group, destinations) = classes[class];
            for &destination in destinations {
                let answer = coupler.take(side as u8, &frame(&to(group, destination, 2)));
                let expected = match (side, class) == (row, place) {
                    true => forwarded(&frame(&to(group, destination, 1))),
                    false => ignored(),
                };
                assert_eq!(answer, expected, "{side} {group} {destination:x}");
            }
        }
    }
}

#[test]
fn rows_by_receiving_side_and_places_by_class() {
    let coupler = Coupler {
        line: 0x11,
        codes: [[0, 1, 2, 3], [4, 5, 6, 7]],
        table: &[],
    };
    for (from, first) in [(Side::Main, 0), (Side::Sub, 4)] {
        for destination in 0..=0xffff {
            let class = match destination {
                0 => 1,
                1..0x7000 => 2,
                _ => 3,
            };
            assert_eq!(coupler.code(from, false, destination), first);
            assert_eq!(coupler.code(from, true, destination), first + class);
        }
    }
}

#[test]
fn codes_that_are_not_allowed_open_nothing() {
    let table = [0xff; 8192];
    for (place, destination) in [(0, 0x1234), (1, 0x0000), (2, 0x1234), (3, 0x7000)] {
        for code in 0..=255 {
            let mut codes = [[0; 4]; 2];
            codes[0][place] = code;
            let coupler = Coupler {
                line: 0x12,
                codes,
                table: &table,
            };
            let passes = coupler.may_pass(Side::Main, place != 0, destination);
            let expected = code == 2 || code == 1 && place != 1;
            assert_eq!(passes, expected, "{code} for {place}");
        }
    }
}

#[test]
fn allowed_codes() {
    for place in 0..8 {
        for code in 0..=255 {
            let mut codes = [[0; 4]; 2];
            codes[place / 4][place % 4] = code;
            let is_allowed = match place % 4 {
                1 => [0, 2].contains(&code),
                _ => [0, 1, 2].contains(&code),
            };
            assert_eq!(is_row(&codes[place / 4]), is_allowed);
            let octets = table(&[]);
            let mut coupler = fitted(0x11, codes, TP1);
            coupler.coupler.table = &octets;
            // A frame from the other side, which that code says nothing about.
            let other_side = 1 - place as u8 / 4;
            let answer = coupler.take(other_side, &frame(&to_device(0x1234, 6)));
            let expected = if is_allowed { ignored() } else { refused(15) };
            assert_eq!(answer, expected, "code {code} in place {place}");
        }
    }
}

#[test]
fn every_line_but_00_has_a_coupler() {
    for line in 0..=255 {
        let sent = frame(&to_group(0x1234, 6));
        let expected = match line {
            0x00 => refused(15),
            _ => forwarded(&frame(&to_group(0x1234, 5))),
        };
        assert_eq!(open(line, TP1).take(MAIN, &sent), expected, "{line:x}");
    }
}

// The filter table.

#[test]
fn each_group_has_its_bit() {
    let mut octets = vec![0; 8192];
    for group in 0..=0xffff_u16 {
        let place = usize::from(group / 8);
        octets[place] = [1, 2, 4, 8, 16, 32, 64, 128][usize::from(group % 8)];
        let coupler = Coupler {
            line: 0x11,
            codes: [[0; 4]; 2],
            table: &octets,
        };
        assert!(coupler.is_in_table(group));
        for bit in 0..16 {
            assert!(!coupler.is_in_table(group ^ 1 << bit));
        }
        octets[place] = 0;
    }
}

#[test]
fn nothing_is_in_a_table_past_its_end() {
    let coupler = |table| Coupler {
        line: 0x11,
        codes: [[0; 4]; 2],
        table,
    };
    assert!(!coupler(&[]).is_in_table(0x0000));
    assert!(!coupler(&[]).is_in_table(0xffff));
    assert!(coupler(&[0xff]).is_in_table(0x0007));
    assert!(!coupler(&[0xff]).is_in_table(0x0008));
}

#[test]
fn table_decides_for_both_directions_and_at_every_count() {
    let octets = table(&[0x1234, 0x8765]);
    let mut coupler = fitted(0x11, [[0, 0, 1, 1]; 2], TP1);
    coupler.coupler.table = &octets;
    for side in [MAIN, SUB] {
        for (count, onward) in [(1, 0), (4, 3), (6, 5), (7, 7)] {
            for group in [0x1234, 0x8765] {
                let answer = coupler.take(side, &frame(&to_group(group, count)));
                assert_eq!(answer, forwarded(&frame(&to_group(group, onward))));
            }
            for group in [0x1235, 0x123c, 0x0001, 0x8764, 0xffff] {
                let answer = coupler.take(side, &frame(&to_group(group, count)));
                assert_eq!(answer, ignored(), "{group:x} count {count}");
            }
        }
    }
}

/// Under codes 0 and 2 the table is "allowed, not looked at".
#[test]
fn table_is_read_under_code_1_only() {
    for octet in [0x00, 0xff] {
        let octets = [octet; 8192];
        let mut coupler = fitted(0x11, [[2, 2, 2, 0], [2, 0, 0, 2]], TP1);
        coupler.coupler.table = &octets;
        for (side, group, passes) in [
            (MAIN, 0x1234, true),
            (MAIN, 0x7234, false),
            (SUB, 0x1234, false),
            (SUB, 0x7234, true),
        ] {
            let expected = match passes {
                true => forwarded(&frame(&to_group(group, 5))),
                false => ignored(),
            };
            let answer = coupler.take(side, &frame(&to_group(group, 6)));
            assert_eq!(answer, expected, "{group:x}");
        }
    }
}

/// An error that looks right: "reading group 0000h from the filter table".
#[test]
fn broadcast_is_not_read_from_the_table() {
    for octet in [0x00, 0xff] {
        let octets = [octet; 8192];
        let mut coupler = fitted(0x11, [[0, 2, 1, 1], [0, 0, 1, 1]], TP1);
        coupler.coupler.table = &octets;
        let sent = frame(&to_group(0x0000, 6));
        let expected = forwarded(&frame(&to_group(0x0000, 5)));
        assert_eq!(coupler.take(MAIN, &sent), expected);
        assert_eq!(coupler.take(SUB, &sent), ignored());
    }
}

#[test]
fn table_lengths() {
    for length in [0, 1, 8, 3584, 8191, 8192, 8193, 16384] {
        let octets = vec![0; length];
        for place in 0..8 {
            for code in [0, 1, 2] {
                let mut codes = [[0; 4]; 2];
                codes[place / 4][place % 4] = code;
                let is_group_code = place % 4 >= 2;
                let expected = match length {
                    _ if code == 1 && place % 4 == 1 => 15,
                    8192 => 0,
                    0 if !(is_group_code && code == 1) => 0,
                    _ => 18,
                };
                let mut coupler = fitted(0x11, codes, TP1);
                coupler.coupler.table = &octets;
                for side in [MAIN, SUB] {
                    let number = coupler.take(side, &P1).number;
                    assert_eq!(number, expected, "{length} {place} {code}");
                }
            }
        }
    }
}

// Individual addresses.

/// Code 1 in the tree of lines: below a line coupler is its line, below an area coupler also
/// each line whose main side that is.
#[test]
fn individual_code_1_of_every_coupler_for_every_line() {
    for line in 1..=255 {
        let coupler = Coupler {
            line,
            codes: [[1, 0, 0, 0]; 2],
            table: &[],
        };
        for high in 0..=255 {
            let is_below = high == line || line % 16 == 0 && main_side(high) == line;
            for low in [0x00, 0x01, 0xff] {
                let destination = u16::from_be_bytes([high, low]);
                let own = high == line && low == 0;
                assert_eq!(coupler.is_own(false, destination), own);
                assert_eq!(coupler.leads_to(Side::Main, destination), is_below);
                assert_eq!(coupler.leads_to(Side::Sub, destination), !is_below);
                let down = coupler.may_pass(Side::Main, false, destination);
                let up = coupler.may_pass(Side::Sub, false, destination);
                assert_eq!((down, up), (is_below && !own, !is_below));
            }
        }
    }
}

fn assert_individual_code_1(line: u8, destination: u16, down: bool) {
    let sent = frame(&to_device(destination, 6));
    let onward = forwarded(&frame(&to_device(destination, 5)));
    let mut coupler = fitted(line, [[1, 0, 0, 0]; 2], TP1);
    let (from_main, from_sub) = match down {
        true => (onward, ignored()),
        false => (ignored(), onward),
    };
    let at = format!("{destination:x} at {line:x}");
    assert_eq!(coupler.take(MAIN, &sent), from_main, "{at}");
    assert_eq!(coupler.take(SUB, &sent), from_sub, "{at}");
}

#[test]
fn individual_code_1_of_a_line_coupler() {
    assert_individual_code_1(0x47, 0x4701, true);
    assert_individual_code_1(0x47, 0x47ff, true);
    for elsewhere in [0x4000, 0x4001, 0x4600, 0x4801, 0x0701, 0x5701, 0x0000] {
        assert_individual_code_1(0x47, elsewhere, false);
    }
}

#[test]
fn individual_code_1_of_an_area_coupler() {
    for below in [0x4001, 0x40ff, 0x4100, 0x4712, 0x4f01] {
        assert_individual_code_1(0x40, below, true);
    }
    for elsewhere in [0x0000, 0x0001, 0x0401, 0x3f01, 0x5000, 0xf401] {
        assert_individual_code_1(0x40, elsewhere, false);
    }
}

/// An error that looks right: "treating area 0 lines as if they hung below an area coupler".
#[test]
fn individual_code_1_of_lines_01_to_0f() {
    for line in 0x01..=0x0f {
        let device = u16::from_be_bytes([line, 0x12]);
        assert_individual_code_1(line, device, true);
        let other_line = u16::from_be_bytes([line % 15 + 1, 0x12]);
        for elsewhere in [0x0000, 0x0012, other_line, device + 0x1000, 0x1012] {
            assert_individual_code_1(line, elsewhere, false);
        }
    }
}

/// Code 2 asks for no place, neither of the destination nor of the source.
#[test]
fn open_to_individual_addresses_of_either_side() {
    for (side, source, destination) in [
        (MAIN, 0x4703, 0x4901),
        (MAIN, 0x4901, 0x4703),
        (SUB, 0x4901, 0x4703),
        (SUB, 0x4703, 0x4901),
    ] {
        let sent = Meaning {
            source,
            ..to_device(destination, 3)
        };
        let answer = open(0x47, TP1).take(side, &frame(&sent));
        assert_eq!(answer, forwarded(&frame(&counted(sent, 2))));
    }
}

/// An error that looks right: "sending a frame for 4.7.0 on into line 4.7".
#[test]
fn own_address_is_never_forwarded_under_any_code() {
    for line in [0x01, 0x0f, 0x40, 0x47, 0xff] {
        let own = u16::from_be_bytes([line, 0x00]);
        for code in [0, 1, 2] {
            let codes = [[code, 2, 2, 2]; 2];
            for count in 0..=7 {
                let sent = to_device(own, count);
                for side in [MAIN, SUB] {
                    let answer = fitted(line, codes, TP1).take(side, &frame(&sent));
                    assert_eq!(answer, for_itself(), "{line:x} {code} {count}");
                }
                let answer = fitted(line, codes, IP).take(SUB, &frame(&sent));
                assert_eq!(answer, for_itself());
                let answer = fitted(line, codes, IP).take(MAIN, &datagram(&sent));
                assert_eq!(answer, for_itself_from_ip());
            }
        }
    }
}

#[test]
fn only_at_0_and_n_followed_by_00_is_the_own_address() {
    let group = frame(&to_group(0x4700, 6));
    let expected = forwarded(&frame(&to_group(0x4700, 5)));
    assert_eq!(open(0x47, TP1).take(MAIN, &group), expected);
    assert_eq!(closed(0x47, TP1).take(MAIN, &group), ignored());
    for other in [0x4701, 0x4600, 0x4000, 0x0047, 0x0000] {
        let device = frame(&to_device(other, 6));
        let expected = forwarded(&frame(&to_device(other, 5)));
        assert_eq!(open(0x47, TP1).take(SUB, &device), expected);
        assert_eq!(closed(0x47, TP1).take(SUB, &device), ignored());
    }
}

// The count.

#[test]
fn lowered_counts() {
    let expected = [
        None,
        Some(0),
        Some(1),
        Some(2),
        Some(3),
        Some(4),
        Some(5),
        Some(7),
    ];
    assert_eq!([0, 1, 2, 3, 4, 5, 6, 7].map(lowered), expected);
}

/// Errors that look right: "copying the check octet after lowering the count; lowering 7 to 6".
#[test]
fn each_count_both_ways_in_both_formats_and_on_both_media() {
    for count in 0..=7 {
        for (format, group) in [
            (Format::Standard, true),
            (Format::Standard, false),
            (Format::Extended, true),
            (Format::Extended, false),
        ] {
            let sent = Meaning {
                format,
                ..to(group, 0x1234, count)
            };
            let (on_tp1, on_ip) = match count {
                0 => (vec![], vec![]),
                7 => (frame(&sent), datagram(&sent)),
                _ => {
                    let onward = counted(sent, count - 1);
                    (frame(&onward), datagram(&onward))
                }
            };
            let answered = |octets: &[u8]| answer(count != 0, false, octets);
            let octets = frame(&sent);
            assert_eq!(open(0x47, TP1).take(MAIN, &octets), answered(&on_tp1));
            assert_eq!(open(0x47, TP1).take(SUB, &octets), answered(&on_tp1));
            assert_eq!(open(0x47, IP).take(SUB, &octets), answered(&on_ip));
            let from_ip = open(0x47, IP).take(MAIN, &datagram(&sent));
            assert_eq!(from_ip, forwarded_from_ip(&on_tp1));
        }
    }
}

// The forwarded frame.

#[test]
fn format_priority_addresses_and_payload_are_kept() {
    let octets: Vec<u8> = (0..=254).map(|place| place as u8 ^ 0x5a).collect();
    let lengths = [(Format::Standard, 16), (Format::Extended, 255)];
    for (format, most) in lengths {
        for length in 1..=most {
            let payload = &octets[..length];
            let sent = Meaning {
                format,
                priority: length as u8 % 4,
                source: 0x1100 + length as u16,
                ..to(length % 3 == 0, 0x8001 - length as u16 * 0x51, 7)
            };
            let (frame, datagram) = (frame_with(&sent, payload), datagram_with(&sent, payload));
            assert_eq!(open(0x47, TP1).take(MAIN, &frame), forwarded(&frame));
            assert_eq!(open(0x47, TP1).take(SUB, &frame), forwarded(&frame));
            assert_eq!(open(0x47, IP).take(SUB, &frame), forwarded(&datagram));
            let from_ip = open(0x47, IP).take(MAIN, &datagram);
            assert_eq!(from_ip, forwarded_from_ip(&frame));
        }
    }
}

/// The largest frame fits the least room, though the room asked for is larger.
#[test]
fn largest_frames_in_the_least_room() {
    let sent = Meaning {
        format: Format::Extended,
        ..to_group(0x1234, 6)
    };
    let payload = [0x42; 255];
    let octets = frame_with(&sent, &payload);
    assert_eq!(octets.len(), LARGEST_FRAME);
    for (medium, size) in [(TP1, 263), (IP, 270)] {
        let Fitted {
            coupler,
            mut memory,
            ..
        } = open(0x11, medium);
        let mut room = [UNTOUCHED; 272];
        let outcome = step(&coupler, SUB, medium, &mut memory, &octets, &mut room);
        let expected = Outcome {
            number: 0,
            acknowledgement: Some(Acknowledgement::Acknowledged),
            own: false,
            forwarded: size,
        };
        assert_eq!(outcome, expected);
        assert!(room[size..].iter().all(|&octet| octet == UNTOUCHED));
        assert_eq!(memory.sub.frame(), Some(&octets[..]));
    }
}

#[test]
fn repeat_flag_says_first_sending() {
    for format in [Format::Standard, Format::Extended] {
        let first = Meaning {
            format,
            ..to_group(0x1234, 6)
        };
        let (sent, onward) = (repeated(first), counted(first, 5));
        let (on_tp1, on_ip) = (frame(&onward), datagram(&onward));
        let octets = frame(&sent);
        assert_eq!(open(0x47, TP1).take(MAIN, &octets), forwarded(&on_tp1));
        assert_eq!(open(0x47, TP1).take(SUB, &octets), forwarded(&on_tp1));
        assert_eq!(open(0x47, IP).take(SUB, &octets), forwarded(&on_ip));
        let from_ip = open(0x47, IP).take(MAIN, &datagram(&sent));
        assert_eq!(from_ip, forwarded_from_ip(&on_tp1));
    }
}

/// Additional information ends at the coupler, and so do the bits of Ctrl1 that are not read.
#[test]
fn what_is_not_part_of_the_meaning_is_not_forwarded() {
    let mut octets = P7;
    octets[8] ^= 0b0101_0011;
    assert_eq!(open(0x11, IP).take(MAIN, &octets), forwarded_from_ip(&P1));
    let information = [0x03, 0x04, 0x01, 0xff];
    let mut octets = [&P7[..7], &information, &P7[8..]].concat();
    octets[5] += 3;
    assert_eq!(open(0x11, IP).take(MAIN, &octets), forwarded_from_ip(&P1));
}

// Repetitions.

/// An error that looks right: "acknowledging only the first of a repeated frame".
#[test]
fn repetitions_are_acknowledged_and_not_forwarded() {
    for (medium, side) in [(TP1, MAIN), (TP1, SUB), (IP, SUB)] {
        for group in [true, false] {
            let first = to(group, 0x1234, 6);
            let onward = match medium {
                IP => datagram(&counted(first, 5)),
                _ => frame(&counted(first, 5)),
            };
            let (first, again) = (frame(&first), frame(&repeated(first)));
            let mut coupler = open(0x47, medium);
            assert_eq!(coupler.take(side, &first), forwarded(&onward));
            assert_eq!(coupler.take(side, &again), held());
            assert_eq!(coupler.take(side, &again), held());
            // Marked first sending, the same frame is no repetition.
            assert_eq!(coupler.take(side, &first), forwarded(&onward));
            assert_eq!(coupler.take(side, &first), forwarded(&onward));
            assert_eq!(coupler.take(side, &again), held());
        }
    }
}

/// A frame marked repeated with nothing remembered is the first that arrives.
#[test]
fn repeated_frame_may_be_the_first() {
    let sent = to_group(0x1234, 6);
    let onward = forwarded(&frame(&counted(sent, 5)));
    let mut coupler = open(0x47, TP1);
    assert_eq!(coupler.take(MAIN, &frame(&repeated(sent))), onward);
    assert_eq!(coupler.take(MAIN, &frame(&repeated(sent))), held());
}

/// "Afterwards the accepted frame is the remembered one", whatever became of it.
#[test]
fn every_accepted_frame_is_remembered() {
    let sent = to_group(0x1234, 6);
    let mut coupler = open(0x47, TP1);
    let count_0 = frame(&counted(sent, 0));
    coupler.accept(MAIN, &frame(&sent));
    assert_eq!(coupler.take(MAIN, &count_0), ignored());
    assert_eq!(coupler.memory.main.frame(), Some(&count_0[..]));
    let onward = forwarded(&frame(&counted(sent, 5)));
    assert_eq!(coupler.take(MAIN, &frame(&repeated(sent))), onward);

    let mut coupler = fitted(0x47, [[1, 0, 0, 0]; 2], TP1);
    let elsewhere = to_device(0x4801, 6);
    assert_eq!(coupler.take(MAIN, &frame(&elsewhere)), ignored());
    coupler.coupler.codes = [[2; 4]; 2];
    assert_eq!(coupler.take(MAIN, &frame(&repeated(elsewhere))), held());

    let own = frame(&to_device(0x4700, 6));
    assert_eq!(coupler.take(MAIN, &own), for_itself());
    assert_eq!(coupler.memory.main.frame(), Some(&own[..]));
}

#[test]
fn only_the_last_frame_is_remembered() {
    let (one, two) = (to_group(0x1234, 6), to_group(0x4321, 6));
    let mut coupler = open(0x47, TP1);
    coupler.accept(MAIN, &frame(&one));
    coupler.accept(MAIN, &frame(&two));
    let onward = forwarded(&frame(&counted(one, 5)));
    assert_eq!(coupler.take(MAIN, &frame(&repeated(one))), onward);
    let onward = forwarded(&frame(&counted(two, 5)));
    assert_eq!(coupler.take(MAIN, &frame(&repeated(two))), onward);

    // A frame for the coupler itself comes between as any other does.
    coupler.accept(MAIN, &frame(&to_device(0x4700, 6)));
    assert_eq!(coupler.take(MAIN, &frame(&repeated(two))), onward);
}

#[test]
fn repetition_is_the_remembered_one() {
    let sent = to_group(0x1234, 6);
    let mut coupler = open(0x47, TP1);
    let first = frame(&sent);
    coupler.accept(SUB, &first);
    assert_eq!(coupler.memory.sub.frame(), Some(&first[..]));
    let again = frame(&repeated(sent));
    assert_ne!(again, first);
    assert_eq!(coupler.take(SUB, &again), held());
    assert_eq!(coupler.memory.sub.frame(), Some(&again[..]));
    assert_eq!(coupler.memory.main.frame(), None);
}

#[test]
fn repetition_that_address_codes_or_count_stop_is_not_acknowledged() {
    let sent = to_group(0x1234, 6);
    let mut coupler = open(0x47, TP1);
    let count_0 = counted(sent, 0);
    coupler.accept(MAIN, &frame(&count_0));
    assert_eq!(coupler.take(MAIN, &frame(&repeated(count_0))), ignored());
    coupler.accept(MAIN, &frame(&sent));
    coupler.coupler.codes[0] = [2, 2, 0, 2];
    assert_eq!(coupler.take(MAIN, &frame(&repeated(sent))), ignored());
    coupler.coupler.codes[0] = [2, 2, 2, 0];
    assert_eq!(coupler.take(MAIN, &frame(&repeated(sent))), held());
}

#[test]
fn own_repetition_is_for_itself_again() {
    for side in [MAIN, SUB] {
        let sent = to_device(0x4700, 3);
        let mut coupler = open(0x47, TP1);
        assert_eq!(coupler.take(side, &frame(&sent)), for_itself());
        for count in 0..=7 {
            let again = frame(&repeated(counted(sent, count)));
            assert_eq!(coupler.take(side, &again), for_itself());
            assert_eq!(coupler.take(side, &again), for_itself());
        }
    }
}

#[test]
fn each_side_remembers_for_itself() {
    let sent = to_group(0x1234, 6);
    let onward = forwarded(&frame(&counted(sent, 5)));
    let mut coupler = open(0x47, TP1);
    assert_eq!(coupler.take(MAIN, &frame(&sent)), onward);
    assert_eq!(coupler.take(SUB, &frame(&repeated(sent))), onward);
    assert_eq!(coupler.take(MAIN, &frame(&repeated(sent))), held());
    let other = to_group(0x4321, 6);
    coupler.accept(SUB, &frame(&other));
    assert_eq!(coupler.take(MAIN, &frame(&repeated(sent))), held());
}

// IP.

/// "IP has neither memory nor acknowledgement."
#[test]
fn nothing_from_ip_is_a_repetition() {
    let sent = to_group(0x1234, 6);
    let onward = forwarded_from_ip(&frame(&counted(sent, 5)));
    let mut coupler = open(0x47, IP);
    for _ in 0..3 {
        assert_eq!(coupler.take(MAIN, &datagram(&sent)), onward);
        assert_eq!(coupler.take(MAIN, &datagram(&repeated(sent))), onward);
    }
    assert_eq!(coupler.memory.main.frame(), None);
    assert_eq!(coupler.memory.sub.frame(), None);
    let own = datagram(&repeated(to_device(0x4700, 6)));
    assert_eq!(coupler.take(MAIN, &own), for_itself_from_ip());
    assert_eq!(closed(0x47, IP).take(MAIN, &datagram(&sent)), ignored());
}

/// What the main side remembers from its time on TP1 outlasts frames from IP.
#[test]
fn main_memory_is_untouched_by_ip() {
    let (one, two) = (to_group(0x1234, 6), to_group(0x4321, 6));
    let mut coupler = open(0x47, TP1);
    coupler.accept(MAIN, &frame(&one));
    coupler.accept(SUB, &frame(&two));
    coupler.medium = IP;
    for sent in [one, two] {
        let onward = forwarded_from_ip(&frame(&counted(sent, 5)));
        assert_eq!(coupler.take(MAIN, &datagram(&repeated(sent))), onward);
    }
    // The sub side has its own memory, and only that.
    assert_eq!(coupler.take(SUB, &frame(&repeated(two))), held());
    let onward = forwarded(&datagram(&counted(one, 5)));
    assert_eq!(coupler.take(SUB, &frame(&repeated(one))), onward);
    coupler.medium = TP1;
    assert_eq!(coupler.take(MAIN, &frame(&repeated(one))), held());
}

// What is remembered.

#[test]
fn nothing_is_remembered_at_the_start() {
    let Memory { main, sub } = Memory::default();
    assert_eq!((main.size, sub.size), (0, 0));
    assert_eq!(main.octets, [0; 263]);
    assert_eq!(sub.octets, [0; 263]);
    assert_eq!((main.frame(), sub.frame()), (None, None));
}

#[test]
fn octets_behind_the_remembered_frame_stay() {
    let sent = to_group(0x1234, 6);
    let (long, short) = (frame_with(&sent, &[0x77; 16]), frame(&sent));
    let mut coupler = open(0x47, TP1);
    coupler.accept(SUB, &long);
    coupler.accept(SUB, &short);
    let Remembered { size, octets } = &coupler.memory.sub;
    assert_eq!(*size, short.len());
    let (front, behind) = octets.split_at(short.len());
    let (old, unused) = behind.split_at(long.len() - short.len());
    assert_eq!(front, short);
    assert_eq!(old, &long[short.len()..]);
    assert!(unused.iter().all(|&octet| octet == 0xa2));
}

#[test]
fn size_0_or_above_the_largest_is_no_frame() {
    let sent = to_group(0x1234, 6);
    let octets = frame(&sent);
    let mut coupler = open(0x47, TP1);
    coupler.accept(MAIN, &octets);
    let onward = forwarded(&frame(&counted(sent, 5)));
    for size in [0, 264, 265, 65535, usize::MAX] {
        let mut coupler = coupler.clone();
        coupler.memory.main.size = size;
        assert_eq!(coupler.memory.main.frame(), None);
        assert_eq!(coupler.take(MAIN, &frame(&repeated(sent))), onward);
        assert_eq!(coupler.memory.main.size, octets.len());
        assert_eq!(coupler.take(MAIN, &frame(&repeated(sent))), held());
    }
    coupler.memory.main.size = 263;
    assert_eq!(coupler.memory.main.frame().map(<[u8]>::len), Some(263));
}

// Refusals.

/// The number of the outcome in a room of this size. With a refusal neither room nor memory may
/// change, nor may the outcome say anything else.
#[track_caller]
fn number(at: &Fitted<'_>, side: u8, room: usize, octets: &[u8]) -> u8 {
    let mut lent = [UNTOUCHED; 300];
    let mut memory = at.memory.clone();
    let room = &mut lent[..room];
    let outcome = step(&at.coupler, side, at.medium, &mut memory, octets, room);
    if outcome.number != 0 {
        assert_eq!(outcome.acknowledgement, None);
        assert!(!outcome.own);
        assert_eq!(outcome.forwarded, 0);
        assert_eq!(lent, [UNTOUCHED; 300]);
        assert!(memory == at.memory, "memory");
    }
    outcome.number
}

#[test]
fn order_of_refusals() {
    let mut wrong = fitted(0x00, [[2, 1, 1, 2]; 2], 2);
    let sent = to_group(0x1234, 6);
    wrong.memory.main.remember(&frame(&sent));
    assert_eq!(number(&wrong, 2, 0, &[]), 15);
    wrong.coupler.line = 0x47;
    assert_eq!(number(&wrong, 2, 0, &[]), 15);
    wrong.coupler.codes[0][1] = 2;
    assert_eq!(number(&wrong, 2, 0, &[]), 15);
    wrong.coupler.codes[1][1] = 2;
    assert_eq!(number(&wrong, 2, 0, &[]), 18);
    wrong.coupler.codes[0][2] = 2;
    assert_eq!(number(&wrong, 2, 0, &[]), 18);
    wrong.coupler.codes[1][2] = 2;
    assert_eq!(number(&wrong, 2, 0, &[]), 14);
    assert_eq!(number(&wrong, MAIN, 0, &[]), 14);
    wrong.medium = TP1;
    assert_eq!(number(&wrong, 2, 0, &[]), 14);
    assert_eq!(number(&wrong, MAIN, 0, &[]), 13);
    assert_eq!(number(&wrong, MAIN, 271, &[]), 13);
    assert_eq!(number(&wrong, MAIN, 272, &[]), 1);
    assert_eq!(number(&wrong, MAIN, 272, &P1), 0);
}

#[test]
fn sides_and_media_outside_their_ranges() {
    for given in 0..=255 {
        for other in [0, 1] {
            let sides = number(&open(0x47, other), given, 272, &[]);
            let media = number(&open(0x47, given), other, 272, &[]);
            let expected = if given > 1 { 14 } else { 1 };
            assert_eq!((sides, media), (expected, expected), "{given}");
        }
    }
}

/// Also where nothing is forwarded, or few octets are.
#[test]
fn room_below_272() {
    let own = frame(&to_device(0x4700, 0));
    for fitted in [open(0x47, TP1), closed(0x47, TP1), open(0x47, IP)] {
        for octets in [&own[..], &P1, &[]] {
            for room in [0, 1, 12, 263, 270, 271] {
                assert_eq!(number(&fitted, SUB, room, octets), 13);
            }
            let expected = if octets.is_empty() { 1 } else { 0 };
            assert_eq!(number(&fitted, SUB, 272, octets), expected);
            assert_eq!(number(&fitted, SUB, 300, octets), expected);
        }
    }
}

/// The reader is TP1's on each TP1 side.
#[test]
fn refusals_of_the_tp1_reader() {
    let wrong_check = [&P1[..11], &[0xe4]].concat();
    let left = [&P1[..], &[0x00]].concat();
    let telegrams: [(&[u8], u8); 9] = [
        (&[], 1),
        (&[0xcc], 2),
        (&[0x34, 0xe1, 0xaf, 0xfe, 0x00, 0x00, 0x00], 3),
        (&[0x34, 0x60, 0xaf, 0xfe, 0xff, 0x00, 0xff], 4),
        (&P1[..11], 1),
        (&left, 5),
        (&wrong_check, 6),
        (&P7, 2),
        (&P1, 0),
    ];
    for (octets, expected) in telegrams {
        assert_eq!(number(&open(0x47, TP1), MAIN, 272, octets), expected);
        assert_eq!(number(&closed(0x47, TP1), SUB, 272, octets), expected);
        assert_eq!(number(&open(0x47, IP), SUB, 272, octets), expected);
    }
}

/// The reader is routing's on an IP main side.
#[test]
fn refusals_of_the_routing_reader() {
    let with = |place: usize, octet| {
        let mut octets = P7;
        octets[place] = octet;
        octets
    };
    let telegrams: [(&[u8], u8); 11] = [
        (&[], 1),
        (&P1, 10),
        (&with(1, 0x11), 10),
        (&with(3, 0x31), 11),
        (&with(5, 0x13), 12),
        (&with(6, 0x11), 7),
        (&with(6, 0x2e), 7),
        (&with(7, 0xff), 8),
        (&with(9, 0xc1), 3),
        (&with(14, 0x10), 9),
        (&P7, 0),
    ];
    for (octets, expected) in telegrams {
        assert_eq!(number(&open(0x47, IP), MAIN, 272, octets), expected);
        assert_eq!(number(&closed(0x47, IP), MAIN, 272, octets), expected);
    }
}

/// "On a refusal: its number, none, not, 0", also where the same frame with the right check octet is
/// forwarded or for the coupler itself, acknowledged or not.
#[test]
fn damaged_frames_are_refused_and_nothing_else() {
    for (sent, whole) in [
        (to_group(0x1234, 7), forwarded(&frame(&to_group(0x1234, 7)))),
        (to_device(0x4700, 6), for_itself()),
        (to_group(0x1234, 0), ignored()),
    ] {
        for side in [MAIN, SUB] {
            let mut octets = frame(&sent);
            assert_eq!(open(0x47, TP1).take(side, &octets), whole);
            let last = octets.len() - 1;
            octets[last] ^= 0x01;
            assert_eq!(open(0x47, TP1).take(side, &octets), refused(6));
        }
    }
}

/// "A refusal returns its number and no frame; .. nothing remembered changes."
#[test]
fn repetition_across_refused_calls() {
    let sent = to_group(0x1234, 6);
    let (first, again) = (frame(&sent), frame(&repeated(sent)));
    let other = frame(&to_group(0x4321, 6));
    let mut broken = other.clone();
    broken[7] ^= 1;
    let mut coupler = open(0x47, TP1);
    coupler.accept(MAIN, &first);
    assert_eq!(coupler.take(MAIN, &broken), refused(6));
    assert_eq!(coupler.take(MAIN, &[0xcc]), refused(2));
    assert_eq!(coupler.take(2, &other), refused(14));
    coupler.coupler.line = 0x00;
    assert_eq!(coupler.take(MAIN, &other), refused(15));
    coupler.coupler.line = 0x47;
    coupler.coupler.table = &[0xff];
    assert_eq!(coupler.take(MAIN, &other), refused(18));
    coupler.coupler.table = &[];
    assert_eq!(number(&coupler, MAIN, 271, &other), 13);
    assert_eq!(coupler.take(MAIN, &again), held());
}
