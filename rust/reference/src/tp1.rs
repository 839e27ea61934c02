//! TP1 L_Data frames: "Control octet (TP1)", "Standard", "Extended".

use crate::refusal::{ANOTHER_KIND, EFF_NOT_ZERO, LG_ESCAPE, OCTETS_LEFT, TOO_FEW, WRONG_CHECK};
use crate::{check_octet, front, Format, Given, Meaning};
use std::cmp::Ordering;

#[derive(Clone, Copy, Debug, PartialEq, Eq)]
pub struct Frame<'a> {
    pub meaning: Meaning,
    /// TPCI onward, a part of the octets read.
    pub payload: &'a [u8],
}

/// "Order, TP1: no octet (1), control (2), fewer than 6 (standard) or 7 (extended) octets (1),
/// 3, 4, 1, 5, 6."
pub fn read(octets: &[u8]) -> Result<Frame<'_>, u8> {
    let &control = octets.first().ok_or(TOO_FEW)?;
    // Bit 6: 0. Bit 4: 1. Bits 1 and 0: 00.
    if control & 0b0101_0011 != 0b0001_0000 {
        return Err(ANOTHER_KIND);
    }
    match crate::format_of(control) {
        Format::Standard => read_standard(octets),
        Format::Extended => read_extended(octets),
    }
}

fn read_standard(octets: &[u8]) -> Result<Frame<'_>, u8> {
    let &[control, s1, s0, d1, d0, last, ..] = octets else {
        return Err(TOO_FEW);
    };
    let payload = checked_payload(octets, 6, last & 0x0f)?;
    let meaning = Meaning::from_octets(control, last, [s1, s0], [d1, d0]);
    Ok(Frame { meaning, payload })
}

fn read_extended(octets: &[u8]) -> Result<Frame<'_>, u8> {
    let &[control, ctrle, s1, s0, d1, d0, lg, ..] = octets else {
        return Err(TOO_FEW);
    };
    if ctrle & 0x0f != 0 {
        return Err(EFF_NOT_ZERO);
    }
    if lg == 255 {
        return Err(LG_ESCAPE);
    }
    let payload = checked_payload(octets, 7, lg)?;
    let meaning = Meaning::from_octets(control, ctrle, [s1, s0], [d1, d0]);
    Ok(Frame { meaning, payload })
}

/// TPCI and the LG octets behind it, once the last three tests, 1, 5 and 6, are passed.
fn checked_payload(octets: &[u8], start: usize, lg: u8) -> Result<&[u8], u8> {
    let end = start + 1 + usize::from(lg);
    match octets.len().cmp(&(end + 1)) {
        Ordering::Less => return Err(TOO_FEW),
        Ordering::Greater => return Err(OCTETS_LEFT),
        Ordering::Equal => {}
    }
    let (before, check) = octets.split_at(end);
    if check != [check_octet(before)] {
        return Err(WRONG_CHECK);
    }
    Ok(&before[start..])
}

/// Writes the frame to the front of the room and returns its size; 14, then 13.
pub fn write(given: &Given, payload: &[u8], room: &mut [u8]) -> Result<usize, u8> {
    write_meaning(&given.meaning(payload)?, payload, room)
}

/// Writes a frame whose payload has a length of its format.
pub(crate) fn write_meaning(
    meaning: &Meaning,
    payload: &[u8],
    room: &mut [u8],
) -> Result<usize, u8> {
    match meaning.format {
        Format::Standard => write_standard(meaning, payload, room),
        Format::Extended => write_extended(meaning, payload, room),
    }
}

fn write_standard(meaning: &Meaning, payload: &[u8], room: &mut [u8]) -> Result<usize, u8> {
    let lg = (payload.len() - 1) as u8;
    let [s1, s0] = meaning.source.to_be_bytes();
    let [d1, d0] = meaning.destination.to_be_bytes();
    let last = meaning.at_and_count() | lg;
    write_octets(&[meaning.control(), s1, s0, d1, d0, last], payload, room)
}

fn write_extended(meaning: &Meaning, payload: &[u8], room: &mut [u8]) -> Result<usize, u8> {
    let lg = (payload.len() - 1) as u8;
    let [s1, s0] = meaning.source.to_be_bytes();
    let [d1, d0] = meaning.destination.to_be_bytes();
    let head = [
        meaning.control(),
        meaning.at_and_count(),
        s1,
        s0,
        d1,
        d0,
        lg,
    ];
    write_octets(&head, payload, room)
}

fn write_octets(head: &[u8], payload: &[u8], room: &mut [u8]) -> Result<usize, u8> {
    let size = head.len() + payload.len() + 1;
    let (check, before) = front(room, size)?.split_last_mut().expect("size above 0");
    let (start, rest) = before.split_at_mut(head.len());
    start.copy_from_slice(head);
    rest.copy_from_slice(payload);
    *check = check_octet(before);
    Ok(size)
}

#[cfg(test)]
mod tests {
    use super::*;

    const P1: [u8; 12] = [
        0xbc, 0x00, 0x00, 0x12, 0x34, 0xb4, 0x00, 0x80, 0x56, 0x78, 0x9a, 0xe5,
    ];

    #[test]
    fn p1_is_accepted() {
        let frame = read(&P1).unwrap();
        let expected = Meaning {
            format: Format::Standard,
            first_sending: true,
            priority: 0b11,
            source: 0,
            group: true,
            destination: 0x1234,
            count: 3,
        };
        assert_eq!(frame.meaning, expected);
        assert_eq!(frame.payload, [0x00, 0x80, 0x56, 0x78, 0x9a]);
    }

    #[test]
    fn p2_wrong_check_octet() {
        let mut octets = P1;
        octets[11] = 0xe4;
        assert_eq!(read(&octets), Err(6));
    }

    #[test]
    fn p3_no_octets() {
        assert_eq!(read(&[]), Err(1));
    }

    #[test]
    fn p4_acknowledgement() {
        assert_eq!(read(&[0xcc]), Err(2));
    }

    #[test]
    fn p5_eff() {
        assert_eq!(read(&[0x34, 0xe1, 0xaf, 0xfe, 0x00, 0x00, 0x00]), Err(3));
    }

    #[test]
    fn p6_escape() {
        assert_eq!(read(&[0x34, 0x60, 0xaf, 0xfe, 0xff, 0x00, 0xff]), Err(4));
    }

    #[test]
    fn p1_is_written() {
        let given = Given {
            extended: 0,
            first_sending: 1,
            priority: 3,
            source: 0,
            group: 1,
            destination: 0x1234,
            count: 3,
        };
        let mut room = [0x55; 14];
        assert_eq!(write(&given, &P1[6..11], &mut room), Ok(12));
        assert_eq!(room[..12], P1);
        assert_eq!(room[12..], [0x55; 2]);
        assert_eq!(write(&given, &P1[6..11], &mut room[..11]), Err(13));
    }
}
