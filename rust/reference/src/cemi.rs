//! cEMI L_Data request, confirmation and indication: "cEMI" and its plain form.

use crate::refusal::{
    EFF_NOT_ZERO, INFORMATION_ESCAPE, LG_ESCAPE, MESSAGE_CODE, OCTETS_LEFT, RANGE, STANDARD_LG,
    TOO_FEW,
};
use crate::{flag, front, Format, Given, Meaning};
use std::cmp::Ordering;

/// Message code to LG in the plain form, where a = 0.
pub(crate) const HEAD_SIZE: usize = 9;

#[derive(Clone, Copy, Debug, PartialEq, Eq)]
pub enum Code {
    Request,
    Confirmation,
    Indication,
}

impl Code {
    pub fn from_octet(octet: u8) -> Option<Code> {
        match octet {
            0x11 => Some(Code::Request),
            0x2e => Some(Code::Confirmation),
            0x29 => Some(Code::Indication),
            _ => None,
        }
    }
}

#[derive(Clone, Copy, Debug, PartialEq, Eq)]
pub struct Frame<'a> {
    pub code: Code,
    pub error_mark: bool,
    pub meaning: Meaning,
    /// Additional information, a part of the octets read.
    pub information: &'a [u8],
    /// TPCI onward, a part of the octets read.
    pub payload: &'a [u8],
}

/// "cEMI: empty (1), 7, no second octet (1), 8, ends before or without LG (1), 3, 4, 9, 1, 5."
pub fn read(octets: &[u8]) -> Result<Frame<'_>, u8> {
    let (&code, rest) = octets.split_first().ok_or(TOO_FEW)?;
    let code = Code::from_octet(code).ok_or(MESSAGE_CODE)?;
    let (&a, rest) = rest.split_first().ok_or(TOO_FEW)?;
    if a == 255 {
        return Err(INFORMATION_ESCAPE);
    }
    let (information, body) = rest.split_at_checked(usize::from(a)).ok_or(TOO_FEW)?;
    let &[ctrl1, ctrl2, s1, s0, d1, d0, lg, ref payload @ ..] = body else {
        return Err(TOO_FEW);
    };
    let meaning = Meaning::from_octets(ctrl1, ctrl2, [s1, s0], [d1, d0]);
    test_lengths(meaning.format, ctrl2, lg, payload)?;
    Ok(Frame {
        code,
        // "read in a confirmation only and otherwise reported 0"
        error_mark: code == Code::Confirmation && ctrl1 & 1 != 0,
        meaning,
        information,
        payload,
    })
}

/// "3, 4, 9, 1, 5", the tests once LG is there.
fn test_lengths(format: Format, ctrl2: u8, lg: u8, payload: &[u8]) -> Result<(), u8> {
    if ctrl2 & 0x0f != 0 {
        return Err(EFF_NOT_ZERO);
    }
    if lg == 255 {
        return Err(LG_ESCAPE);
    }
    if format == Format::Standard && lg > 15 {
        return Err(STANDARD_LG);
    }
    match payload.len().cmp(&(1 + usize::from(lg))) {
        Ordering::Less => Err(TOO_FEW),
        Ordering::Greater => Err(OCTETS_LEFT),
        Ordering::Equal => Ok(()),
    }
}

/// Writes the plain form to the front of the room and returns its size; 14, then 13.
pub fn write(
    code: u8,
    error_mark: u8,
    given: &Given,
    payload: &[u8],
    room: &mut [u8],
) -> Result<usize, u8> {
    let (error_mark, meaning) = test_given(code, error_mark, given, payload)?;
    let room = front(room, HEAD_SIZE + payload.len())?;
    lay(code, error_mark, &meaning, payload, room);
    Ok(room.len())
}

/// The error mark and the meaning given, or 14; "also a payload length the format lacks, a message
/// code not read there, or an error mark outside a confirmation".
pub(crate) fn test_given(
    code: u8,
    error_mark: u8,
    given: &Given,
    payload: &[u8],
) -> Result<(bool, Meaning), u8> {
    let code = Code::from_octet(code).ok_or(RANGE)?;
    let error_mark = flag(error_mark)?;
    if error_mark && code != Code::Confirmation {
        return Err(RANGE);
    }
    Ok((error_mark, given.meaning(payload)?))
}

/// Lays the plain form over a room of exactly its size.
pub(crate) fn lay(code: u8, error_mark: bool, meaning: &Meaning, payload: &[u8], room: &mut [u8]) {
    let [s1, s0] = meaning.source.to_be_bytes();
    let [d1, d0] = meaning.destination.to_be_bytes();
    let ctrl1 = meaning.control() | u8::from(error_mark);
    let ctrl2 = meaning.at_and_count();
    let lg = (payload.len() - 1) as u8;
    let (head, rest) = room.split_at_mut(HEAD_SIZE);
    head.copy_from_slice(&[code, 0, ctrl1, ctrl2, s1, s0, d1, d0, lg]);
    rest.copy_from_slice(payload);
}

#[cfg(test)]
mod tests {
    use super::*;

    const P7: [u8; 14] = [
        0x29, 0x00, 0xbc, 0xc0, 0x00, 0x00, 0x12, 0x34, 0x04, 0x00, 0x80, 0x56, 0x78, 0x9a,
    ];

    #[test]
    fn indication_of_p7() {
        let frame = read(&P7).unwrap();
        assert_eq!(frame.code, Code::Indication);
        assert!(!frame.error_mark);
        assert_eq!(frame.meaning.count, 4);
        assert_eq!(frame.information, []);
        assert_eq!(frame.payload, [0x00, 0x80, 0x56, 0x78, 0x9a]);
    }

    #[test]
    fn bits_6_4_and_1_are_not_read() {
        let mut octets = P7;
        octets[2] = 0xbc ^ 0x52;
        assert_eq!(read(&octets).unwrap(), read(&P7).unwrap());
    }

    #[test]
    fn error_mark_in_a_confirmation_only() {
        let mut octets = P7;
        octets[2] |= 1;
        assert!(!read(&octets).unwrap().error_mark);
        octets[0] = 0x2e;
        assert!(read(&octets).unwrap().error_mark);
    }

    #[test]
    fn order_of_refusals() {
        assert_eq!(read(&[]), Err(1));
        assert_eq!(read(&[0x2b]), Err(7));
        assert_eq!(read(&[0x29]), Err(1));
        assert_eq!(read(&[0x29, 0xff]), Err(8));
        assert_eq!(read(&P7[..8]), Err(1));
        let head = |ctrl2, lg| [0x29, 0, 0xbc, ctrl2, 0, 0, 0x12, 0x34, lg];
        assert_eq!(read(&head(0xc1, 255)), Err(3));
        assert_eq!(read(&head(0xc0, 255)), Err(4));
        assert_eq!(read(&head(0xc0, 16)), Err(9));
        assert_eq!(read(&head(0xc0, 15)), Err(1));
        assert_eq!(read(&[&P7[..], &[0]].concat()), Err(5));
    }

    #[test]
    fn error_mark_outside_a_confirmation_is_14() {
        let given = Given {
            extended: 0,
            first_sending: 1,
            priority: 3,
            source: 0,
            group: 1,
            destination: 0x1234,
            count: 4,
        };
        let mut room = [0; 14];
        assert_eq!(write(0x29, 1, &given, &P7[9..], &mut room), Err(14));
        assert_eq!(write(0x29, 0, &given, &P7[9..], &mut room), Ok(14));
        assert_eq!(room, P7);
        assert_eq!(write(0x2e, 1, &given, &P7[9..], &mut room), Ok(14));
        assert_eq!(room[2], 0xbd);
    }
}
