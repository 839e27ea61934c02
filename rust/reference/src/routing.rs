//! KNXnet/IP ROUTING_INDICATION: "Routing datagram".

use crate::cemi::{self, Frame};
use crate::refusal::{MESSAGE_CODE, RANGE};
use crate::{front, header, Given, Meaning};

const ROUTING_INDICATION: u16 = 0x0530;
const INDICATION: u8 = 0x29;

/// "Routing: fewer than 6 octets (1), 10, 11, 12, then cEMI's."
pub fn read(octets: &[u8]) -> Result<Frame<'_>, u8> {
    let message = header::read(octets, ROUTING_INDICATION)?;
    // "in routing, not 29h" is also 7, in the place that cEMI's order gives it.
    match message.first() {
        Some(&code) if code != INDICATION => Err(MESSAGE_CODE),
        _ => cemi::read(message),
    }
}

/// Writes header and plain indication to the front of the room; 14, then 13.
pub fn write(
    code: u8,
    error_mark: u8,
    given: &Given,
    payload: &[u8],
    room: &mut [u8],
) -> Result<usize, u8> {
    if code != INDICATION || error_mark != 0 {
        return Err(RANGE);
    }
    write_meaning(&given.meaning(payload)?, payload, room)
}

/// Writes a datagram whose payload has a length of its format.
pub(crate) fn write_meaning(
    meaning: &Meaning,
    payload: &[u8],
    room: &mut [u8],
) -> Result<usize, u8> {
    let size = header::SIZE + cemi::HEAD_SIZE + payload.len();
    let message = header::lay(ROUTING_INDICATION, front(room, size)?);
    cemi::lay(INDICATION, false, meaning, payload, message);
    Ok(size)
}

#[cfg(test)]
mod tests {
    use super::*;
    use crate::Format;

    const P7: [u8; 20] = [
        0x06, 0x10, 0x05, 0x30, 0x00, 0x14, 0x29, 0x00, 0xbc, 0xc0, 0x00, 0x00, 0x12, 0x34, 0x04,
        0x00, 0x80, 0x56, 0x78, 0x9a,
    ];

    #[test]
    fn datagram_of_p7() {
        let frame = read(&P7).unwrap();
        let expected = Meaning {
            format: Format::Standard,
            first_sending: true,
            priority: 3,
            source: 0,
            group: true,
            destination: 0x1234,
            count: 4,
        };
        assert_eq!(frame.meaning, expected);
        assert_eq!(frame.code, cemi::Code::Indication);
        assert_eq!(frame.information, []);
        assert_eq!(frame.payload, [0x00, 0x80, 0x56, 0x78, 0x9a]);
    }

    #[test]
    fn p7_is_written() {
        let given = Given {
            extended: 0,
            first_sending: 1,
            priority: 3,
            source: 0,
            group: 1,
            destination: 0x1234,
            count: 4,
        };
        let mut room = [0x55; 22];
        assert_eq!(write(0x29, 0, &given, &P7[15..], &mut room), Ok(20));
        assert_eq!(room[..20], P7);
        assert_eq!(room[20..], [0x55; 2]);
        assert_eq!(write(0x11, 0, &given, &P7[15..], &mut room), Err(14));
        assert_eq!(write(0x29, 0, &given, &P7[15..], &mut room[..19]), Err(13));
    }

    #[test]
    fn order_of_refusals() {
        assert_eq!(read(&[0x07, 0x10]), Err(1));
        assert_eq!(read(&[0x07, 0x10, 0, 0, 0, 0]), Err(10));
        assert_eq!(read(&[0x06, 0x10, 0, 0, 0, 0]), Err(11));
        assert_eq!(read(&[0x06, 0x10, 0x05, 0x30, 0, 0]), Err(12));
        assert_eq!(read(&[0x06, 0x10, 0x05, 0x30, 0, 6]), Err(1));
        assert_eq!(read(&[0x06, 0x10, 0x05, 0x30, 0, 7, 0x11]), Err(7));
    }
}
