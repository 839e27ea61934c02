//! KNXnet/IP ROUTING_INDICATION: a header and one cEMI indication.

use crate::answer::{written, Reading};
use crate::cemi::{Code, Frame};
use crate::{raw, Meaning, Refusal};

const HEADER: usize = 6;

/// Reads one datagram; refusals in the order 1, 10, 11, 12, then those of [`crate::cemi::read`],
/// where 7 is any message code but 29h.
///
/// ```
/// let octets = [
///     0x06, 0x10, 0x05, 0x30, 0x00, 0x14,
///     0x29, 0x00, 0xbc, 0xc0, 0x00, 0x00, 0x12, 0x34, 0x04, 0x00, 0x80, 0x56, 0x78, 0x9a,
/// ];
/// let frame = klumdray::routing::read(&octets)?;
/// assert_eq!((frame.meaning.destination, frame.meaning.count), (0x1234, 4));
/// assert_eq!(frame.payload(), [0x00, 0x80, 0x56, 0x78, 0x9a]);
///
/// let refusal = klumdray::routing::read(&octets[..19]).unwrap_err();
/// assert_eq!(refusal, klumdray::Refusal::TOTAL_LENGTH);
/// # Ok::<(), klumdray::Refusal>(())
/// ```
#[inline]
pub fn read(octets: &[u8]) -> Result<Frame<'_>, Refusal> {
    let reading = Reading::accepted(raw::routing_read(octets))?;
    Ok(Frame::new(octets, reading, HEADER))
}

/// Writes one datagram with a plain indication to the front of the room and returns its size.
/// Refusals: 14, then 13 exactly when the room is below that size. Octets behind the datagram
/// stay, and after a refusal all do.
///
/// ```
/// use klumdray::{routing, Meaning, Refusal};
/// let meaning = Meaning {
///     extended: false, first_sending: true, priority: 3,
///     source: 0, group: true, destination: 0x1234, count: 4,
/// };
/// let mut room = [0; 20];
/// assert_eq!(routing::write(&meaning, &[0x00, 0x80, 0x56, 0x78, 0x9a], &mut room)?, 20);
/// assert_eq!(room[..6], [0x06, 0x10, 0x05, 0x30, 0x00, 0x14]);
///
/// assert_eq!(routing::write(&meaning, &[0; 6], &mut room), Err(Refusal::ROOM));
/// # Ok::<(), Refusal>(())
/// ```
#[inline]
pub fn write(meaning: &Meaning, payload: &[u8], room: &mut [u8]) -> Result<usize, Refusal> {
    let code = Code::Indication.octet().into();
    written(raw::routing_write(
        code,
        0,
        &meaning.numbers(),
        payload,
        room,
    ))
}
