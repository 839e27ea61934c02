//! TP1 L_Data frames, standard and extended.

use crate::answer::{written, Reading};
use crate::{raw, Meaning, Refusal};

/// The octets of the longest frame.
pub const FRAME_SIZE: usize = 263;

/// An accepted frame over the caller's octets.
#[derive(Clone, Copy, Debug, PartialEq, Eq)]
pub struct Frame<'a> {
    /// What the frame says.
    pub meaning: Meaning,
    payload: &'a [u8],
}

impl<'a> Frame<'a> {
    /// TPCI onward: the very octets received, not copied.
    ///
    /// ```
    /// let octets = [0xb0, 0xaf, 0xfe, 0, 0, 0xe1, 0x01, 0x00, 0xfe];
    /// let payload = klumdray::tp1::read(&octets)?.payload();
    /// assert_eq!(payload.as_ptr(), octets[6..].as_ptr());
    /// assert_eq!(payload, [0x01, 0x00]);
    /// # Ok::<(), klumdray::Refusal>(())
    /// ```
    #[inline]
    pub fn payload(&self) -> &'a [u8] {
        self.payload
    }
}

/// Reads one frame; refusals in the order 1, 2, 1, 3, 4, 1, 5, 6.
///
/// ```
/// let octets = [0xb0, 0xaf, 0xfe, 0, 0, 0xe1, 0x01, 0x00, 0xfe];
/// let frame = klumdray::tp1::read(&octets)?;
/// assert!(frame.meaning.group && frame.meaning.first_sending && !frame.meaning.extended);
/// assert_eq!((frame.meaning.source, frame.meaning.count), (0xaffe, 6));
///
/// let refusal = klumdray::tp1::read(&octets[..8]).unwrap_err();
/// assert_eq!(refusal, klumdray::Refusal::TOO_FEW);
/// # Ok::<(), klumdray::Refusal>(())
/// ```
#[inline]
pub fn read(octets: &[u8]) -> Result<Frame<'_>, Refusal> {
    let reading = Reading::accepted(raw::tp1_read(octets))?;
    let meaning = reading.meaning();
    let start = if meaning.extended { 7 } else { 6 };
    let payload = &octets[start..start + reading.payload_length()];
    Ok(Frame { meaning, payload })
}

/// Writes one frame to the front of the room and returns its size. Refusals: 14, then 13 exactly
/// when the room is below that size. Octets behind the frame stay, and after a refusal all do.
///
/// ```
/// use klumdray::{tp1, Meaning, Refusal};
/// let meaning = Meaning {
///     extended: false, first_sending: true, priority: 3,
///     source: 0, group: true, destination: 0x1234, count: 3,
/// };
/// let mut room = [0x55; 13];
/// assert_eq!(tp1::write(&meaning, &[0x00, 0x80, 0x56, 0x78, 0x9a], &mut room)?, 12);
/// assert_eq!(room, [0xbc, 0, 0, 0x12, 0x34, 0xb4, 0, 0x80, 0x56, 0x78, 0x9a, 0xe5, 0x55]);
///
/// assert_eq!(tp1::write(&meaning, &[0], &mut room[..7]), Err(Refusal::ROOM));
/// assert_eq!(tp1::write(&meaning, &[0; 17], &mut room), Err(Refusal::RANGE));
/// # Ok::<(), Refusal>(())
/// ```
#[inline]
pub fn write(meaning: &Meaning, payload: &[u8], room: &mut [u8]) -> Result<usize, Refusal> {
    written(raw::tp1_write(&meaning.numbers(), payload, room))
}
