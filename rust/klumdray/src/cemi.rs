//! cEMI L_Data request, confirmation and indication.

use core::fmt;

use crate::answer::{written, Reading};
use crate::{raw, Meaning, Refusal};

/// A message code.
///
/// ```
/// assert_eq!(klumdray::cemi::Code::Request.to_string(), "request");
/// ```
#[derive(Clone, Copy, Debug, PartialEq, Eq, Hash)]
pub enum Code {
    /// L_Data request, 11h.
    Request,
    /// L_Data confirmation, 2Eh.
    Confirmation,
    /// L_Data indication, 29h.
    Indication,
}

impl Code {
    /// The octet that stands for the code.
    ///
    /// ```
    /// assert_eq!(klumdray::cemi::Code::Confirmation.octet(), 0x2e);
    /// ```
    #[inline]
    pub fn octet(self) -> u8 {
        match self {
            Code::Request => 0x11,
            Code::Confirmation => 0x2e,
            Code::Indication => 0x29,
        }
    }

    /// The code that an octet stands for.
    ///
    /// ```
    /// use klumdray::cemi::Code;
    /// assert_eq!(Code::from_octet(0x29), Some(Code::Indication));
    /// assert_eq!(Code::from_octet(0x2b), None);
    /// ```
    #[inline]
    pub fn from_octet(octet: u8) -> Option<Code> {
        let codes = [Code::Request, Code::Confirmation, Code::Indication];
        codes.into_iter().find(|code| code.octet() == octet)
    }
}

impl fmt::Display for Code {
    fn fmt(&self, f: &mut fmt::Formatter<'_>) -> fmt::Result {
        f.write_str(match self {
            Code::Request => "request",
            Code::Confirmation => "confirmation",
            Code::Indication => "indication",
        })
    }
}

/// An accepted frame over the caller's octets.
#[derive(Clone, Copy, Debug, PartialEq, Eq)]
pub struct Frame<'a> {
    /// Which of the three messages it is.
    pub code: Code,
    /// The error mark, read in a confirmation only and otherwise false.
    pub error_mark: bool,
    /// What the frame says.
    pub meaning: Meaning,
    information: &'a [u8],
    payload: &'a [u8],
}

impl<'a> Frame<'a> {
    /// Takes an accepted message apart; `header` octets stand before it.
    #[inline]
    pub(crate) fn new(octets: &'a [u8], reading: Reading, header: usize) -> Frame<'a> {
        let (before, payload) = octets.split_at(octets.len() - reading.payload_length());
        // Message code and a stand before the information, Ctrl1 to LG behind it.
        let information = &before[header + 2..before.len() - 7];
        Frame {
            code: reading.code(),
            error_mark: reading.error_mark(),
            meaning: reading.meaning(),
            information,
            payload,
        }
    }

    /// TPCI onward: the very octets received, not copied.
    ///
    /// ```
    /// let octets = [0x29, 0x00, 0xbc, 0xe0, 0x11, 0x01, 0x12, 0x34, 0x01, 0x00, 0x81];
    /// let payload = klumdray::cemi::read(&octets)?.payload();
    /// assert_eq!(payload.as_ptr(), octets[9..].as_ptr());
    /// assert_eq!(payload, [0x00, 0x81]);
    /// # Ok::<(), klumdray::Refusal>(())
    /// ```
    #[inline]
    pub fn payload(&self) -> &'a [u8] {
        self.payload
    }

    /// Additional information: the very octets received, not copied, and none where a is 0.
    ///
    /// ```
    /// let octets = [0x29, 0x02, 0x03, 0x00, 0xbc, 0xe0, 0, 0, 0x12, 0x34, 0x00, 0x00];
    /// let information = klumdray::cemi::read(&octets)?.information();
    /// assert_eq!(information.as_ptr(), octets[2..].as_ptr());
    /// assert_eq!(information, [0x03, 0x00]);
    /// # Ok::<(), klumdray::Refusal>(())
    /// ```
    #[inline]
    pub fn information(&self) -> &'a [u8] {
        self.information
    }
}

/// Reads one message; refusals in the order 1, 7, 1, 8, 1, 3, 4, 9, 1, 5.
///
/// ```
/// use klumdray::cemi::{self, Code};
/// let octets = [0x2e, 0x00, 0xbd, 0xe0, 0x11, 0x01, 0x12, 0x34, 0x01, 0x00, 0x81];
/// let frame = cemi::read(&octets)?;
/// assert_eq!((frame.code, frame.error_mark), (Code::Confirmation, true));
/// assert_eq!((frame.meaning.source, frame.meaning.count), (0x1101, 6));
///
/// assert_eq!(cemi::read(&[0x2b, 0x00]), Err(klumdray::Refusal::MESSAGE_CODE));
/// # Ok::<(), klumdray::Refusal>(())
/// ```
#[inline]
pub fn read(octets: &[u8]) -> Result<Frame<'_>, Refusal> {
    let reading = Reading::accepted(raw::cemi_read(octets))?;
    Ok(Frame::new(octets, reading, 0))
}

/// Writes the plain form of one message to the front of the room and returns its size. Refusals:
/// 14, also for an error mark outside a confirmation; then 13 exactly when the room is below that
/// size. Octets behind the message stay, and after a refusal all do.
///
/// ```
/// use klumdray::cemi::{self, Code};
/// use klumdray::{Meaning, Refusal};
/// let meaning = Meaning {
///     extended: false, first_sending: true, priority: 3,
///     source: 0x1101, group: true, destination: 0x1234, count: 6,
/// };
/// let mut room = [0x55; 12];
/// assert_eq!(cemi::write(Code::Request, false, &meaning, &[0x00, 0x81], &mut room)?, 11);
/// assert_eq!(room, [0x11, 0, 0xbc, 0xe0, 0x11, 0x01, 0x12, 0x34, 1, 0x00, 0x81, 0x55]);
///
/// let refused = cemi::write(Code::Request, true, &meaning, &[0x00, 0x81], &mut room);
/// assert_eq!(refused, Err(Refusal::RANGE));
/// # Ok::<(), Refusal>(())
/// ```
#[inline]
pub fn write(
    code: Code,
    error_mark: bool,
    meaning: &Meaning,
    payload: &[u8],
    room: &mut [u8],
) -> Result<usize, Refusal> {
    let (code, error_mark) = (code.octet().into(), error_mark.into());
    written(raw::cemi_write(
        code,
        error_mark,
        &meaning.numbers(),
        payload,
        room,
    ))
}
