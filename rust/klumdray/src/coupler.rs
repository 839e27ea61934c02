//! One coupler step: a frame received from one side is acknowledged or not, forwarded to the other
//! side or not, and remembered.

use core::fmt;

use crate::answer::Step;
use crate::{raw, tp1, Refusal};

/// The octets of a filter table. The bit of group g is bit g mod 8 of octet g div 8.
pub const TABLE_SIZE: usize = 8192;

/// The octets of a block of settings: the own line, four codes each way, the main side's medium.
pub const SETTINGS_SIZE: usize = 10;

/// The octets of a memory: for each side two of size and the longest frame's.
pub const MEMORY_SIZE: usize = 2 * (2 + tp1::FRAME_SIZE);

/// The octets that a step's room has at the least.
pub const ROOM_SIZE: usize = 272;

/// A side of the coupler.
///
/// ```
/// assert_eq!(klumdray::coupler::Side::Sub.to_string(), "sub");
/// ```
#[derive(Clone, Copy, Debug, PartialEq, Eq, Hash)]
pub enum Side {
    /// The side of the line above, or of the backbone.
    Main,
    /// The side of the coupler's own line.
    Sub,
}

impl Side {
    #[inline]
    fn number(self) -> u8 {
        match self {
            Side::Main => 0,
            Side::Sub => 1,
        }
    }
}

impl fmt::Display for Side {
    fn fmt(&self, f: &mut fmt::Formatter<'_>) -> fmt::Result {
        f.write_str(match self {
            Side::Main => "main",
            Side::Sub => "sub",
        })
    }
}

/// The medium of the main side; the sub side is TP1.
#[derive(Clone, Copy, Debug, PartialEq, Eq, Hash)]
pub enum Medium {
    /// TP1 frames, as on the sub side.
    Tp1,
    /// KNXnet/IP routing datagrams.
    Ip,
}

impl Medium {
    #[inline]
    fn number(self) -> u8 {
        match self {
            Medium::Tp1 => 0,
            Medium::Ip => 1,
        }
    }
}

/// A coupler's settings.
#[derive(Clone, Copy, Debug, PartialEq, Eq)]
pub struct Settings<'a> {
    /// Its own line, area times 16 plus line, 01h to FFh.
    pub line: u8,
    /// A row for main to sub and one for sub to main, in each the codes for individual addresses
    /// (0, 1, 2), broadcast (0, 2), groups 0001h to 6FFFh (0, 1, 2) and groups 7000h to FFFFh
    /// (0, 1, 2). Code 0 is closed, 2 open; 1 asks the filter table for groups and the coupler's
    /// place for individual addresses.
    pub codes: [[u8; 4]; 2],
    /// The medium of its main side.
    pub medium: Medium,
    /// The filter table: 8,192 octets, or none where no group code is 1.
    pub table: &'a [u8],
}

impl Settings<'_> {
    /// The settings as the library is lent them, apart from the filter table.
    #[inline]
    fn block(&self) -> [u8; SETTINGS_SIZE] {
        let mut block = [0; SETTINGS_SIZE];
        block[0] = self.line;
        // All at once: one by one they cost every step six instructions more.
        block[1..9].copy_from_slice(self.codes.as_flattened());
        block[9] = self.medium.number();
        block
    }
}

/// What a coupler remembers between frames: the last accepted frame of each TP1 side.
#[derive(Clone, Debug, PartialEq, Eq)]
pub struct Memory([u8; MEMORY_SIZE]);

impl Memory {
    /// The memory at the start: no frame of either side.
    ///
    /// ```
    /// use klumdray::coupler::{Memory, Side};
    /// assert_eq!(Memory::new().remembered(Side::Main), None);
    /// assert_eq!(Memory::new().remembered(Side::Sub), None);
    /// ```
    #[inline]
    pub fn new() -> Memory {
        Memory([0; MEMORY_SIZE])
    }

    /// The octets of the last accepted frame that was received from a side over TP1.
    ///
    /// ```
    /// use klumdray::coupler::{step, Medium, Memory, Settings, Side, ROOM_SIZE};
    /// let closed = Settings { line: 0x11, codes: [[0; 4]; 2], medium: Medium::Ip, table: &[] };
    /// let octets = [0xb0, 0xaf, 0xfe, 0x00, 0x00, 0xe1, 0x01, 0x00, 0xfe];
    /// let (mut memory, mut room) = (Memory::new(), [0; ROOM_SIZE]);
    /// let outcome = step(&closed, Side::Sub, &mut memory, &octets, &mut room);
    /// assert_eq!(outcome.refusal, None);
    /// assert_eq!(memory.remembered(Side::Sub), Some(&octets[..]));
    /// assert_eq!(memory.remembered(Side::Main), None);
    /// ```
    #[inline]
    pub fn remembered(&self, side: Side) -> Option<&[u8]> {
        let (main, sub) = self.0.split_at(MEMORY_SIZE / 2);
        frame_in(match side {
            Side::Main => main,
            Side::Sub => sub,
        })
    }
}

/// The frame in a side's part of a memory, or in a station's memory: two octets of size, then the
/// frame.
#[inline]
pub(crate) fn frame_in(part: &[u8]) -> Option<&[u8]> {
    let size = usize::from(u16::from_be_bytes([part[0], part[1]]));
    part[2..].get(..size).filter(|frame| !frame.is_empty())
}

impl Default for Memory {
    #[inline]
    fn default() -> Memory {
        Memory::new()
    }
}

/// What a TP1 frame is acknowledged with.
#[derive(Clone, Copy, Debug, PartialEq, Eq, Hash)]
pub enum Acknowledgement {
    /// CCh: the frame is for the coupler itself, or its address, codes and count allow forwarding.
    Acknowledged,
}

impl Acknowledgement {
    /// The octet to send on the side that the frame came from.
    ///
    /// ```
    /// assert_eq!(klumdray::coupler::Acknowledgement::Acknowledged.octet(), 0xcc);
    /// ```
    #[inline]
    pub fn octet(self) -> u8 {
        match self {
            Acknowledgement::Acknowledged => 0xcc,
        }
    }
}

/// What became of the octets received: number, acknowledgement or none, for itself or not, octets
/// forwarded. An outcome says all four also on a refusal: its number, none, not, 0.
#[derive(Clone, Copy, Debug, PartialEq, Eq)]
#[must_use = "an outcome may be a refusal, and has what is to be sent on either side"]
pub struct Outcome<'a> {
    /// The refusal; none where the number is 0 and the frame is accepted.
    pub refusal: Option<Refusal>,
    /// What the frame is acknowledged with, if it is; never from IP.
    pub acknowledgement: Option<Acknowledgement>,
    /// Whether the frame is for the coupler itself.
    pub own: bool,
    /// The octets to send on the other side, the first of the room; none if nothing is forwarded.
    pub forwarded: &'a [u8],
}

impl<'a> Outcome<'a> {
    /// The four parts of a step's answer, none of which is asked for another.
    #[inline]
    fn answered(answer: Step, room: &'a [u8]) -> Outcome<'a> {
        Outcome {
            refusal: answer.refusal(),
            acknowledgement: answer.acknowledgement(),
            own: answer.own(),
            forwarded: &room[..answer.forwarded()],
        }
    }

    /// The outcome of an accepted frame, for callers who go on with `?`. The error is the outcome
    /// of a refused one, whole.
    ///
    /// ```
    /// use klumdray::coupler::{step, Medium, Memory, Outcome, Settings, Side, ROOM_SIZE};
    /// use klumdray::Refusal;
    /// fn octets_sent<'a>(octets: &[u8], room: &'a mut [u8]) -> Result<usize, Outcome<'a>> {
    ///     let open = Settings { line: 0x11, codes: [[2; 4]; 2], medium: Medium::Tp1, table: &[] };
    ///     let outcome = step(&open, Side::Sub, &mut Memory::new(), octets, room);
    ///     Ok(outcome.accepted()?.forwarded.len())
    /// }
    /// let octets = [0xb0, 0xaf, 0xfe, 0x00, 0x00, 0xe1, 0x01, 0x00, 0xfe];
    /// assert_eq!(octets_sent(&octets, &mut [0; ROOM_SIZE]), Ok(9));
    /// let refused = Outcome {
    ///     refusal: Some(Refusal::TOO_FEW), acknowledgement: None, own: false, forwarded: &[],
    /// };
    /// assert_eq!(octets_sent(&[], &mut [0; ROOM_SIZE]), Err(refused));
    /// ```
    #[inline]
    pub fn accepted(self) -> Result<Outcome<'a>, Outcome<'a>> {
        match self.refusal {
            None => Ok(self),
            Some(_) => Err(self),
        }
    }
}

/// Does one step with the octets received from a side: a routing datagram from the main side where
/// its medium is IP, else a TP1 frame. Refusals: 15, 18, 13 exactly when the room is below 272
/// octets, then those of [`crate::routing::read`] or [`crate::tp1::read`]. Octets of the room
/// behind those forwarded stay; after a refusal all do, and the memory too.
///
/// ```
/// use klumdray::coupler::{step, Acknowledgement, Medium, Memory, Settings, Side, ROOM_SIZE};
/// use klumdray::Refusal;
/// let settings = Settings {
///     line: 0xff, codes: [[0, 2, 0, 0], [0; 4]], medium: Medium::Tp1, table: &[],
/// };
/// let (mut memory, mut room) = (Memory::new(), [0; ROOM_SIZE]);
///
/// let octets = [0xb0, 0xaf, 0xfe, 0x00, 0x00, 0xe1, 0x01, 0x00, 0xfe];
/// let outcome = step(&settings, Side::Main, &mut memory, &octets, &mut room);
/// assert_eq!(outcome.refusal, None);
/// assert_eq!(outcome.acknowledgement, Some(Acknowledgement::Acknowledged));
/// assert!(!outcome.own);
/// assert_eq!(outcome.forwarded, [0xb0, 0xaf, 0xfe, 0x00, 0x00, 0xd1, 0x01, 0x00, 0xce]);
///
/// let repeated = [0x90, 0xaf, 0xfe, 0x00, 0x00, 0xe1, 0x01, 0x00, 0xde];
/// let outcome = step(&settings, Side::Main, &mut memory, &repeated, &mut room);
/// assert_eq!(outcome.acknowledgement, Some(Acknowledgement::Acknowledged));
/// assert!(outcome.forwarded.is_empty());
///
/// // Marked repeated, but one bit differs from the frame remembered.
/// let other = [0x90, 0xaf, 0xfe, 0x00, 0x00, 0xe1, 0x01, 0x01, 0xdf];
/// let outcome = step(&settings, Side::Main, &mut memory, &other, &mut room);
/// assert_eq!(outcome.forwarded, [0xb0, 0xaf, 0xfe, 0x00, 0x00, 0xd1, 0x01, 0x01, 0xcf]);
///
/// let outcome = step(&settings, Side::Sub, &mut memory, &[0xcc], &mut room);
/// assert_eq!(outcome.refusal, Some(Refusal::ANOTHER_KIND));
/// assert_eq!(outcome.acknowledgement, None);
/// assert!(!outcome.own && outcome.forwarded.is_empty());
/// ```
#[inline]
pub fn step<'a>(
    settings: &Settings<'_>,
    side: Side,
    memory: &mut Memory,
    octets: &[u8],
    room: &'a mut [u8],
) -> Outcome<'a> {
    let setting = raw::Setting {
        settings: &settings.block(),
        table: settings.table,
        side: side.number().into(),
    };
    let answer = Step(raw::step(&setting, &mut memory.0, octets, room));
    Outcome::answered(answer, room)
}

#[cfg(test)]
mod tests {
    use super::*;

    /// Every part is there, although no step gives such an answer.
    #[test]
    fn a_refusal_hides_no_other_part() {
        let room = [1, 2, 3];
        let outcome = Outcome::answered(Step(2 << 32 | 1 << 16 | 0xcc << 8 | 6), &room);
        let whole = Outcome {
            refusal: Some(Refusal::CHECK_OCTET),
            acknowledgement: Some(Acknowledgement::Acknowledged),
            own: true,
            forwarded: &[1, 2],
        };
        assert_eq!(outcome, whole);
        assert_eq!(outcome.accepted(), Err(whole));
    }
}
