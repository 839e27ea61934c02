//! One coupler step: "The coupler".

use crate::refusal::{RANGE, ROOM, SETTING, TABLE};
use crate::{routing, tp1, Meaning};

/// A bit for each group address: "the 8,192-octet filter table".
pub const TABLE_SIZE: usize = 8192;
/// "13 (room below 272)"
pub const ROOM_SIZE: usize = 272;
/// The largest TP1 frame is an extended one with LG 254: 9 + 254 octets.
pub const LARGEST_FRAME: usize = 263;

/// "Bit 5: 1 first sending, 0 repeated."
const REPEAT_BIT: u8 = 0b0010_0000;

/// The places in a row of codes: "individual 0, 1, 2; broadcast 0, 2; groups 0001h to 6FFFh 0, 1,
/// 2; groups 7000h to FFFFh 0, 1, 2".
const INDIVIDUAL: usize = 0;
const BROADCAST: usize = 1;
const LOWER_GROUPS: usize = 2;
const UPPER_GROUPS: usize = 3;

/// "Code 0 is closed, 2 open."
const CLOSED: u8 = 0;
/// Code 1: the filter table decides about groups, the coupler's place about individual addresses.
const SELECTED: u8 = 1;
const OPEN: u8 = 2;

/// The side that a frame is received from; as a number, also the row of its direction's codes.
#[derive(Clone, Copy, Debug, PartialEq, Eq)]
pub enum Side {
    Main,
    Sub,
}

impl Side {
    /// "receiving side 0 main, 1 sub"; 14 by any other number.
    fn from_number(number: u8) -> Result<Side, u8> {
        match number {
            0 => Ok(Side::Main),
            1 => Ok(Side::Sub),
            _ => Err(RANGE),
        }
    }

    /// The media that a frame from this side is received by and sent on by: "The main side is TP1
    /// or IP; the sub side is TP1."
    fn media(self, main: Medium) -> (Medium, Medium) {
        match self {
            Side::Main => (main, Medium::Tp1),
            Side::Sub => (Medium::Tp1, main),
        }
    }
}

#[derive(Clone, Copy, Debug, PartialEq, Eq)]
pub enum Medium {
    Tp1,
    Ip,
}

impl Medium {
    /// "main medium 0 TP1, 1 IP"; 14 by any other number.
    fn from_number(number: u8) -> Result<Medium, u8> {
        match number {
            0 => Ok(Medium::Tp1),
            1 => Ok(Medium::Ip),
            _ => Err(RANGE),
        }
    }

    /// What a frame received by this medium means, and its payload; or the reader's refusal.
    fn read(self, octets: &[u8]) -> Result<(Meaning, &[u8]), u8> {
        match self {
            Medium::Tp1 => tp1::read(octets).map(|frame| (frame.meaning, frame.payload)),
            Medium::Ip => routing::read(octets).map(|frame| (frame.meaning, frame.payload)),
        }
    }

    /// Writes a frame for this medium to the front of the room and returns its size; "on IP it is
    /// a plain indication in a routing datagram".
    fn write(self, meaning: &Meaning, payload: &[u8], room: &mut [u8]) -> Result<usize, u8> {
        match self {
            Medium::Tp1 => tp1::write_meaning(meaning, payload, room),
            Medium::Ip => routing::write_meaning(meaning, payload, room),
        }
    }
}

/// A coupler's settings as they are given; any of them may be wrong.
#[derive(Clone, Copy, Debug)]
pub struct Coupler<'a> {
    /// "A line is named by the high octet of its addresses".
    pub line: u8,
    /// "two rows of four codes, one row for each direction (main to sub, sub to main)"
    pub codes: [[u8; 4]; 2],
    /// The filter table, or nothing where no group code is 1.
    pub table: &'a [u8],
}

impl Coupler<'_> {
    /// "15, 18 (table length not 8,192, or 0 allowed if no group code is 1)"
    fn test(&self) -> Result<(), u8> {
        if self.line == 0x00 || !self.codes.iter().all(is_row) {
            return Err(SETTING);
        }
        match self.table.len() {
            TABLE_SIZE => Ok(()),
            0 if !self.needs_table() => Ok(()),
            _ => Err(TABLE),
        }
    }

    /// Whether a group code of either direction is 1.
    fn needs_table(&self) -> bool {
        self.codes
            .iter()
            .any(|row| row[LOWER_GROUPS] == SELECTED || row[UPPER_GROUPS] == SELECTED)
    }

    /// "A frame with AT 0 to the coupler's own address is for itself"; that address "is n followed
    /// by 00h".
    pub fn is_own(&self, group: bool, destination: u16) -> bool {
        !group && destination.to_be_bytes() == [self.line, 0x00]
    }

    /// The code that decides about a frame from this side.
    pub fn code(&self, from: Side, group: bool, destination: u16) -> u8 {
        self.codes[from as usize][place(group, destination)]
    }

    /// Whether address and codes let a frame from this side pass. A frame for the coupler itself
    /// is "never forwarded, under any code", and a code that is not allowed opens nothing.
    pub fn may_pass(&self, from: Side, group: bool, destination: u16) -> bool {
        if self.is_own(group, destination) {
            return false;
        }
        let code = self.code(from, group, destination);
        match (code, place(group, destination)) {
            (OPEN, _) => true,
            (SELECTED, INDIVIDUAL) => self.leads_to(from, destination),
            (SELECTED, LOWER_GROUPS | UPPER_GROUPS) => self.is_in_table(destination),
            _ => false,
        }
    }

    /// "bit g mod 8 of octet g div 8 in the 8,192-octet filter table is one"; past the end of a
    /// shorter table no bit is.
    pub fn is_in_table(&self, group: u16) -> bool {
        let octet = self.table.get(usize::from(group / 8));
        octet.is_some_and(|octet| octet >> (group % 8) & 1 == 1)
    }

    /// "Code 1 for individual: where n mod 16 is not 0, down if the destination's high octet is n,
    /// up if it isn't; otherwise down if the destination's area is the coupler's area, up if it
    /// isn't."
    pub fn leads_to(&self, from: Side, destination: u16) -> bool {
        let [line, _] = destination.to_be_bytes();
        let is_below = match self.line % 16 {
            0 => line / 16 == self.line / 16,
            _ => line == self.line,
        };
        match from {
            Side::Main => is_below,
            Side::Sub => !is_below,
        }
    }
}

/// The place of an address's class in a row. "AT 1 means a group address; group 0000h is
/// broadcast."
fn place(group: bool, destination: u16) -> usize {
    match destination {
        _ if !group => INDIVIDUAL,
        0x0000 => BROADCAST,
        0x0001..=0x6fff => LOWER_GROUPS,
        0x7000..=0xffff => UPPER_GROUPS,
    }
}

/// Whether the codes of one direction are allowed: "individual 0, 1, 2; broadcast 0, 2; groups
/// 0001h to 6FFFh 0, 1, 2; groups 7000h to FFFFh 0, 1, 2".
pub(crate) fn is_row(row: &[u8; 4]) -> bool {
    row[BROADCAST] != SELECTED && row.iter().all(|code| (CLOSED..=OPEN).contains(code))
}

/// The count, of 0 to 7, to forward with: 7 stays, another is one lower. "Count 0 is never
/// forwarded."
pub fn lowered(count: u8) -> Option<u8> {
    match count {
        7 => Some(7),
        _ => count.checked_sub(1),
    }
}

/// What a TP1 side remembers, and a station of its line: "the last accepted frame that was received
/// from it".
#[derive(Clone, Debug, PartialEq, Eq)]
pub struct Remembered {
    /// The frame's size; there is none where it is 0 or above the largest frame's.
    pub size: usize,
    /// The frame, and behind it what stood there before.
    pub octets: [u8; LARGEST_FRAME],
}

impl Remembered {
    /// "at the start none"
    pub(crate) const NONE: Remembered = Remembered {
        size: 0,
        octets: [0; LARGEST_FRAME],
    };

    /// The remembered frame's octets.
    pub fn frame(&self) -> Option<&[u8]> {
        match self.size {
            0 => None,
            size => self.octets.get(..size),
        }
    }

    /// "An accepted frame marked repeated is a repetition if" it agrees with the remembered one:
    /// "all octets must agree except the repeat bit and the check octet". The octets
    /// remembered are compared as they stand, a frame or not.
    pub(crate) fn is_repeated_by(&self, meaning: &Meaning, octets: &[u8]) -> bool {
        !meaning.first_sending && self.frame().is_some_and(|frame| agree(frame, octets))
    }

    /// "Afterwards the accepted frame is the remembered one."
    pub(crate) fn remember(&mut self, frame: &[u8]) {
        self.octets[..frame.len()].copy_from_slice(frame);
        self.size = frame.len();
    }
}

/// Whether all octets agree, their number included, "except the repeat bit", which is bit 5 of the
/// first, "and the check octet", which is the last.
fn agree(one: &[u8], other: &[u8]) -> bool {
    match (one, other) {
        ([control, body @ .., _], [other_control, other_body @ .., _]) => {
            (control ^ other_control) & !REPEAT_BIT == 0 && body == other_body
        }
        _ => false,
    }
}

/// What is kept "between frames".
#[derive(Clone, Debug, PartialEq, Eq)]
pub struct Memory {
    pub main: Remembered,
    pub sub: Remembered,
}

impl Default for Memory {
    fn default() -> Memory {
        Memory {
            main: Remembered::NONE,
            sub: Remembered::NONE,
        }
    }
}

impl Memory {
    /// The part that a frame received so belongs to. "IP has neither memory nor acknowledgement."
    fn part(&mut self, side: Side, medium: Medium) -> Option<&mut Remembered> {
        match (medium, side) {
            (Medium::Tp1, Side::Main) => Some(&mut self.main),
            (Medium::Tp1, Side::Sub) => Some(&mut self.sub),
            (Medium::Ip, _) => None,
        }
    }
}

/// What a TP1 frame gets.
#[derive(Clone, Copy, Debug, PartialEq, Eq)]
pub enum Acknowledgement {
    /// "CCh"
    Acknowledged,
}

impl Acknowledgement {
    pub fn octet(self) -> u8 {
        match self {
            Acknowledgement::Acknowledged => 0xcc,
        }
    }
}

/// "The step's result: number, acknowledgement or none, for itself or not, octets forwarded (0 if
/// none)."
#[derive(Clone, Copy, Debug, PartialEq, Eq)]
pub struct Outcome {
    /// The refusal's number, or 0.
    pub number: u8,
    pub acknowledgement: Option<Acknowledgement>,
    /// Whether the frame is for the coupler itself.
    pub own: bool,
    /// How many octets at the front of the room are forwarded.
    pub forwarded: usize,
}

impl Outcome {
    /// "On a refusal: its number, none, not, 0."
    pub fn refused(number: u8) -> Outcome {
        Outcome {
            number,
            acknowledgement: None,
            own: false,
            forwarded: 0,
        }
    }
}

/// Takes the octets received from one side, and writes what goes out on the other to the front of
/// the room.
pub fn step(
    coupler: &Coupler<'_>,
    side: u8,
    medium: u8,
    memory: &mut Memory,
    octets: &[u8],
    room: &mut [u8],
) -> Outcome {
    accepted(coupler, side, medium, memory, octets, room).unwrap_or_else(Outcome::refused)
}

/// The step with an accepted frame: "A repetition isn't forwarded." Or its refusal: "Order: 15, 18
/// .., 14 .., 13 (room below 272), then the reader's."
fn accepted(
    coupler: &Coupler<'_>,
    side: u8,
    medium: u8,
    memory: &mut Memory,
    octets: &[u8],
    room: &mut [u8],
) -> Result<Outcome, u8> {
    coupler.test()?;
    let side = Side::from_number(side)?;
    let (received_by, sent_by) = side.media(Medium::from_number(medium)?);
    if room.len() < ROOM_SIZE {
        return Err(ROOM);
    }
    let (meaning, payload) = received_by.read(octets)?;
    let own = coupler.is_own(meaning.group, meaning.destination);
    let allowed = onward(coupler, side, &meaning);
    let mut remembered = memory.part(side, received_by);
    let is_repetition = matches!(&remembered, Some(part) if part.is_repeated_by(&meaning, octets));
    let forwarded = match &allowed {
        Some(onward) if !is_repetition => sent_by.write(onward, payload, room)?,
        _ => 0,
    };
    if let Some(part) = &mut remembered {
        part.remember(octets);
    }
    // "A TP1 frame gets CCh exactly if it is for the coupler itself or, repetition or not, its
    // address, codes and count allow forwarding"
    let gets_cc = received_by == Medium::Tp1 && (own || allowed.is_some());
    Ok(Outcome {
        number: 0,
        acknowledgement: gets_cc.then_some(Acknowledgement::Acknowledged),
        own,
        forwarded,
    })
}

/// What goes out if a frame's "address, codes and count allow forwarding": it "keeps format,
/// priority, addresses and payload; its repeat flag says first sending", and its count is lowered.
fn onward(coupler: &Coupler<'_>, from: Side, meaning: &Meaning) -> Option<Meaning> {
    let count = lowered(meaning.count)?;
    let may_pass = coupler.may_pass(from, meaning.group, meaning.destination);
    may_pass.then_some(Meaning {
        first_sending: true,
        count,
        ..*meaning
    })
}

#[cfg(test)]
mod tests;
