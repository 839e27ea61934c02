//! An independent reading of document 01, "Frame layouts", "Refusal numbers", "The coupler" and
//! "Sites and the tracer", and of document 02, "R-1. Laptop on the line", "R-2. An increment eaten
//! as a repetition" and "R-4. Litres that add up".
//!
//! It is written from those papers alone and shares nothing with the proved code: the proved
//! library is compared with it, input by input. A refusal is its number in the papers.
#![forbid(unsafe_code)]

pub mod cemi;
pub mod coupler;
mod header;
pub mod leak;
pub mod refusal;
pub mod routing;
pub mod site;
pub mod station;
pub mod tp1;
pub mod tracer;
pub mod tunnelling;

#[derive(Clone, Copy, Debug, PartialEq, Eq)]
pub enum Format {
    Standard,
    Extended,
}

impl Format {
    /// "payload (TPCI onward, 1 to 16 octets standard, 1 to 255 extended)"
    fn has_payload_length(self, length: usize) -> bool {
        match self {
            Format::Standard => (1..=16).contains(&length),
            Format::Extended => (1..=255).contains(&length),
        }
    }
}

/// "A frame's meaning", without the payload, which stays with the caller's octets.
#[derive(Clone, Copy, Debug, PartialEq, Eq)]
pub struct Meaning {
    pub format: Format,
    /// The repeat flag as the bit stands: first sending, or repetitions asked for in a request.
    pub first_sending: bool,
    pub priority: u8,
    pub source: u16,
    pub group: bool,
    pub destination: u16,
    pub count: u8,
}

impl Meaning {
    /// From the control octet (or Ctrl1) and the octet with AT and hop count.
    fn from_octets(control: u8, at_and_count: u8, source: [u8; 2], destination: [u8; 2]) -> Self {
        Meaning {
            format: format_of(control),
            first_sending: control & 0x20 != 0,
            priority: control >> 2 & 3,
            source: u16::from_be_bytes(source),
            group: at_and_count & 0x80 != 0,
            destination: u16::from_be_bytes(destination),
            count: at_and_count >> 4 & 7,
        }
    }

    /// The control octet, which is also Ctrl1 of the plain form without an error mark.
    fn control(&self) -> u8 {
        let format = match self.format {
            Format::Standard => 0x80,
            Format::Extended => 0,
        };
        format | u8::from(self.first_sending) << 5 | 0x10 | self.priority << 2
    }

    /// AT and hop count in their places, with the low four bits zero.
    fn at_and_count(&self) -> u8 {
        u8::from(self.group) << 7 | self.count << 4
    }
}

fn format_of(control: u8) -> Format {
    if control & 0x80 != 0 {
        Format::Standard
    } else {
        Format::Extended
    }
}

/// The numbers that a caller gives to a writer; any of them may be outside its range.
#[derive(Clone, Copy, Debug, PartialEq, Eq)]
pub struct Given {
    pub extended: u8,
    pub first_sending: u8,
    pub priority: u8,
    pub source: u16,
    pub group: u8,
    pub destination: u16,
    pub count: u8,
}

impl Given {
    /// The meaning given, or 14; "also a payload length the format lacks".
    fn meaning(&self, payload: &[u8]) -> Result<Meaning, u8> {
        let meaning = Meaning {
            format: if flag(self.extended)? {
                Format::Extended
            } else {
                Format::Standard
            },
            first_sending: flag(self.first_sending)?,
            priority: at_most(3, self.priority)?,
            source: self.source,
            group: flag(self.group)?,
            destination: self.destination,
            count: at_most(7, self.count)?,
        };
        if meaning.format.has_payload_length(payload.len()) {
            Ok(meaning)
        } else {
            Err(refusal::RANGE)
        }
    }
}

fn flag(number: u8) -> Result<bool, u8> {
    at_most(1, number).map(|bit| bit == 1)
}

fn at_most(most: u8, number: u8) -> Result<u8, u8> {
    if number <= most {
        Ok(number)
    } else {
        Err(refusal::RANGE)
    }
}

/// "13, exactly when the room is below the written size; octets behind it stay"
fn front(room: &mut [u8], size: usize) -> Result<&mut [u8], u8> {
    room.get_mut(..size).ok_or(refusal::ROOM)
}

/// "the ones' complement of the exclusive or of all octets"
pub fn check_octet(octets: &[u8]) -> u8 {
    !octets.iter().fold(0, |sum, octet| sum ^ octet)
}

#[cfg(test)]
mod tests {
    use super::*;

    #[test]
    fn check_octet_of_nothing() {
        assert_eq!(check_octet(&[]), 0xff);
    }

    #[test]
    fn check_octet_of_p1() {
        let before = [
            0xbc, 0x00, 0x00, 0x12, 0x34, 0xb4, 0x00, 0x80, 0x56, 0x78, 0x9a,
        ];
        assert_eq!(check_octet(&before), 0xe5);
    }
}
