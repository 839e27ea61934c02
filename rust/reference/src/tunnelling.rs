//! KNXnet/IP TUNNELLING_REQUEST and TUNNELLING_ACK: document 02, "R-1. Laptop on the line".

use crate::cemi::{self, Frame};
use crate::refusal::{CHANNEL, COUNTER, FIRST_OCTET, OCTETS_LEFT, TOO_FEW};
use crate::{front, header, Given};

const TUNNELLING_REQUEST: u16 = 0x0420;
const TUNNELLING_ACK: u16 = 0x0421;

/// "After the KNXnet/IP header come 04h, channel, counter, 00h (status in the acknowledgement)."
const HEAD_SIZE: usize = header::SIZE + 4;
const FIRST: u8 = 0x04;
/// The status of what is acknowledged here, and the only one that raises a send counter.
const NO_ERROR: u8 = 0x00;

/// "four channels, numbered 1 to 4"
pub const CHANNELS: usize = 4;

/// A TUNNELLING_REQUEST as it stands on the wire, whatever its channel and counter.
#[derive(Clone, Copy, Debug, PartialEq, Eq)]
pub struct Request<'a> {
    pub channel: u8,
    pub counter: u8,
    pub frame: Frame<'a>,
}

/// A TUNNELLING_ACK as it stands on the wire, whatever its channel and counter.
#[derive(Clone, Copy, Debug, PartialEq, Eq)]
pub struct Acknowledgement {
    pub channel: u8,
    pub counter: u8,
    pub status: u8,
}

/// The octets behind the first one, 04h.
struct Head {
    channel: u8,
    counter: u8,
    /// The status of an acknowledgement; in a request "the octet 00h isn't read".
    last: u8,
}

/// What both services begin with, and what follows it: 1, 10, 11, 12, then "fewer than 10 octets
/// in all is 1 just before 19".
fn read_head(octets: &[u8], wanted: u16) -> Result<(Head, &[u8]), u8> {
    let &[first, channel, counter, last, ref rest @ ..] = header::read(octets, wanted)? else {
        return Err(TOO_FEW);
    };
    if first != FIRST {
        return Err(FIRST_OCTET);
    }
    let head = Head {
        channel,
        counter,
        last,
    };
    Ok((head, rest))
}

/// Lays what both services begin with over the front of a room of exactly the datagram's size, and
/// returns what is left of it.
fn lay_head(service: u16, head: Head, room: &mut [u8]) -> &mut [u8] {
    let (octets, rest) = header::lay(service, room).split_at_mut(HEAD_SIZE - header::SIZE);
    octets.copy_from_slice(&[FIRST, head.channel, head.counter, head.last]);
    rest
}

/// 1, 10, 11, 12, 1, 19, then cEMI's; "all three message codes are read".
pub fn read_request(octets: &[u8]) -> Result<Request<'_>, u8> {
    let (head, message) = read_head(octets, TUNNELLING_REQUEST)?;
    Ok(Request {
        channel: head.channel,
        counter: head.counter,
        frame: cemi::read(message)?,
    })
}

/// Writes the request with the plain form to the front of the room and returns its size; 14, then
/// 13.
pub fn write_request(
    channel: u8,
    counter: u8,
    code: u8,
    error_mark: u8,
    given: &Given,
    payload: &[u8],
    room: &mut [u8],
) -> Result<usize, u8> {
    let (error_mark, meaning) = cemi::test_given(code, error_mark, given, payload)?;
    let room = front(room, HEAD_SIZE + cemi::HEAD_SIZE + payload.len())?;
    let size = room.len();
    let head = Head {
        channel,
        counter,
        last: 0x00,
    };
    let message = lay_head(TUNNELLING_REQUEST, head, room);
    cemi::lay(code, error_mark, &meaning, payload, message);
    Ok(size)
}

/// 1, 10, 11, 12, 1, 19; "for an acknowledgement 5 comes last".
pub fn read_acknowledgement(octets: &[u8]) -> Result<Acknowledgement, u8> {
    let (head, rest) = read_head(octets, TUNNELLING_ACK)?;
    test_end(rest)?;
    Ok(Acknowledgement {
        channel: head.channel,
        counter: head.counter,
        status: head.last,
    })
}

/// An acknowledgement ends at its status, or is refused by 5.
fn test_end(rest: &[u8]) -> Result<(), u8> {
    match rest {
        [] => Ok(()),
        _ => Err(OCTETS_LEFT),
    }
}

/// Writes the acknowledgement to the front of the room and returns its size, or 13.
pub fn write_acknowledgement(
    channel: u8,
    counter: u8,
    status: u8,
    room: &mut [u8],
) -> Result<usize, u8> {
    let room = front(room, HEAD_SIZE)?;
    let head = Head {
        channel,
        counter,
        last: status,
    };
    lay_head(TUNNELLING_ACK, head, room);
    Ok(HEAD_SIZE)
}

/// "each open or closed with a receive and a send counter from 0 to 255"; the counters of a closed
/// one mean nothing.
#[derive(Clone, Copy, Debug, Default, PartialEq, Eq)]
pub struct Channel {
    pub open: bool,
    /// The counter expected in the next request received.
    pub receive: u8,
    /// The counter of the request to send, until it is acknowledged.
    pub send: u8,
}

/// "Each call must do what a plain table of counters does."
#[derive(Clone, Copy, Debug, PartialEq, Eq)]
pub struct Table {
    /// Channel 1 is the first.
    pub channels: [Channel; CHANNELS],
}

impl Table {
    /// Fresh channels: "counters 0; the caller names the open ones". A number that is no channel's
    /// opens none.
    pub fn with_open(open: &[u8]) -> Table {
        let mut channels = [Channel::default(); CHANNELS];
        for (number, channel) in (1..).zip(&mut channels) {
            channel.open = open.contains(&number);
        }
        Table { channels }
    }

    /// The place of an open channel, or 20: "channel not open, whatever its number".
    fn place(&self, number: u8) -> Result<usize, u8> {
        let place = usize::from(number).checked_sub(1).ok_or(CHANNEL)?;
        match self.channels.get(place) {
            Some(channel) if channel.open => Ok(place),
            _ => Err(CHANNEL),
        }
    }

    /// A request arrives. The frame if it is delivered, or none if the request is one behind and so
    /// "acknowledged again and not delivered"; with both, the acknowledgement is at the front of
    /// the room. "13 (room below 10) first", then 1, 10, 11, 12, 1, 19, 20, 21, then cEMI's, "read
    /// for the one behind too".
    pub fn receive<'a>(
        &mut self,
        octets: &'a [u8],
        room: &mut [u8],
    ) -> Result<Option<Frame<'a>>, u8> {
        let room = front(room, HEAD_SIZE)?;
        let (head, message) = read_head(octets, TUNNELLING_REQUEST)?;
        let place = self.place(head.channel)?;
        let channel = &mut self.channels[place];
        let is_expected = head.counter == channel.receive;
        // "also 255 on a fresh channel"
        let is_one_behind = head.counter == channel.receive.wrapping_sub(1);
        if !is_expected && !is_one_behind {
            return Err(COUNTER);
        }
        let frame = cemi::read(message)?;
        write_acknowledgement(head.channel, head.counter, NO_ERROR, room)?;
        if is_expected {
            // "raised by one, 255 going to 0"
            channel.receive = channel.receive.wrapping_add(1);
        }
        Ok(is_expected.then_some(frame))
    }

    /// Writes a request "with the send counter", which stays until it is acknowledged: "Sending
    /// checks 14, 20, 13".
    pub fn send(
        &self,
        channel: u8,
        code: u8,
        error_mark: u8,
        given: &Given,
        payload: &[u8],
        room: &mut [u8],
    ) -> Result<usize, u8> {
        cemi::test_given(code, error_mark, given, payload)?;
        let counter = self.channels[self.place(channel)?].send;
        write_request(channel, counter, code, error_mark, given, payload, room)
    }

    /// An acknowledgement arrives. Whether the send counter is raised: "an acknowledgement of that
    /// counter with status 00h raises it, with another status changes nothing, and one of another
    /// counter is 21". Order: 1, 10, 11, 12, 1, 19, 20, 21, 5.
    pub fn confirm(&mut self, octets: &[u8]) -> Result<bool, u8> {
        let (head, rest) = read_head(octets, TUNNELLING_ACK)?;
        let place = self.place(head.channel)?;
        let channel = &mut self.channels[place];
        if head.counter != channel.send {
            return Err(COUNTER);
        }
        test_end(rest)?;
        let is_raised = head.last == NO_ERROR;
        if is_raised {
            channel.send = channel.send.wrapping_add(1);
        }
        Ok(is_raised)
    }
}

#[cfg(test)]
mod tests;
