//! Calls of tunnelling for the comparison: two implementations are asked the same, each with a
//! table of channels of its own that is carried on, and the first answer, part, table or room in
//! which they differ is reported.

use crate::tunnel_counts::Counts;
use klumdray::raw;
use reference::cemi::{Code, Frame};
use reference::tunnelling::{self, Channel, Table, CHANNELS};
use reference::{Format, Given};
use std::fmt;

/// The octets of a channel: open, receive counter, send counter; and of a table.
pub const CHANNEL: usize = 3;
pub const TABLE: usize = CHANNELS * CHANNEL;
pub const OPEN: u8 = 1;

/// What both services begin with: the KNXnet/IP header, 04h, channel, counter, 00h or the status.
pub const HEAD: usize = 10;
pub const CHANNEL_AT: usize = 7;
pub const COUNTER_AT: usize = 8;

/// Table and room lent at most, and octets behind them that were not.
const LARGEST_TABLE: usize = TABLE + 1;
pub const LARGEST_ROOM: usize = 300;
const NOT_LENT: usize = 16;

/// The numbers and the payload of a message to be written, in their ranges or not.
#[derive(Clone, Debug)]
pub struct Message {
    pub code: u8,
    pub error_mark: u8,
    pub given: Given,
    pub payload: Vec<u8>,
}

impl Message {
    pub fn size(&self) -> usize {
        HEAD + 9 + self.payload.len()
    }

    pub fn numbers(&self) -> raw::Numbers {
        raw::Numbers {
            extended: self.given.extended.into(),
            first_sending: self.given.first_sending.into(),
            priority: self.given.priority.into(),
            source: self.given.source.into(),
            group: self.given.group.into(),
            destination: self.given.destination.into(),
            count: self.given.count.into(),
        }
    }
}

/// One of the seven calls, apart from table and room.
#[derive(Clone, Copy, Debug)]
pub enum Asked<'a> {
    Receive(&'a [u8]),
    /// On a channel.
    Send(u32, &'a Message),
    Confirm(&'a [u8]),
    ReadRequest(&'a [u8]),
    /// With channel and counter.
    WriteRequest([u32; 2], &'a Message),
    ReadAcknowledgement(&'a [u8]),
    /// With channel, counter and status.
    WriteAcknowledgement([u32; 3]),
}

impl<'a> Asked<'a> {
    /// The datagram that arrives on a table.
    pub fn arriving(&self) -> Option<&'a [u8]> {
        match *self {
            Asked::Receive(octets) | Asked::Confirm(octets) => Some(octets),
            _ => None,
        }
    }

    /// The same call with another datagram.
    pub fn with_octets<'b>(&self, octets: &'b [u8]) -> Option<Asked<'b>> {
        match self {
            Asked::Receive(_) => Some(Asked::Receive(octets)),
            Asked::Confirm(_) => Some(Asked::Confirm(octets)),
            Asked::ReadRequest(_) => Some(Asked::ReadRequest(octets)),
            Asked::ReadAcknowledgement(_) => Some(Asked::ReadAcknowledgement(octets)),
            _ => None,
        }
    }

    /// The datagram that is read.
    pub fn octets(&self) -> Option<&'a [u8]> {
        match *self {
            Asked::ReadRequest(octets) | Asked::ReadAcknowledgement(octets) => Some(octets),
            _ => self.arriving(),
        }
    }
}

/// What one call is asked and lent.
pub struct Lent<'a, 'r> {
    pub asked: Asked<'a>,
    pub channels: &'r mut [u8],
    pub room: &'r mut [u8],
}

/// An answer, and the parts of the caller's octets that it hands out.
#[derive(Clone, Copy)]
pub struct Answer<'a> {
    pub packed: u64,
    pub payload: &'a [u8],
    pub information: &'a [u8],
}

impl Answer<'_> {
    /// An answer without parts: a refusal, or a number alone.
    pub fn bare(packed: u64) -> Answer<'static> {
        Answer {
            packed,
            payload: &[],
            information: &[],
        }
    }

    pub fn number(&self) -> u8 {
        self.packed as u8
    }

    pub fn is_delivered(&self) -> bool {
        self.packed >> 56 & 3 != 0
    }
}

pub type Tunnel = dyn for<'a> FnMut(&mut Lent<'a, '_>) -> Answer<'a>;

/// The parts of an accepted request where include/klumdray.h says that they are.
fn with_parts(octets: &[u8], packed: u64) -> Answer<'_> {
    let answer = Answer::bare(packed);
    if answer.number() != 0 || !answer.is_delivered() {
        return answer;
    }
    let start = octets.len() - (packed >> 48 & 0xff) as usize;
    Answer {
        payload: &octets[start..],
        information: &octets[HEAD + 2..start - 7],
        ..answer
    }
}

pub fn library<'a>(lent: &mut Lent<'a, '_>) -> Answer<'a> {
    let (channels, room) = (&mut *lent.channels, &mut *lent.room);
    let packed = match lent.asked {
        Asked::Receive(octets) => {
            return with_parts(octets, raw::tunnelling_receive(channels, octets, room));
        }
        Asked::ReadRequest(octets) => {
            return with_parts(octets, raw::tunnelling_request_read(octets));
        }
        Asked::Send(channel, message) => {
            let (code, mark) = (message.code.into(), message.error_mark.into());
            let (numbers, payload) = (&message.numbers(), &message.payload);
            raw::tunnelling_send(channels, channel, code, mark, numbers, payload, room)
        }
        Asked::WriteRequest([channel, counter], message) => {
            let (code, mark) = (message.code.into(), message.error_mark.into());
            let (numbers, payload) = (&message.numbers(), &message.payload);
            raw::tunnelling_request_write(channel, counter, code, mark, numbers, payload, room)
        }
        Asked::Confirm(octets) => raw::tunnelling_confirm(channels, octets).into(),
        Asked::ReadAcknowledgement(octets) => raw::tunnelling_ack_read(octets).into(),
        Asked::WriteAcknowledgement([channel, counter, status]) => {
            raw::tunnelling_ack_write(channel, counter, status, room)
        }
    };
    Answer::bare(packed)
}

/// The reference behind the library's surface, which adds the block, a refusal of its own and
/// numbers of more bits than an octet.
pub fn reference<'a>(lent: &mut Lent<'a, '_>) -> Answer<'a> {
    let (channels, room) = (&mut *lent.channels, &mut *lent.room);
    match lent.asked {
        Asked::Receive(octets) => {
            answered_frame(on_table(channels, |table| table.receive(octets, room)))
        }
        Asked::ReadRequest(octets) => {
            answered_frame(tunnelling::read_request(octets).map(|request| Some(request.frame)))
        }
        Asked::Send(channel, message) => answered_size(on_table(channels, |table| {
            send(table, channel, message, room)
        })),
        Asked::WriteRequest(numbers, message) => {
            answered_size(write_request(numbers, message, room))
        }
        Asked::Confirm(octets) => {
            let raised = on_table(channels, |table| table.confirm(octets));
            answered(raised.map(|raised| u64::from(raised) << 8))
        }
        Asked::ReadAcknowledgement(octets) => {
            let read = tunnelling::read_acknowledgement(octets);
            answered(read.map(|read| {
                u32::from_le_bytes([0, read.channel, read.counter, read.status]).into()
            }))
        }
        Asked::WriteAcknowledgement(numbers) => answered_size(write_acknowledgement(numbers, room)),
    }
}

fn answered(answer: Result<u64, u8>) -> Answer<'static> {
    Answer::bare(answer.unwrap_or_else(u64::from))
}

fn answered_size(written: Result<usize, u8>) -> Answer<'static> {
    answered(written.map(|size| (size as u64) << 8))
}

/// A reader's answer by the bits that include/klumdray.h names; 0 without a frame.
fn answered_frame(read: Result<Option<Frame<'_>>, u8>) -> Answer<'_> {
    match read {
        Ok(Some(frame)) => Answer {
            packed: packed(&frame),
            payload: frame.payload,
            information: frame.information,
        },
        Ok(None) => Answer::bare(0),
        Err(number) => Answer::bare(number.into()),
    }
}

fn packed(frame: &Frame<'_>) -> u64 {
    let code = match frame.code {
        Code::Request => 1,
        Code::Confirmation => 2,
        Code::Indication => 3,
    };
    let meaning = &frame.meaning;
    u64::from(meaning.format == Format::Extended) << 8
        | u64::from(meaning.first_sending) << 9
        | u64::from(meaning.priority) << 10
        | u64::from(meaning.group) << 12
        | u64::from(meaning.count) << 13
        | u64::from(meaning.source) << 16
        | u64::from(meaning.destination) << 32
        | (frame.payload.len() as u64) << 48
        | code << 56
        | u64::from(frame.error_mark) << 58
}

/// An octet given as a number of 32 bits, or 14.
fn octet(number: u32) -> Result<u8, u8> {
    u8::try_from(number).map_err(|_| 14)
}

/// "Sending checks 14, 20, 13"; a number of more bits than an octet is no channel's, as 0 is none.
fn send(table: &Table, channel: u32, message: &Message, room: &mut [u8]) -> Result<usize, u8> {
    let (code, mark) = (message.code, message.error_mark);
    let channel = u8::try_from(channel).unwrap_or(0);
    table.send(channel, code, mark, &message.given, &message.payload, room)
}

fn write_request(
    [channel, counter]: [u32; 2],
    message: &Message,
    room: &mut [u8],
) -> Result<usize, u8> {
    let (channel, counter) = (octet(channel)?, octet(counter)?);
    let (code, mark) = (message.code, message.error_mark);
    let (given, payload) = (&message.given, &message.payload);
    tunnelling::write_request(channel, counter, code, mark, given, payload, room)
}

fn write_acknowledgement(
    [channel, counter, status]: [u32; 3],
    room: &mut [u8],
) -> Result<usize, u8> {
    tunnelling::write_acknowledgement(octet(channel)?, octet(counter)?, octet(status)?, room)
}

/// Does a call on the reference's table, whose counters are put into the block.
fn on_table<T>(
    channels: &mut [u8],
    call: impl FnOnce(&mut Table) -> Result<T, u8>,
) -> Result<T, u8> {
    if channels.len() != TABLE {
        return Err(14);
    }
    let channel = |octets: &[u8]| Channel {
        open: octets[0] == OPEN,
        receive: octets[1],
        send: octets[2],
    };
    let mut table = Table {
        channels: std::array::from_fn(|place| channel(&channels[place * CHANNEL..])),
    };
    let answer = call(&mut table);
    for (octets, channel) in channels.chunks_mut(CHANNEL).zip(table.channels) {
        octets[1..].copy_from_slice(&[channel.receive, channel.send]);
    }
    answer
}

/// Where a channel's octets begin in a table, if there is one of this number.
pub fn place(number: u8) -> Option<usize> {
    let place = usize::from(number).checked_sub(1)?;
    (place < CHANNELS).then_some(place * CHANNEL)
}

pub struct Comparison<'s> {
    proved: &'s mut Tunnel,
    reference: &'s mut Tunnel,
    /// The table of each, equal so far.
    tables: [[u8; LARGEST_TABLE + NOT_LENT]; 2],
    pub counts: Counts,
}

impl<'s> Comparison<'s> {
    pub fn new(proved: &'s mut Tunnel, reference: &'s mut Tunnel) -> Comparison<'s> {
        Comparison {
            proved,
            reference,
            tables: [[0; LARGEST_TABLE + NOT_LENT]; 2],
            counts: Counts::default(),
        }
    }

    /// A channel's octets in both tables, as a caller sets them.
    pub fn set(&mut self, number: u8, octets: [u8; CHANNEL]) {
        let place = place(number).expect("a channel");
        for table in &mut self.tables {
            table[place..][..CHANNEL].copy_from_slice(&octets);
        }
    }

    /// The table.
    pub fn table(&self) -> [u8; TABLE] {
        *self.tables[1].first_chunk().expect("a table")
    }

    /// Compares the answers, the parts as octets and as places in the caller's slice, the whole
    /// tables and rooms, and octets behind both.
    pub fn ask(&mut self, asked: Asked<'_>, table: usize, room: usize) -> Result<(), String> {
        let before = self.table();
        let mut rooms = [[self.counts.calls() as u8; LARGEST_ROOM + NOT_LENT]; 2];
        let [found_room, expected_room] = &mut rooms;
        let [found_table, expected_table] = &mut self.tables;
        let found = (self.proved)(&mut Lent {
            asked,
            channels: &mut found_table[..table],
            room: &mut found_room[..room],
        });
        let expected = (self.reference)(&mut Lent {
            asked,
            channels: &mut expected_table[..table],
            room: &mut expected_room[..room],
        });
        let same = same_answer(&found, &expected)
            .and_then(|()| same("room", found_room, expected_room))
            .and_then(|()| same("table", found_table, expected_table));
        same.map_err(|difference| {
            format!("{difference}; table {before:02x?} of {table}, room of {room}, {asked:02x?}")
        })?;
        self.counts.add(&asked, room, &expected, &before);
        Ok(())
    }
}

fn same_answer(found: &Answer<'_>, expected: &Answer<'_>) -> Result<(), String> {
    if found.packed != expected.packed {
        let (found, expected) = (found.packed, expected.packed);
        return Err(format!("{found:x}, reference {expected:x}"));
    }
    same_part("payload", found.payload, expected.payload)?;
    same_part("information", found.information, expected.information)
}

/// "the very octets received, not copied": the same place, wherever there is an octet at all.
fn same_part(name: &str, found: &[u8], expected: &[u8]) -> Result<(), String> {
    let elsewhere = !expected.is_empty() && found.as_ptr() != expected.as_ptr();
    if found != expected || elsewhere {
        let (here, there) = (found.as_ptr(), expected.as_ptr());
        return Err(format!(
            "{name} {found:02x?} at {here:?}, not {expected:02x?} at {there:?}"
        ));
    }
    Ok(())
}

/// The first place where octets and the reference's differ, and both of them.
fn same(name: &str, found: &[u8], expected: &[u8]) -> Result<(), String> {
    let mut pairs = found.iter().zip(expected).enumerate();
    match pairs.find(|(_, (found, expected))| found != expected) {
        None => Ok(()),
        Some((place, (found, expected))) => Err(format!(
            "{name} differs at {place}: {found:02x}, reference {expected:02x}"
        )),
    }
}

impl fmt::Display for Comparison<'_> {
    fn fmt(&self, f: &mut fmt::Formatter<'_>) -> fmt::Result {
        self.counts.fmt(f)
    }
}
