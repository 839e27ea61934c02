//! The reference's answers of tunnelling, over channels in a lent block.

use super::packed::{packed, packed_message, packed_raising, packed_receipt, packed_size};
use super::{given, octet, whole_octet};
use crate::call::Function;
use reference::refusal::RANGE;
use reference::tunnelling::{self, Acknowledgement, Channel, Table, CHANNELS};

/// Open, receive counter, send counter.
pub const CHANNEL_SIZE: usize = 3;
pub const CHANNELS_SIZE: usize = CHANNELS * CHANNEL_SIZE;
/// "every other value is closed"
pub const OPEN: u8 = 0x01;

pub fn number(function: Function, numbers: &[u32], slices: &[&[u8]], rooms: &mut [Vec<u8>]) -> u64 {
    match (function, numbers, slices, rooms) {
        (Function::TunnellingRequestRead, [], &[octets], []) => {
            packed_message(tunnelling::read_request(octets).map(|request| request.frame))
        }
        (Function::TunnellingRequestWrite, numbers, &[payload], [room]) => {
            packed_size(write_request(numbers, payload, room))
        }
        (Function::TunnellingAckRead, [], &[octets], []) => {
            packed(tunnelling::read_acknowledgement(octets).map(packed_acknowledgement))
        }
        (Function::TunnellingAckWrite, &[channel, counter, status], [], [room]) => {
            packed_size(write_acknowledgement([channel, counter, status], room))
        }
        (Function::TunnellingReceive, [], &[octets], [channels, room]) => {
            packed_receipt(on_channels(channels, |table| table.receive(octets, room)))
        }
        (Function::TunnellingSend, numbers, &[channels, payload], [room]) => {
            packed_size(send(channels, numbers, payload, room))
        }
        (Function::TunnellingConfirm, [], &[octets], [channels]) => {
            packed_raising(on_channels(channels, |table| table.confirm(octets)))
        }
        _ => panic!("{function:?} has other arguments"),
    }
}

fn packed_acknowledgement(read: Acknowledgement) -> u64 {
    u32::from_le_bytes([0, read.channel, read.counter, read.status]).into()
}

fn write_request(numbers: &[u32], payload: &[u8], room: &mut [u8]) -> Result<usize, u8> {
    let &[channel, counter, code, mark, ref numbers @ ..] = numbers else {
        panic!("{} numbers of a request", numbers.len());
    };
    let (channel, counter) = (whole_octet(channel)?, whole_octet(counter)?);
    let (code, mark, given) = (octet(code), octet(mark), given(numbers)?);
    tunnelling::write_request(channel, counter, code, mark, &given, payload, room)
}

fn write_acknowledgement(numbers: [u32; 3], room: &mut [u8]) -> Result<usize, u8> {
    let [channel, counter, status] = numbers.map(whole_octet);
    tunnelling::write_acknowledgement(channel?, counter?, status?, room)
}

/// "The channel has no range": a number of more bits than an octet has is no channel's, as 0 is none.
fn send(channels: &[u8], numbers: &[u32], payload: &[u8], room: &mut [u8]) -> Result<usize, u8> {
    let &[channel, code, mark, ref numbers @ ..] = numbers else {
        panic!("{} numbers of a request to send", numbers.len());
    };
    let (code, mark) = (octet(code), octet(mark));
    let channel = u8::try_from(channel).unwrap_or(0);
    table(channels)?.send(channel, code, mark, &given(numbers)?, payload, room)
}

/// "A block of another length is refused by 14 before anything else."
fn table(channels: &[u8]) -> Result<Table, u8> {
    if channels.len() != CHANNELS_SIZE {
        return Err(RANGE);
    }
    let channel = |octets: &[u8]| Channel {
        open: octets[0] == OPEN,
        receive: octets[1],
        send: octets[2],
    };
    Ok(Table {
        channels: std::array::from_fn(|place| channel(&channels[place * CHANNEL_SIZE..])),
    })
}

/// Does a call on the reference's table, whose counters are put into the block.
fn on_channels<T>(
    channels: &mut [u8],
    call: impl FnOnce(&mut Table) -> Result<T, u8>,
) -> Result<T, u8> {
    let mut table = table(channels)?;
    let answer = call(&mut table);
    for (octets, channel) in channels.chunks_mut(CHANNEL_SIZE).zip(table.channels) {
        octets[1..].copy_from_slice(&[channel.receive, channel.send]);
    }
    answer
}
