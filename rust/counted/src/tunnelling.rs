//! The three calls on a table of channels.

use crate::packed::{packed_raising, packed_receipt};
use crate::{fits, lent, room, Answer};
use reference::cemi::Frame;
use reference::tunnelling::{Channel, Table, CHANNELS};
use reference::Given;

type Receipt<'a> = Result<Option<Frame<'a>>, u8>;
type Raising = Result<bool, u8>;

/// Channel 2.
const PLACE: usize = 1;

const _: () = assert!(fits::<Raising>(1) && fits::<Table>(2));

/// A table with every channel open and fresh, but for the counter that is expected on one.
///
/// # Safety
/// As the declaration in `reference.h` says, here and below: lengths are those of what is lent.
#[no_mangle]
pub unsafe extern "C-unwind" fn lend_channels(table: *mut Table, expected: u32) {
    let channel = Channel {
        open: true,
        ..Channel::default()
    };
    let mut channels = [channel; CHANNELS];
    channels[PLACE].receive = expected as u8;
    table.write(Table { channels });
}

/// # Safety
/// As above.
#[no_mangle]
pub unsafe extern "C-unwind" fn reference_receive<'a>(
    table: &mut Table,
    octets: *const u8,
    n: usize,
    acknowledgement: *mut u8,
    m: usize,
) -> Answer<Receipt<'a>> {
    Answer::of(table.receive(lent(octets, n), room(acknowledgement, m)))
}

/// # Safety
/// As above.
#[no_mangle]
pub unsafe extern "C-unwind" fn reference_send(
    table: &Table,
    channel: u32,
    code: u32,
    error_mark: u32,
    given: &Given,
    payload: *const u8,
    n: usize,
    request: *mut u8,
    m: usize,
) -> Answer<Result<usize, u8>> {
    let (channel, code, error_mark) = (channel as u8, code as u8, error_mark as u8);
    let (payload, room) = (lent(payload, n), room(request, m));
    Answer::of(table.send(channel, code, error_mark, given, payload, room))
}

/// # Safety
/// As above.
#[no_mangle]
pub unsafe extern "C-unwind" fn reference_confirm(
    table: &mut Table,
    octets: *const u8,
    n: usize,
) -> Raising {
    table.confirm(lent(octets, n))
}

#[no_mangle]
pub extern "C-unwind" fn told_receive(answer: &Answer<Receipt<'_>>) -> u64 {
    packed_receipt(answer.is)
}

#[no_mangle]
pub extern "C-unwind" fn told_confirm(answer: &Raising) -> u64 {
    packed_raising(*answer)
}

/// The channel's two counters, in the order of the library's block.
#[no_mangle]
pub extern "C-unwind" fn told_counters(table: &Table, counters: &mut [u8; 2]) {
    *counters = [table.channels[PLACE].receive, table.channels[PLACE].send];
}
