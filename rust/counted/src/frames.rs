//! Readers and writers of TP1 frames, cEMI messages and routing datagrams.

use crate::packed::{packed_message, packed_size, packed_tp1};
use crate::{fits, lent, room, Answer};
use reference::{cemi, routing, tp1, Given};

type Tp1<'a> = Result<tp1::Frame<'a>, u8>;
type Message<'a> = Result<cemi::Frame<'a>, u8>;
type Written = Result<usize, u8>;

const _: () = assert!(fits::<Given>(2));

/// # Safety
/// As the declaration in `reference.h` says, here and below: lengths are those of what is lent.
#[no_mangle]
pub unsafe extern "C-unwind" fn lend_given(given: *mut Given, extended: u32, first_sending: u32) {
    given.write(Given {
        extended: extended as u8,
        first_sending: first_sending as u8,
        priority: 3,
        source: 0x11fe,
        group: 1,
        destination: 0x1234,
        count: 6,
    });
}

/// # Safety
/// As above.
#[no_mangle]
pub unsafe extern "C-unwind" fn reference_check_octet(octets: *const u8, n: usize) -> u8 {
    reference::check_octet(lent(octets, n))
}

/// # Safety
/// As above.
#[no_mangle]
pub unsafe extern "C-unwind" fn reference_tp1_read<'a>(
    octets: *const u8,
    n: usize,
) -> Answer<Tp1<'a>> {
    Answer::of(tp1::read(lent(octets, n)))
}

/// # Safety
/// As above.
#[no_mangle]
pub unsafe extern "C-unwind" fn reference_tp1_write(
    given: &Given,
    payload: *const u8,
    n: usize,
    octets: *mut u8,
    m: usize,
) -> Answer<Written> {
    Answer::of(tp1::write(given, lent(payload, n), room(octets, m)))
}

/// # Safety
/// As above.
#[no_mangle]
pub unsafe extern "C-unwind" fn reference_cemi_read<'a>(
    octets: *const u8,
    n: usize,
) -> Answer<Message<'a>> {
    Answer::of(cemi::read(lent(octets, n)))
}

/// # Safety
/// As above.
#[no_mangle]
pub unsafe extern "C-unwind" fn reference_cemi_write(
    code: u32,
    error_mark: u32,
    given: &Given,
    payload: *const u8,
    n: usize,
    octets: *mut u8,
    m: usize,
) -> Answer<Written> {
    let (code, error_mark) = (code as u8, error_mark as u8);
    Answer::of(cemi::write(
        code,
        error_mark,
        given,
        lent(payload, n),
        room(octets, m),
    ))
}

/// # Safety
/// As above.
#[no_mangle]
pub unsafe extern "C-unwind" fn reference_routing_read<'a>(
    octets: *const u8,
    n: usize,
) -> Answer<Message<'a>> {
    Answer::of(routing::read(lent(octets, n)))
}

/// # Safety
/// As above.
#[no_mangle]
pub unsafe extern "C-unwind" fn reference_routing_write(
    code: u32,
    error_mark: u32,
    given: &Given,
    payload: *const u8,
    n: usize,
    octets: *mut u8,
    m: usize,
) -> Answer<Written> {
    let (code, error_mark) = (code as u8, error_mark as u8);
    Answer::of(routing::write(
        code,
        error_mark,
        given,
        lent(payload, n),
        room(octets, m),
    ))
}

#[no_mangle]
pub extern "C-unwind" fn told_tp1(answer: &Answer<Tp1<'_>>) -> u64 {
    packed_tp1(answer.is)
}

#[no_mangle]
pub extern "C-unwind" fn told_message(answer: &Answer<Message<'_>>) -> u64 {
    packed_message(answer.is)
}

#[no_mangle]
pub extern "C-unwind" fn told_written(answer: &Answer<Written>) -> u64 {
    packed_size(answer.is)
}
