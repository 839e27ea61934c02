//! A coupler's step.

use crate::packed::packed_outcome;
use crate::{fits, lent, room, Answer};
use reference::coupler::{step, Coupler, Memory, Outcome};

const _: () = assert!(fits::<Coupler<'_>>(4) && fits::<Memory>(68));

/// A coupler as the library is lent it, but for the medium, and a memory at the start.
///
/// # Safety
/// As the declaration in `reference.h` says, here and below: lengths are those of what is lent, and
/// settings and table stay as long as the coupler.
#[no_mangle]
pub unsafe extern "C-unwind" fn lend_coupler(
    coupler: *mut Coupler<'_>,
    memory: *mut Memory,
    settings: &[u8; 10],
    table: *const u8,
    table_length: usize,
) {
    let &[line, d0, d1, d2, d3, u0, u1, u2, u3, _] = settings;
    coupler.write(Coupler {
        line,
        codes: [[d0, d1, d2, d3], [u0, u1, u2, u3]],
        table: lent(table, table_length),
    });
    memory.write(Memory::default());
}

/// # Safety
/// As above.
#[no_mangle]
pub unsafe extern "C-unwind" fn reference_step(
    coupler: &Coupler<'_>,
    side: u32,
    medium: u32,
    memory: &mut Memory,
    octets: *const u8,
    n: usize,
    forwarded: *mut u8,
    m: usize,
) -> Answer<Outcome> {
    let (octets, room) = (lent(octets, n), room(forwarded, m));
    let (side, medium) = (side as u8, medium as u8);
    Answer::of(step(coupler, side, medium, memory, octets, room))
}

#[no_mangle]
pub extern "C-unwind" fn told_step(answer: &Answer<Outcome>) -> u64 {
    packed_outcome(answer.is)
}
