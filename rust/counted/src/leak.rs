//! The two-octet float, the total and a station.

use crate::packed::{packed_code, packed_sum, packed_taken, packed_value};
use crate::{fits, lent, Answer};
use reference::leak;
use reference::station::{Station, Taken};

type Value = Result<i32, u8>;
type Code = Result<u16, u8>;
type Sum = Result<i64, u8>;
type Taking = Result<Taken, u8>;

const _: () = assert!(fits::<Value>(1) && fits::<Code>(1) && fits::<Taking>(1));
const _: () = assert!(fits::<Station>(36));

/// A station of this group with nothing counted or remembered.
///
/// # Safety
/// As the declaration in `reference.h` says, here and below: lengths are those of what is lent.
#[no_mangle]
pub unsafe extern "C-unwind" fn lend_station(station: *mut Station, group: u32) {
    station.write(Station::new(group as u16, 0));
}

#[no_mangle]
pub extern "C-unwind" fn reference_float_value(code: u32) -> Value {
    leak::value(code as u16)
}

/// # Safety
/// As above.
#[no_mangle]
pub unsafe extern "C-unwind" fn reference_float_read(octets: *const u8, n: usize) -> Value {
    leak::read(lent(octets, n))
}

#[no_mangle]
pub extern "C-unwind" fn reference_float_write(hundredths: i64) -> Code {
    leak::write(hundredths)
}

#[no_mangle]
pub extern "C-unwind" fn reference_total_add(total: i64, code: u32) -> Answer<Sum> {
    Answer::of(leak::add(total, code as u16))
}

/// # Safety
/// As above.
#[no_mangle]
pub unsafe extern "C-unwind" fn reference_take(
    station: &mut Station,
    octets: *const u8,
    n: usize,
) -> Taking {
    station.take(lent(octets, n))
}

#[no_mangle]
pub extern "C-unwind" fn told_value(answer: &Value) -> u64 {
    packed_value(*answer)
}

#[no_mangle]
pub extern "C-unwind" fn told_code(answer: &Code) -> u64 {
    packed_code(*answer)
}

#[no_mangle]
pub extern "C-unwind" fn told_sum(answer: &Answer<Sum>) -> u64 {
    packed_sum(answer.is)
}

#[no_mangle]
pub extern "C-unwind" fn told_taken(answer: &Taking) -> u64 {
    packed_taken(*answer)
}

/// The sum that an addition comes to, or 0.
#[no_mangle]
pub extern "C-unwind" fn told_total(answer: &Answer<Sum>) -> i64 {
    answer.is.unwrap_or(0)
}

#[no_mangle]
pub extern "C-unwind" fn told_total_of(station: &Station) -> i64 {
    station.total
}
