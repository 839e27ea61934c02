//! Safe calls over the proved library `libklumdray.a`.
//!
//! Each call gives what documents 01 and 02 say, for every input: a frame's meaning with its
//! payload as a part of the caller's octets, the lines that a telegram reaches on a site, what a
//! table of tunnelling channels does, what a leak meter's telegram adds to the total of its circuit,
//! or a [`Refusal`] with its number in those papers. What a coupler does with a frame is a
//! [`coupler::Outcome`], with a refusal or without.
//!
//! ```
//! let octets = [0xbc, 0, 0, 0x12, 0x34, 0xb4, 0x00, 0x80, 0x56, 0x78, 0x9a, 0xe5];
//! let frame = klumdray::tp1::read(&octets)?;
//! assert_eq!(frame.meaning.destination, 0x1234);
//! assert_eq!(frame.payload(), [0x00, 0x80, 0x56, 0x78, 0x9a]);
//! # Ok::<(), klumdray::Refusal>(())
//! ```
#![no_std]
#![deny(unsafe_code)]
#![deny(missing_docs)]

mod answer;
pub mod cemi;
pub mod coupler;
pub mod leak;
mod meaning;
#[allow(unsafe_code)]
pub mod raw;
mod refusal;
pub mod routing;
pub mod station;
pub mod tp1;
pub mod tracer;
pub mod tunnelling;

pub use meaning::Meaning;
pub use refusal::Refusal;

/// Which build of the proved library is linked: the last part of the path of the folder that it lies
/// in. In its repository that is `x86-64` on such a machine, and elsewhere `emulated`, but the
/// machine's own, as `aarch64`, for benchmarks.
pub const LINKED: &str = env!("KLUMDRAY_LINKED");

/// The check octet: the ones' complement of the exclusive or of all octets given.
///
/// ```
/// assert_eq!(klumdray::check_octet(&[]), 0xff);
/// assert_eq!(klumdray::check_octet(&[0xb0, 0xaf, 0xfe, 0, 0, 0xe1, 0x01, 0x00]), 0xfe);
/// ```
#[inline]
pub fn check_octet(octets: &[u8]) -> u8 {
    raw::check_octet(octets) as u8
}
