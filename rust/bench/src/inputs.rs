//! What the rows are given: one meaning, and payloads of any length.

use klumdray::raw::Numbers;
use reference::Given;

/// The largest thing written is a tunnelling request with LG 254.
pub const LARGEST: usize = 274;

pub fn given(extended: u8) -> Given {
    Given {
        extended,
        first_sending: 1,
        priority: 3,
        source: 0x11fe,
        group: 1,
        destination: 0x1234,
        count: 6,
    }
}

pub fn numbers(given: &Given) -> Numbers {
    Numbers {
        extended: given.extended.into(),
        first_sending: given.first_sending.into(),
        priority: given.priority.into(),
        source: given.source.into(),
        group: given.group.into(),
        destination: given.destination.into(),
        count: given.count.into(),
    }
}

pub fn payload(length: usize) -> Vec<u8> {
    (0..length).map(|place| place as u8).collect()
}
