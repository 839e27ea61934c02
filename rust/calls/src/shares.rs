//! How often each function is called, and which are called alike.

use crate::call::{Function, FUNCTIONS};

/// Of so many calls, by function.
pub const SHARED: usize = 190;
pub const SHARES: [usize; FUNCTIONS] = [
    6, 11, 10, 9, 9, 9, 9, 19, 9, 9, 8, 7, 5, 5, 11, 6, 8, 5, 5, 6, 5, 6, 13,
];

/// The functions that take numbers.
pub const WITH_NUMBERS: [Function; 12] = [
    Function::Tp1Write,
    Function::CemiWrite,
    Function::RoutingWrite,
    Function::Step,
    Function::Trace,
    Function::Why,
    Function::TunnellingRequestWrite,
    Function::TunnellingAckWrite,
    Function::TunnellingSend,
    Function::FloatValue,
    Function::TotalAdd,
    Function::Take,
];

/// The functions that are lent octets alone.
pub const READERS: [Function; 8] = [
    Function::CheckOctet,
    Function::Tp1Read,
    Function::CemiRead,
    Function::RoutingRead,
    Function::TunnellingRequestRead,
    Function::TunnellingAckRead,
    Function::FloatRead,
    Function::Increment,
];

/// Those that write into a room.
pub const WRITERS: [Function; 5] = [
    Function::Tp1Write,
    Function::CemiWrite,
    Function::RoutingWrite,
    Function::TunnellingRequestWrite,
    Function::TunnellingAckWrite,
];

/// Those that are lent a table of channels.
pub const ON_CHANNELS: [Function; 3] = [
    Function::TunnellingReceive,
    Function::TunnellingSend,
    Function::TunnellingConfirm,
];

/// Those of the float that are given numbers alone.
pub const OF_NUMBERS: [Function; 2] = [Function::FloatValue, Function::FloatWrite];

/// Those that are lent a total.
pub const ON_TOTALS: [Function; 2] = [Function::TotalAdd, Function::Take];
