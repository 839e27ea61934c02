//! The numbers that a caller gives, in their ranges and outside.

use crate::call::Function;
use inputs::Generator;

/// Numbers above a range: next to it, far off, next to the bits of the range (8, or 16 for an
/// address), and such that those bits alone would be right.
pub fn all_outside(right: u32, most: u32) -> Vec<u32> {
    let bits = if most > 255 { 65_535 } else { 255 };
    let mut numbers = vec![
        most + 1,
        bits,
        bits + 1,
        256 | right,
        65_536 | right,
        0x00ff_0000 | right,
        0x8000_0000 | right,
        u32::MAX,
    ];
    numbers.retain(|&number| number > most);
    numbers
}

/// One of them.
pub fn outside(generator: &mut Generator, right: u32, most: u32) -> u32 {
    generator.one_of(&all_outside(right, most))
}

/// The largest number in its range of each function, in the order of its numbers. Of a channel to send
/// on, which has no range, the largest that may be open.
pub fn ranges(function: Function) -> &'static [u32] {
    match function {
        Function::Tp1Write => &MOST,
        Function::CemiWrite => &[0x2e, 1, 1, 1, 3, 65_535, 1, 65_535, 7],
        Function::RoutingWrite => &[0x29, 0, 1, 1, 3, 65_535, 1, 65_535, 7],
        Function::Step => &[1],
        Function::Trace => &[255, 1, 65_535, 7],
        Function::Why => &[255, 1, 65_535, 7, 255],
        Function::TunnellingRequestWrite => &[255, 255, 0x2e, 1, 1, 1, 3, 65_535, 1, 65_535, 7],
        Function::TunnellingAckWrite => &[255, 255, 255],
        Function::TunnellingSend => &[4, 0x2e, 1, 1, 1, 3, 65_535, 1, 65_535, 7],
        Function::FloatValue | Function::TotalAdd | Function::Take => &[65_535],
        Function::CheckOctet
        | Function::Tp1Read
        | Function::CemiRead
        | Function::RoutingRead
        | Function::TunnellingRequestRead
        | Function::TunnellingAckRead
        | Function::TunnellingReceive
        | Function::TunnellingConfirm
        | Function::FloatRead
        | Function::FloatWrite
        | Function::Increment => &[],
    }
}

/// The numbers of a frame in the writers' order, in their ranges.
pub fn frame(generator: &mut Generator, extended: bool) -> [u32; 7] {
    [
        extended.into(),
        generator.below(2) as u32,
        generator.below(4) as u32,
        generator.field().into(),
        generator.below(2) as u32,
        generator.field().into(),
        generator.below(8) as u32,
    ]
}

/// The largest of each in its range.
pub const MOST: [u32; 7] = [1, 1, 3, 65_535, 1, 65_535, 7];

#[cfg(test)]
mod tests {
    use super::*;

    #[test]
    fn all_numbers_are_outside() {
        let numbers = all_outside(3, 3);
        assert_eq!(numbers[..5], [4, 255, 256, 259, 65_539]);
        for most in [0, 1, 3, 7, 255, 65_535] {
            assert!(all_outside(0, most).iter().all(|&it| it > most));
        }
    }
}
