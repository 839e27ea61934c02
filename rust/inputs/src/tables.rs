//! Filter tables.

use crate::traffic::Address;
use crate::Generator;

/// Where half of the addresses in use are listed, and any one besides.
pub fn with_addresses(generator: &mut Generator, length: usize, addresses: &[Address]) -> Vec<u8> {
    let mut table = some_bits(generator, length);
    let any = (1, generator.field());
    for &(_, address) in addresses.iter().chain([&any]) {
        if let Some(octet) = table.get_mut(usize::from(address / 8)) {
            *octet ^= (generator.below(2) as u8) << (address % 8);
        }
    }
    table
}

/// Where each of the groups is listed in so many cases of eight.
pub fn with_groups(
    generator: &mut Generator,
    length: usize,
    groups: &[u16],
    eighths: usize,
) -> Vec<u8> {
    let mut table = some_bits(generator, length);
    for &group in groups {
        let (octet, bit) = (&mut table[usize::from(group / 8)], 1 << (group % 8));
        if generator.below(8) < eighths {
            *octet |= bit;
        } else {
            *octet &= !bit;
        }
    }
    table
}

/// Few bits or many or by chance.
fn some_bits(generator: &mut Generator, length: usize) -> Vec<u8> {
    match generator.below(3) {
        0 => vec![0; length],
        1 => vec![0xff; length],
        _ => generator.octets(length),
    }
}
