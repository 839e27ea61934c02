//! Datagrams for the comparisons: a cEMI message behind a head that begins with a KNXnet/IP header.

use crate::support::Comparison;
use inputs::frames::mend_total;
use inputs::Generator;

/// A head with the right total length, or with what two octets keep of it, before a message.
pub fn datagram(head: &[u8], message: &[u8]) -> Vec<u8> {
    let mut octets = [head, message].concat();
    mend_total(&mut octets);
    octets
}

/// The datagram, each octet damaged, each cut and 1 to 3 octets more, both with the total length
/// as it was and mended.
pub fn around(
    comparison: &mut Comparison,
    generator: &mut Generator,
    valid: &[u8],
) -> Result<(), String> {
    comparison.read(valid)?;
    let mut octets = valid.to_vec();
    for place in 0..valid.len() {
        comparison.read(&valid[..place])?;
        let mut cut = valid[..place].to_vec();
        mend_total(&mut cut);
        comparison.read(&cut)?;
        octets[place] ^= generator.damage();
        comparison.read(&octets)?;
        octets[place] = valid[place];
    }
    for _ in 0..3 {
        octets.push(generator.octet());
        comparison.read(&octets)?;
        let mut longer = octets.clone();
        mend_total(&mut longer);
        comparison.read(&longer)?;
    }
    Ok(())
}

/// Around the most that two octets of total length can say, with a message at the front.
pub fn large(comparison: &mut Comparison, head: &[u8], message: &[u8]) -> Result<(), String> {
    for length in [65_535, 65_536, 65_536 + 6, 65_536 + 16, 131_072 + 16] {
        let mut octets = vec![0; length - head.len()];
        octets[..message.len()].copy_from_slice(message);
        comparison.read(&datagram(head, &octets))?;
    }
    Ok(())
}
