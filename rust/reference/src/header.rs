//! The KNXnet/IP header, which every datagram begins with: header length, version, service and
//! total length.

use crate::refusal::{HEADER, SERVICE, TOO_FEW, TOTAL_LENGTH};

pub(crate) const SIZE: usize = 6;

const HEADER_LENGTH: u8 = 0x06;
const VERSION: u8 = 0x10;

/// What follows the header of the service wanted; "fewer than 6 octets (1), 10, 11, 12".
pub(crate) fn read(octets: &[u8], wanted: u16) -> Result<&[u8], u8> {
    let &[length, version, v1, v0, t1, t0, ref rest @ ..] = octets else {
        return Err(TOO_FEW);
    };
    if length != HEADER_LENGTH || version != VERSION {
        return Err(HEADER);
    }
    if u16::from_be_bytes([v1, v0]) != wanted {
        return Err(SERVICE);
    }
    if usize::from(u16::from_be_bytes([t1, t0])) != octets.len() {
        return Err(TOTAL_LENGTH);
    }
    Ok(rest)
}

/// Lays the header over the front of a room of exactly the datagram's size, and returns what is
/// left of it.
pub(crate) fn lay(service: u16, room: &mut [u8]) -> &mut [u8] {
    let [v1, v0] = service.to_be_bytes();
    let [t1, t0] = (room.len() as u16).to_be_bytes();
    let (header, rest) = room.split_at_mut(SIZE);
    header.copy_from_slice(&[HEADER_LENGTH, VERSION, v1, v0, t1, t0]);
    rest
}

#[cfg(test)]
mod tests {
    use super::*;

    #[test]
    fn service_wanted_is_the_only_one_read() {
        let datagram = [0x06, 0x10, 0x02, 0x09, 0x00, 0x08, 0xaa, 0xbb];
        for wanted in 0..=0xffff {
            let expected = match wanted {
                0x0209 => Ok(&datagram[6..]),
                _ => Err(11),
            };
            assert_eq!(read(&datagram, wanted), expected, "{wanted:04x}");
        }
    }

    #[test]
    fn every_other_header_length_and_version_is_10() {
        for octet in 0..=255 {
            let length = [octet, 0x10, 0x05, 0x30, 0x00, 0x06];
            let version = [0x06, octet, 0x05, 0x30, 0x00, 0x06];
            for (header, right) in [(length, 0x06), (version, 0x10)] {
                let expected = (octet != right).then_some(10);
                assert_eq!(read(&header, 0x0530).err(), expected, "{header:02x?}");
            }
        }
    }

    /// No two octets can say the length of a datagram that long.
    #[test]
    fn datagrams_above_65535_octets_are_12() {
        for (length, total, expected) in [
            (0xffff, 0xffff, None),
            (0x1_0000, 0x0000, Some(12)),
            (0x1_0006, 0x0006, Some(12)),
            (0x1_ffff, 0xffff, Some(12)),
        ] {
            let mut octets = vec![0; length];
            let [t1, t0] = u16::to_be_bytes(total);
            octets[..6].copy_from_slice(&[0x06, 0x10, 0x05, 0x30, t1, t0]);
            assert_eq!(read(&octets, 0x0530).err(), expected, "{length}");
        }
    }

    #[test]
    fn what_is_laid_is_read() {
        for size in [6, 7, 0x00ff, 0x0100, 0x1234, 0xffff] {
            let mut room = vec![0x55; size];
            assert_eq!(lay(0x0421, &mut room).len(), size - 6);
            assert_eq!(room[..4], [0x06, 0x10, 0x04, 0x21]);
            assert_eq!(room[4..6], (size as u16).to_be_bytes());
            let rest = read(&room, 0x0421).unwrap();
            assert!(rest.iter().all(|&octet| octet == 0x55));
        }
    }
}
