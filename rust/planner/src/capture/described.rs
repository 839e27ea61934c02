//! The description of an interface in pcapng: its link, and its clock among the options.

use super::{Broken, Order, Source};
use crate::calendar::Moment;

/// The octets before the options.
pub const HEAD: usize = 8;
/// An option: units of a second.
const RESOLUTION: u16 = 9;
/// An option: seconds to add to each time.
const LATE: u16 = 14;

/// How an interface's packets are read.
#[derive(Clone, Copy)]
pub struct Described {
    /// The link type.
    pub link: u16,
    /// The most octets that were kept of a packet; 0 for all.
    pub most: u32,
    each_second: u128,
    late: i64,
}

impl Described {
    /// Reads a description that has so many octets, at least those before the options, and says how
    /// many it has taken.
    pub fn read(
        source: &mut Source<'_>,
        order: Order,
        inside: u32,
    ) -> Result<(Described, u32), Broken> {
        let mut head = [0; HEAD];
        source.fill(&mut head, "an interface's description")?;
        let [l0, l1, _, _, most @ ..] = head;
        let mut described = Described {
            link: order.u16([l0, l1]),
            most: order.u32(most),
            each_second: 1_000_000,
            late: 0,
        };
        let mut left = inside - HEAD as u32;
        while left >= 4 && described.option(source, order, &mut left)? {}
        Ok((described, inside - left))
    }

    /// The moment that a packet's time stands for.
    pub fn time(&self, units: u64) -> Option<Moment> {
        Moment::by_units(units, self.each_second, self.late)
    }

    /// Reads an option, and says whether another may follow.
    fn option(
        &mut self,
        source: &mut Source<'_>,
        order: Order,
        left: &mut u32,
    ) -> Result<bool, Broken> {
        let place = source.octet();
        let mut head = [0; 4];
        source.fill(&mut head, "an option")?;
        *left -= 4;
        let [code @ .., s0, s1] = head;
        let (code, size) = (order.u16(code), order.u16([s0, s1]));
        let padded = u32::from(size).next_multiple_of(4);
        if padded > *left {
            let expected = format!("an option of at most {left} octets");
            return Err(source.broken(place + 2, &expected, &size.to_string()));
        }
        *left -= padded;
        let mut value = [0; 8];
        match (code, size) {
            (RESOLUTION, 1) => {
                source.fill(&mut value[..4], "an option")?;
                self.each_second = each_second(source, place + 4, value[0])?;
            }
            (LATE, 8) => {
                source.fill(&mut value, "an option")?;
                self.late = order.i64(value);
            }
            _ => source.skip(padded.into(), "an option")?,
        }
        Ok(code != 0)
    }
}

/// The units of a second: 10 to a power or, with the highest bit, 2 to a power.
fn each_second(source: &Source<'_>, place: u64, octet: u8) -> Result<u128, Broken> {
    let power = u32::from(octet & 0x7f);
    let each_second = match octet >> 7 {
        0 => 10u128.checked_pow(power),
        _ => 2u128.checked_pow(power),
    };
    each_second.ok_or_else(|| {
        let expected = "a resolution of time down to 10 to the -38";
        source.broken(place, expected, &format!("10 to the -{power}"))
    })
}
