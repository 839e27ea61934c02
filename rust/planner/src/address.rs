//! Lines, individual addresses and group addresses, as planners write them.

use std::fmt;

/// A line, named by the high octet of its addresses: "area times 16 plus line".
#[derive(Clone, Copy, Debug, PartialEq, Eq, PartialOrd, Ord, Hash)]
pub struct Line(pub u8);

impl Line {
    /// The line on the main side of this line's coupler: "n with the low four bits cleared if those
    /// are not zero, else 00h". Line 0.0 has no coupler.
    ///
    /// ```
    /// use planner::address::Line;
    /// assert_eq!(Line(0x47).main(), Line(0x40));
    /// assert_eq!(Line(0x40).main(), Line(0x00));
    /// ```
    pub fn main(self) -> Line {
        let area = self.0 & 0xf0;
        Line(if self.0 == area { 0 } else { area })
    }

    /// Reads `4.7`: area and line, each 0 to 15.
    ///
    /// ```
    /// use planner::address::Line;
    /// assert_eq!(Line::read("4.7"), Some(Line(0x47)));
    /// assert_eq!(Line::read("4.16"), None);
    /// assert_eq!(Line::read("4.07"), None);
    /// assert_eq!(Line::read("4.7.0"), None);
    /// ```
    pub fn read(text: &str) -> Option<Line> {
        let (area, line) = text.split_once('.')?;
        Some(Line(
            (number(area, 15)? << 4 | number(line, 15)?)
                .try_into()
                .ok()?,
        ))
    }
}

impl fmt::Display for Line {
    fn fmt(&self, f: &mut fmt::Formatter<'_>) -> fmt::Result {
        f.pad(&format!("{}.{}", self.0 >> 4, self.0 & 15))
    }
}

/// An individual address.
#[derive(Clone, Copy, Debug, PartialEq, Eq, PartialOrd, Ord, Hash)]
pub struct Individual(pub u16);

impl Individual {
    /// Reads `4.7.0`: area and line, each 0 to 15, and device, 0 to 255.
    ///
    /// ```
    /// use planner::address::Individual;
    /// assert_eq!(Individual::read("4.7.0"), Some(Individual(0x4700)));
    /// assert_eq!(Individual::read("4.7.256"), None);
    /// assert_eq!(Individual::read("4.7"), None);
    /// ```
    pub fn read(text: &str) -> Option<Individual> {
        let (line, device) = text.rsplit_once('.')?;
        let line = u16::from(Line::read(line)?.0);
        Some(Individual(line << 8 | number(device, 255)?))
    }

    /// The line that the address lies on.
    pub fn line(self) -> Line {
        Line((self.0 >> 8) as u8)
    }
}

impl fmt::Display for Individual {
    fn fmt(&self, f: &mut fmt::Formatter<'_>) -> fmt::Result {
        f.pad(&format!("{}.{}", self.line(), self.0 & 255))
    }
}

/// A group address; group 0/0/0 is broadcast.
#[derive(Clone, Copy, Debug, PartialEq, Eq, PartialOrd, Ord, Hash)]
pub struct Group(pub u16);

impl Group {
    /// Reads a group address in any of the forms in use: three levels (main 0 to 31, middle 0 to 7,
    /// group 0 to 255), two levels (main 0 to 31, group 0 to 2047), a plain number, or four hex
    /// digits and an h.
    ///
    /// ```
    /// use planner::address::Group;
    /// for text in ["2/2/52", "2/564", "4660", "1234h"] {
    ///     assert_eq!(Group::read(text), Some(Group(0x1234)));
    /// }
    /// for text in ["2/8/52", "32/0/0", "2/2048", "65536", "12345h", "2/2/", "", "+1", "0100"] {
    ///     assert_eq!(Group::read(text), None);
    /// }
    /// ```
    pub fn read(text: &str) -> Option<Group> {
        if let Some(digits) = text.strip_suffix(['h', 'H']) {
            return hexadecimal(digits).map(Group);
        }
        let parts: Vec<&str> = text.split('/').collect();
        let value = match parts[..] {
            [main, middle, group] => {
                number(main, 31)? << 11 | number(middle, 7)? << 8 | number(group, 255)?
            }
            [main, group] => number(main, 31)? << 11 | number(group, 2047)?,
            [value] => number(value, u16::MAX)?,
            _ => return None,
        };
        Some(Group(value))
    }
}

impl fmt::Display for Group {
    fn fmt(&self, f: &mut fmt::Formatter<'_>) -> fmt::Result {
        let (main, middle, group) = (self.0 >> 11, self.0 >> 8 & 7, self.0 & 255);
        f.pad(&format!("{main}/{middle}/{group}"))
    }
}

/// Decimal digits alone, so no sign and no space, up to a greatest value. Zeros in front are none of
/// a planner's: `4.07` may be meant as 4.0.7, and `0100` as hex.
pub(crate) fn number(digits: &str, greatest: u16) -> Option<u16> {
    let has_zeros = digits.len() > 1 && digits.starts_with('0');
    if has_zeros || !digits.bytes().all(|digit| digit.is_ascii_digit()) {
        return None;
    }
    digits.parse().ok().filter(|value| *value <= greatest)
}

fn hexadecimal(digits: &str) -> Option<u16> {
    if digits.len() != 4 || !digits.bytes().all(|digit| digit.is_ascii_hexdigit()) {
        return None;
    }
    u16::from_str_radix(digits, 16).ok()
}
