//! Sites: the records of the couplers fitted, and the two stores that their filter tables lie in.

use crate::coupler::{is_row, Coupler, TABLE_SIZE};
use crate::refusal::{LINE_TWICE, SETTING, SITE, TABLE};

pub const RECORD_SIZE: usize = 12;

const MARK: [u8; 2] = [0x43, 0x50];
/// "FFh is none"
const NO_TABLE: u8 = 0xff;
/// "at most 128 and 127 tables"
const MOST_PROJECT: usize = 128 * TABLE_SIZE;
const MOST_OWN: usize = 127 * TABLE_SIZE;
/// The place of a record that is not there, since there are at most 255.
const NOWHERE: u8 = 255;

type Record = [u8; RECORD_SIZE];

/// A site and the two stores as they are given; any of them may be wrong.
#[derive(Clone, Copy, Debug)]
pub struct Site<'a> {
    pub records: &'a [u8],
    /// The project store.
    pub project: &'a [u8],
    /// The site's own store.
    pub own: &'a [u8],
}

/// The couplers of a well-formed site.
#[derive(Clone, Debug)]
pub struct Couplers<'a> {
    records: &'a [Record],
    /// By line, the place of its record.
    places: [u8; 256],
    site: Site<'a>,
}

impl<'a> Site<'a> {
    /// "18 (store sizes), 16 (length), then record by record: 16, 15 (line, codes), 18, 17 (at
    /// the second)". More than 255 records name a line twice, unless something else is wrong.
    pub fn couplers(self) -> Result<Couplers<'a>, u8> {
        if !is_store(self.project, MOST_PROJECT) || !is_store(self.own, MOST_OWN) {
            return Err(TABLE);
        }
        let (records, []) = self.records.as_chunks() else {
            return Err(SITE);
        };
        let mut places = [NOWHERE; 256];
        for (place, record) in records.iter().enumerate() {
            self.test(record)?;
            let [_, _, line, ..] = *record;
            if places[usize::from(line)] != NOWHERE {
                return Err(LINE_TWICE);
            }
            places[usize::from(line)] = place as u8;
        }
        Ok(Couplers {
            records,
            places,
            site: self,
        })
    }

    /// "16, 15 (line, codes), 18" of one record.
    fn test(&self, record: &Record) -> Result<(), u8> {
        let [mark_1, mark_0, line, .., number] = *record;
        let codes = codes(record);
        if [mark_1, mark_0] != MARK {
            return Err(SITE);
        }
        if line == 0 || !codes.iter().all(is_row) {
            return Err(SETTING);
        }
        // "FFh is allowed where no group code of that record is 1; every other number must lie in
        // its store."
        let lies_in_store = match number {
            NO_TABLE => !codes.iter().any(|row| row[2..].contains(&1)),
            _ => self.table(number).is_some(),
        };
        lies_in_store.then_some(()).ok_or(TABLE)
    }

    /// "Table numbers 0 to 127 count in the project store, 128 to 254 in the site's own store from
    /// its start"
    fn table(&self, number: u8) -> Option<&'a [u8]> {
        let (store, place) = match number {
            0..=127 => (self.project, number),
            _ => (self.own, number - 128),
        };
        let start = usize::from(place) * TABLE_SIZE;
        store.get(start..start + TABLE_SIZE)
    }
}

impl<'a> Couplers<'a> {
    /// The coupler of a line, if one is fitted.
    pub fn fitted(&self, line: u8) -> Option<Coupler<'a>> {
        let place = usize::from(self.places[usize::from(line)]);
        let record = self.records.get(place)?;
        Some(Coupler {
            line,
            codes: codes(record),
            table: self.site.table(record[11]).unwrap_or(&[]),
        })
    }
}

/// "line, four codes main to sub, four codes sub to main, table number" behind the mark
fn codes(&[_, _, _, a, b, c, d, e, f, g, h, _]: &Record) -> [[u8; 4]; 2] {
    [[a, b, c, d], [e, f, g, h]]
}

/// "A store is a multiple of 8,192 octets"
fn is_store(store: &[u8], most: usize) -> bool {
    store.len().is_multiple_of(TABLE_SIZE) && store.len() <= most
}

/// "Its main side is n with the low four bits cleared if those are not zero, else 00h."
pub fn main_side(line: u8) -> u8 {
    match line & 0x0f {
        0 => 0x00,
        _ => line & 0xf0,
    }
}

/// The lines whose main side is this one.
pub fn below(line: u8) -> impl Iterator<Item = u8> {
    let lines = if line & 0x0f == 0 { 1..16 } else { 0..0 };
    let areas = if line == 0x00 { 1..16 } else { 0..0 };
    lines.map(move |n| line + n).chain(areas.map(|n| n << 4))
}

#[cfg(test)]
mod tests {
    use super::*;

    /// A record of an open coupler without a filter table.
    fn open(line: u8) -> Record {
        [0x43, 0x50, line, 2, 2, 2, 2, 2, 2, 2, 2, 0xff]
    }

    fn with(line: u8, place: usize, octet: u8) -> Record {
        let mut record = open(line);
        record[place] = octet;
        record
    }

    fn number(records: &[Record], project: usize, own: usize) -> u8 {
        let (project, own) = (vec![0; project], vec![0; own]);
        let site = Site {
            records: records.as_flattened(),
            project: &project,
            own: &own,
        };
        site.couplers().err().unwrap_or(0)
    }

    #[test]
    fn main_sides() {
        assert_eq!(
            [0x47, 0x40, 0x05, 0xff].map(main_side),
            [0x40, 0x00, 0x00, 0xf0]
        );
    }

    #[test]
    fn lines_below_are_those_with_that_main_side() {
        for line in 0..=255 {
            let mut found: Vec<u8> = below(line).collect();
            found.sort();
            let expected = (1..=255).filter(|&n| main_side(n) == line);
            assert_eq!(found, expected.collect::<Vec<u8>>());
        }
    }

    #[test]
    fn store_sizes() {
        for (project, own, expected) in [
            (0, 0, 0),
            (8192, 16384, 0),
            (8191, 0, 18),
            (0, 8193, 18),
            (128 * 8192, 127 * 8192, 0),
            (129 * 8192, 0, 18),
            (0, 128 * 8192, 18),
        ] {
            assert_eq!(number(&[], project, own), expected, "{project} {own}");
        }
    }

    #[test]
    fn table_numbers() {
        let record = |number, code| {
            let mut record = with(0x11, 5, code);
            record[11] = number;
            [record]
        };
        for (table, code, expected) in [
            (255, 2, 0),
            (255, 1, 18),
            (1, 1, 0),
            (2, 1, 18),
            (2, 2, 18),
            (127, 2, 18),
            (128, 1, 0),
            (130, 1, 0),
            (131, 0, 18),
            (254, 0, 18),
        ] {
            let number = number(&record(table, code), 2 * 8192, 3 * 8192);
            assert_eq!(number, expected, "{table} under code {code}");
        }
    }

    #[test]
    fn each_table_is_found() {
        let (mut project, mut own) = (vec![0; 128 * 8192], vec![0; 127 * 8192]);
        for place in 0..128 {
            project[place * 8192] = place as u8;
        }
        for place in 0..127 {
            own[place * 8192 + 8191] = place as u8 + 128;
        }
        let record = |line| with(line, 11, line - 1);
        let records: Vec<Record> = (1..=255).map(record).collect();
        let site = Site {
            records: records.as_flattened(),
            project: &project,
            own: &own,
        };
        let couplers = site.couplers().unwrap();
        for line in 1..=255 {
            let table = couplers.fitted(line).unwrap().table;
            assert_eq!((table.len(), table[0] | table[8191]), (8192, line - 1));
        }
        assert!(couplers.fitted(0).is_none());
    }

    #[test]
    fn order_within_and_between_records() {
        let fine = open(0x20);
        let mark = with(0x00, 1, 0x51);
        let line = with(0x00, 11, 0);
        let code = with(0x20, 4, 1);
        let table = with(0x20, 11, 0);
        assert_eq!(number(&[fine, mark], 0, 0), 16);
        assert_eq!(number(&[fine, line], 0, 0), 15);
        assert_eq!(number(&[fine, code], 0, 0), 15);
        assert_eq!(number(&[fine, table], 0, 0), 18);
        assert_eq!(number(&[fine, fine], 0, 0), 17);
        assert_eq!(number(&[fine, fine, mark], 0, 0), 17);
        assert_eq!(number(&[line, mark], 0, 0), 15);
        assert_eq!(number(&[fine, table], 0, 1), 18);
        let short = Site {
            records: &[0x43, 0x50],
            project: &[],
            own: &[0],
        };
        assert_eq!(short.couplers().unwrap_err(), 18);
        let short = Site { own: &[], ..short };
        assert_eq!(short.couplers().unwrap_err(), 16);
    }
}
