//! Reads a site's text. Whatever a person can write is a site or draws faults, each with its line;
//! whether the site is well-formed is not asked here but of the proved library.

use super::blocks::{blocks, Block};
use super::couplers::{line_and_label, Below};
use super::entries::entries;
use super::messages::{found, most_tables, name_of_line, octet, one_more, other_name};
use super::messages::{other_name_or_spaces, second_after, wrong, Wrong, Wrongs};
use super::messages::{BELOW_TITLE, BLOCKS, END, ONE_TITLE, TABLE, TITLE, UTF_8};
use super::row::{row, Token};
use super::tables::{name_of, Named, Names};
use super::{CouplerText, SiteText, TableText};
use crate::address::Group;
use crate::fault::Fault;
use crate::octets::most_tables_of;
use crate::plan::{Coupler, Groups, Store, TableAt};

/// Reads a site's text, or says all that is wrong with it, line by line.
///
/// ```
/// use planner::text::read;
/// let site = read("plant.site", b"coupler 4.7\n  both all open\n").unwrap();
/// assert_eq!(site.plan.couplers.len(), 1);
/// let faults = read("plant.site", b"coupler 4.7\n  both all opne\n").unwrap_err();
/// let fault = "plant.site:2: expected 'closed', 'filter' or 'open', found 'opne'";
/// assert_eq!(faults[0].to_string(), fault);
/// ```
pub fn read(place: &str, octets: &[u8]) -> Result<SiteText, Vec<Fault>> {
    let mut reader = Reader::default();
    match text_of(octets) {
        Err(wrong) => reader.wrongs.add(wrong),
        Ok(text) => reader.read(text),
    }
    if reader.wrongs.is_empty() {
        return Ok(reader.site);
    }
    let faults = reader.wrongs.sorted().into_iter().map(|wrong| Fault {
        place: place.into(),
        line: Some(wrong.at),
        expected: wrong.expected,
        found: wrong.found,
    });
    Err(faults.collect())
}

/// Editors on some systems put a mark before the first line.
fn text_of(octets: &[u8]) -> Result<&str, Wrong> {
    match std::str::from_utf8(octets) {
        Ok(text) => Ok(text.strip_prefix('\u{feff}').unwrap_or(text)),
        Err(error) => {
            let before = &octets[..error.valid_up_to()];
            let at = before.iter().filter(|octet| **octet == b'\n').count() + 1;
            Err(wrong(at, UTF_8, octet(octets[before.len()])))
        }
    }
}

#[derive(Default)]
struct Reader<'a> {
    site: SiteText,
    names: Names<'a>,
    title_at: Option<usize>,
    /// How many tables of each store there are in the text.
    tables: [usize; 2],
    wrongs: Wrongs,
}

impl<'a> Reader<'a> {
    fn read(&mut self, text: &'a str) {
        let mut rows = Vec::new();
        for (place, line) in text.lines().enumerate() {
            let (row, wrong) = row(place + 1, line);
            wrong.into_iter().for_each(|wrong| self.wrongs.spoil(wrong));
            rows.extend(row);
        }
        let blocks = blocks(rows, &mut self.wrongs);
        // Tables first: a coupler may name one that stands below it.
        let (couplers, others): (Vec<_>, Vec<_>) = blocks
            .into_iter()
            .partition(|block| block.head.word() == "coupler");
        for block in &others {
            let read = self.other(block);
            self.names.has_gap |= self.wrongs.take(read).is_none();
        }
        for block in &couplers {
            self.coupler(block);
        }
    }

    fn other(&mut self, block: &Block<'a>) -> Result<(), Wrong> {
        let head = &block.head;
        match (head.word(), head.rest()) {
            ("site", title) => self.title(title, block),
            ("table", name) => self.table(Store::Own, name, block),
            ("project", [Token::Word("table"), name @ ..]) => {
                self.table(Store::Project, name, block)
            }
            ("project", rest) => Err(wrong(head.at, TABLE, found(rest.first()))),
            _ => Err(wrong(head.at, BLOCKS, found(head.tokens.first()))),
        }
    }

    fn title(&mut self, rest: &[Token<'a>], block: &Block<'a>) -> Result<(), Wrong> {
        let at = block.head.at;
        let title = match rest {
            [Token::Quoted(title)] => title,
            [Token::Quoted(_), other, ..] => return Err(wrong(at, END, found(Some(other)))),
            _ => return Err(wrong(at, TITLE, found(rest.first()))),
        };
        if let Some(before) = self.title_at {
            return Err(wrong(at, ONE_TITLE, second_after(before)));
        }
        self.title_at = Some(at);
        self.site.title = Some((*title).into());
        match block.body.first() {
            Some(row) => Err(wrong(row.at, BLOCKS, BELOW_TITLE)),
            None => Ok(()),
        }
    }

    fn table(&mut self, store: Store, rest: &[Token<'a>], block: &Block<'a>) -> Result<(), Wrong> {
        let at = block.head.at;
        let rows = block.body.iter();
        let entries: Vec<_> = rows
            .flat_map(|row| entries(row, &mut self.wrongs))
            .collect();
        let name = name_of(rest, at)?;
        let place = self.tables[store as usize];
        let named = Named {
            table: TableAt { store, place },
            at,
            is_empty: block.body.is_empty(),
        };
        if let Some(before) = self.names.add(name, named) {
            return Err(twice(name, before, named));
        }
        self.tables[store as usize] += 1;
        let most = most_tables_of(store);
        if place == most {
            return Err(wrong(at, most_tables(store, most), one_more(most)));
        }
        self.add_table(store, name, at, entries);
        Ok(())
    }

    fn add_table(
        &mut self,
        store: Store,
        name: &str,
        at: usize,
        entries: Vec<(usize, Group, Group)>,
    ) {
        let (texts, tables) = match store {
            Store::Project => (&mut self.site.project, &mut self.site.plan.project),
            Store::Own => (&mut self.site.own, &mut self.site.plan.own),
        };
        let ranges = entries.iter().map(|(_, first, last)| (*first, *last));
        tables.push(Groups::new(ranges.collect()));
        texts.push(TableText {
            name: name.into(),
            at,
            entries,
        });
    }

    fn coupler(&mut self, block: &Block<'a>) {
        let at = block.head.at;
        let named = self.wrongs.take(line_and_label(&block.head));
        let below = Below::of(&block.body, &self.names, &mut self.wrongs);
        let rows = self.wrongs.take(below.rows(at));
        let (Some((line, label)), Some(rows)) = (named, rows) else {
            return;
        };
        self.site.plan.couplers.push(Coupler {
            line,
            settings: below.settings(),
            table: below.table(),
        });
        self.site.couplers.push(CouplerText {
            label,
            at,
            rows,
            table: below.table_at(),
        });
    }
}

/// Of two tables with one name, the one without entries is wrong: perhaps its line is a coupler's and
/// wants spaces.
fn twice(name: &str, before: Named, after: Named) -> Wrong {
    match (before, after) {
        (
            Named { is_empty: true, .. },
            Named {
                is_empty: false, ..
            },
        ) => wrong(
            before.at,
            other_name_or_spaces(name),
            name_of_line(after.at),
        ),
        (_, Named { is_empty: true, .. }) => wrong(
            after.at,
            other_name_or_spaces(name),
            name_of_line(before.at),
        ),
        _ => wrong(after.at, other_name(name), name_of_line(before.at)),
    }
}
