//! A coupler's block.

use super::blocks::is_number;
use super::messages::{direction_below, found, found_address, once, second_after, wrong};
use super::messages::{Wrong, Wrongs};
use super::messages::{BOTH_DIRECTIONS, END, LABEL, LINE, NONE, ONE_TABLE, ROWS};
use super::row::{Row, Token};
use super::settings::{is_class, settings};
use super::tables::Names;
use crate::address::Line;
use crate::plan::{Direction, Setting, TableAt};
use std::mem;

/// The line and the label of `coupler 4.7 "boiler house"`.
pub fn line_and_label(head: &Row<'_>) -> Result<(Line, Option<String>), Wrong> {
    let address = head.rest().first();
    let Some(line) = Line::read(address.map_or("", Token::word)) else {
        return Err(wrong(head.at, LINE, found_address(address)));
    };
    match &head.rest()[1..] {
        [] => Ok((line, None)),
        [Token::Quoted(label)] => Ok((line, Some((*label).into()))),
        [Token::Quoted(_), other, ..] => Err(wrong(head.at, END, found(Some(other)))),
        [other, ..] => Err(wrong(head.at, LABEL, found(Some(other)))),
    }
}

/// What the lines below a coupler say, each with its line in the file. What a faulty line says is
/// none, so that no second fault follows from it.
#[derive(Default)]
pub struct Below {
    rows: [Option<Said>; 2],
    table: Option<(usize, Option<TableAt>)>,
    /// Whether there is a line too many or of another kind: it may stand for one that is missing.
    has_other: bool,
    /// Whether groups may follow that stand here by mistake, which is told once.
    has_groups: bool,
    /// Whether the line above has settings with a fault: perhaps they go on in the next line.
    goes_on: bool,
}

type Said = (usize, Option<[Setting; 4]>);

impl Below {
    pub fn of(body: &[Row<'_>], names: &Names<'_>, wrongs: &mut Wrongs) -> Below {
        let mut below = Below::default();
        for row in body {
            let taken = below.take(row, names, wrongs);
            wrongs.take(taken);
        }
        below
    }

    fn take(&mut self, row: &Row<'_>, names: &Names<'_>, wrongs: &mut Wrongs) -> Result<(), Wrong> {
        let goes_on = mem::take(&mut self.goes_on);
        match row.word() {
            "down" => self.take_settings(&[Direction::Down], row, wrongs),
            "up" => self.take_settings(&[Direction::Up], row, wrongs),
            "both" => self.take_settings(&Direction::ALL, row, wrongs),
            "table" => self.take_table(row, names),
            word if is_number(word) && self.has_groups => Ok(()),
            word if is_class(word) && goes_on => Ok(()),
            word => {
                self.has_groups |= is_number(word);
                self.has_other |= !is_number(word);
                Err(wrong(row.at, ROWS, found(row.tokens.first())))
            }
        }
    }

    fn take_settings(
        &mut self,
        directions: &[Direction],
        row: &Row<'_>,
        wrongs: &mut Wrongs,
    ) -> Result<(), Wrong> {
        let settings = settings(row, wrongs);
        self.goes_on = settings.is_none();
        let mut second = None;
        for direction in directions {
            match &mut self.rows[*direction as usize] {
                Some((before, _)) => second = second.or(Some((*direction, *before))),
                place => *place = Some((row.at, settings)),
            }
        }
        let Some((direction, before)) = second else {
            return Ok(());
        };
        self.has_other = true;
        let expected = once(&direction.to_string());
        Err(wrong(row.at, expected, second_after(before)))
    }

    fn take_table(&mut self, row: &Row<'_>, names: &Names<'_>) -> Result<(), Wrong> {
        if let Some((before, _)) = self.table {
            return Err(wrong(row.at, ONE_TABLE, second_after(before)));
        }
        self.table = Some((row.at, None));
        self.has_groups = true;
        let table = names.table(row)?;
        self.table = Some((row.at, table));
        self.has_groups = false;
        Ok(())
    }

    /// The lines that name the settings of the directions, if both are there.
    pub fn rows(&self, at: usize) -> Result<[usize; 2], Wrong> {
        let [down, up] = self.rows.map(|row| row.map(|(at, _)| at));
        match (down, up) {
            (Some(down), Some(up)) => Ok([down, up]),
            _ if self.has_other => Ok([at, at]),
            (None, None) => Err(wrong(at, BOTH_DIRECTIONS, NONE)),
            (None, _) => Err(wrong(at, direction_below("down"), NONE)),
            (_, None) => Err(wrong(at, direction_below("up"), NONE)),
        }
    }

    pub fn settings(&self) -> [[Setting; 4]; 2] {
        let read = |row: Option<Said>| row.and_then(|(_, settings)| settings);
        self.rows
            .map(|row| read(row).unwrap_or([Setting::Closed; 4]))
    }

    pub fn table(&self) -> Option<TableAt> {
        self.table.and_then(|(_, table)| table)
    }

    pub fn table_at(&self) -> Option<usize> {
        self.table.map(|(at, _)| at)
    }
}
