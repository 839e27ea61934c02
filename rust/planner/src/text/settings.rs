//! The lines of a coupler with the settings of a direction or of both.

use super::messages::{one_setting, setting_for, wrong, Wrong, Wrongs};
use super::messages::{AFTER_SETTING, CLASSES, GROUPS, NONE, SECOND, SETTINGS};
use super::row::{parts, Part, Row};
use crate::plan::{Class, Setting};

/// The settings of a line, by class; none where one of them cannot be read, with the faults noted.
pub fn settings(row: &Row<'_>, wrongs: &mut Wrongs) -> Option<[Setting; 4]> {
    let mut said = [None; 4];
    let mut is_read = true;
    for part in parts(row.rest()) {
        let read = part_settings(&part, row.at, &mut said);
        is_read &= wrongs.take(read).is_some();
    }
    if !is_read {
        return None;
    }
    let missing = Class::ALL
        .iter()
        .filter(|class| said[**class as usize].is_none());
    let missing: Vec<String> = missing.map(Class::to_string).collect();
    match said {
        [Some(individual), Some(broadcast), Some(lower), Some(upper)] => {
            Some([individual, broadcast, lower, upper])
        }
        _ => wrongs.take(Err(wrong(row.at, setting_for(&missing), NONE))),
    }
}

/// `individual open`, `groups 0-13 filter`.
fn part_settings(
    part: &Part<'_, '_>,
    at: usize,
    said: &mut [Option<Setting>; 4],
) -> Result<(), Wrong> {
    let (classes, words) = classes(part, at)?;
    let Some(setting) = named(part.word(words)) else {
        return Err(wrong(at, SETTINGS, part.found(words)));
    };
    if part.tokens.len() > words + 1 {
        return Err(wrong(at, AFTER_SETTING, part.found(words + 1)));
    }
    for class in classes {
        if said[*class as usize].replace(setting).is_some() {
            return Err(wrong(at, one_setting(&class.to_string()), SECOND));
        }
    }
    Ok(())
}

/// The classes that a part speaks of, and how many words name them.
fn classes(part: &Part<'_, '_>, at: usize) -> Result<(&'static [Class], usize), Wrong> {
    Ok(match (part.word(0), part.word(1)) {
        ("individual", _) => (&[Class::Individual], 1),
        ("broadcast", _) => (&[Class::Broadcast], 1),
        ("all", _) => (&Class::ALL, 1),
        ("groups", "0-13") => (&[Class::LowerGroups], 2),
        ("groups", "14-31") => (&[Class::UpperGroups], 2),
        ("groups", word) if named(word).is_some() => (&[Class::LowerGroups, Class::UpperGroups], 1),
        ("groups", _) => return Err(wrong(at, GROUPS, part.found(1))),
        _ => return Err(wrong(at, CLASSES, part.found(0))),
    })
}

/// Whether a word begins a part.
pub fn is_class(word: &str) -> bool {
    matches!(word, "individual" | "broadcast" | "groups" | "all")
}

fn named(word: &str) -> Option<Setting> {
    let mut settings = Setting::ALL.into_iter();
    settings.find(|setting| setting.to_string() == word)
}
