//! A command's words, taken apart.

use crate::fault::Fault;

/// An option that a command knows.
pub struct Known {
    /// Its name with both dashes.
    pub name: &'static str,
    /// What follows it, in words for a fault; none where it stands alone.
    pub value: Option<&'static str>,
}

/// The words of a command: those that stand alone, and the options with what followed them.
#[derive(Debug, PartialEq, Eq)]
pub struct Arguments {
    /// The words that are no options, in their order.
    pub plain: Vec<String>,
    options: Vec<(&'static str, String)>,
}

impl Arguments {
    /// Takes a command's words apart. An option may stand anywhere, as `--count 6` or `--count=6`,
    /// once; after `--` no word is an option.
    ///
    /// ```
    /// use planner::arguments::{Arguments, Known};
    /// let known = [
    ///     Known { name: "--count", value: Some("a count") },
    ///     Known { name: "--json", value: None },
    /// ];
    /// let words = ["plant.site", "--count", "6", "--json"].map(String::from);
    /// let arguments = Arguments::read(&words, &known).unwrap();
    /// assert_eq!(arguments.plain, ["plant.site"]);
    /// assert_eq!(arguments.value("--count"), Some("6"));
    /// assert!(arguments.has("--json"));
    /// let fault = Arguments::read(&["--cuont".into()], &known).unwrap_err();
    /// assert_eq!(fault.to_string(), "--cuont: expected --count or --json, found another option");
    /// ```
    pub fn read(words: &[String], known: &[Known]) -> Result<Arguments, Fault> {
        let mut arguments = Arguments {
            plain: Vec::new(),
            options: Vec::new(),
        };
        let mut words = words.iter();
        while let Some(word) = words.next() {
            if word == "--" {
                arguments.plain.extend(words.by_ref().cloned());
            } else if word.starts_with("--") {
                arguments.take(word, &mut words, known)?;
            } else {
                arguments.plain.push(word.clone());
            }
        }
        Ok(arguments)
    }

    fn take<'a>(
        &mut self,
        word: &str,
        rest: &mut impl Iterator<Item = &'a String>,
        known: &[Known],
    ) -> Result<(), Fault> {
        let (name, joined) = match word.split_once('=') {
            Some((name, value)) => (name, Some(value.to_string())),
            None => (word, None),
        };
        let Some(option) = known.iter().find(|option| option.name == name) else {
            return Err(fault(name, &names(known), "another option"));
        };
        if self.has(option.name) {
            return Err(fault(name, "it once", "it twice"));
        }
        let value = match (option.value, joined) {
            (None, None) => String::new(),
            (None, Some(value)) => return Err(fault(name, "nothing behind it", &quoted(&value))),
            (Some(_), Some(value)) => value,
            (Some(what), None) => match rest.next() {
                Some(value) => value.clone(),
                None => return Err(fault(name, what, "the end of the command")),
            },
        };
        self.options.push((option.name, value));
        Ok(())
    }

    /// Whether an option is given.
    pub fn has(&self, name: &str) -> bool {
        self.value(name).is_some()
    }

    /// What followed an option, if it is given.
    pub fn value(&self, name: &str) -> Option<&str> {
        let option = self.options.iter().find(|(known, _)| *known == name);
        option.map(|(_, value)| value.as_str())
    }

    /// What followed an option, read; none if the option is not given.
    pub fn read_value<T>(
        &self,
        name: &str,
        expected: &str,
        read: impl Fn(&str) -> Option<T>,
    ) -> Result<Option<T>, Fault> {
        let Some(value) = self.value(name) else {
            return Ok(None);
        };
        let faulty = || fault(name, expected, &quoted(value));
        read(value).map(Some).ok_or_else(faulty)
    }
}

/// A fault of the arguments, at a word of the command.
pub fn fault(place: &str, expected: &str, found: &str) -> Fault {
    Fault {
        place: place.into(),
        line: None,
        expected: expected.into(),
        found: found.into(),
    }
}

/// A text as a message shows it.
pub fn quoted(text: &str) -> String {
    format!("'{}'", text.escape_debug())
}

fn names(known: &[Known]) -> String {
    let names: Vec<&str> = known.iter().map(|option| option.name).collect();
    listed(&names)
}

/// Names in a row: "a, b or c".
pub fn listed(names: &[&str]) -> String {
    match names {
        [] => "nothing".into(),
        [one] => (*one).into(),
        [first @ .., last] => format!("{} or {last}", first.join(", ")),
    }
}
