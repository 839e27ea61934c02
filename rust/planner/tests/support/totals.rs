//! `klumdray total` without a process of its own.

use planner::commands::{run, Streams};

/// How the command ended and what it wrote.
#[derive(Debug, PartialEq)]
pub struct Ended {
    pub status: u8,
    pub output: String,
    pub errors: String,
}

/// Runs the command on a file's octets, given as standard input, for the meter's group.
pub fn total(words: &[&str], file: &[u8]) -> Ended {
    run_total(&[&["-", "--group", "2/2/52"], words].concat(), file)
}

/// Runs the command.
pub fn run_total(words: &[&str], mut input: &[u8]) -> Ended {
    let words = ["total"].iter().chain(words).map(|word| word.to_string());
    let words: Vec<String> = words.collect();
    let (mut output, mut errors) = (Vec::new(), Vec::new());
    let mut streams = Streams {
        input: &mut input,
        output: &mut output,
        errors: &mut errors,
    };
    let status = run(&words, &mut streams).expect("a room that grows takes all");
    let text = |octets: Vec<u8>| String::from_utf8(octets).expect("texts are UTF-8");
    Ended {
        status: status as u8,
        output: text(output),
        errors: text(errors),
    }
}

impl Ended {
    /// What stands behind a name at the beginning of a row.
    pub fn row(&self, name: &str) -> Option<&str> {
        let behind = |row: &'_ str| -> Option<usize> {
            let rest = row.strip_prefix(name)?.strip_prefix(' ')?;
            Some(row.len() - rest.len())
        };
        self.output
            .lines()
            .find_map(|row| behind(row).map(|at| &row[at..]))
    }
}
