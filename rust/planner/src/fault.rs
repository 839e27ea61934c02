//! What is wrong with what the tool was given, and where.

use std::fmt;

/// A fault in a file or in the arguments: where it stands, what was expected there and what was
/// found.
#[derive(Clone, Debug, PartialEq, Eq)]
pub struct Fault {
    /// The file, or the argument.
    pub place: String,
    /// The line of the file, from 1; none where the whole is meant.
    pub line: Option<usize>,
    /// What was expected.
    pub expected: String,
    /// What was found in its place.
    pub found: String,
}

impl fmt::Display for Fault {
    fn fmt(&self, f: &mut fmt::Formatter<'_>) -> fmt::Result {
        write!(f, "{}:", self.place)?;
        if let Some(line) = self.line {
            write!(f, "{line}:")?;
        }
        write!(f, " expected {}, found {}", self.expected, self.found)
    }
}

/// How a command ends: 0, 1 for a refused site or frame or where there is no sum, 2 for a fault in
/// what was given, 3 where the tool itself is at fault.
#[derive(Clone, Copy, Debug, PartialEq, Eq, PartialOrd, Ord)]
pub enum Status {
    /// The answer is on standard output.
    Answered = 0,
    /// The proved library refuses the site or a frame, or increments came by several ways.
    Refused = 1,
    /// A file or an argument cannot be read; standard error says where and what was expected.
    Faulty = 2,
    /// A translated site is not what it was translated from: nothing was asked.
    Broken = 3,
}
