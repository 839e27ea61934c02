//! How far a long file has been read, where somebody sits before it.

use crate::litres::thousands;
use std::io::{self, IsTerminal, Write};
use std::time::{Duration, Instant};

/// A file that takes longer than this is long.
const PATIENCE: Duration = Duration::from_secs(1);
/// So many packets or lines are read between two looks at the clock.
const BETWEEN: u64 = 512;

/// Says how far it is, each second.
pub struct Progress {
    is_watched: bool,
    /// The file's octets, if they are known.
    size: Option<u64>,
    told: Instant,
    /// The columns of what stands on the terminal.
    width: usize,
}

impl Progress {
    /// Begins now.
    pub fn new(size: Option<u64>) -> Progress {
        Progress {
            is_watched: io::stderr().is_terminal(),
            size: size.filter(|size| *size > 0),
            told: Instant::now(),
            width: 0,
        }
    }

    /// So many octets and items have been read.
    pub fn at(
        &mut self,
        errors: &mut dyn Write,
        octets: u64,
        items: u64,
        what: &str,
    ) -> io::Result<()> {
        if !self.is_watched || !items.is_multiple_of(BETWEEN) || self.told.elapsed() < PATIENCE {
            return Ok(());
        }
        self.told = Instant::now();
        let items = thousands(items);
        let words = match self.size {
            Some(size) => format!("{} %, {items} {what}", (octets * 100 / size).min(100)),
            None => format!("{items} {what}"),
        };
        self.width = self.width.max(words.len());
        write!(errors, "\rklumdray: {words:<width$}", width = self.width)?;
        errors.flush()
    }

    /// Leaves the terminal as it was.
    pub fn end(&mut self, errors: &mut dyn Write) -> io::Result<()> {
        if self.width > 0 {
            let blank = " ".repeat("klumdray: ".len() + self.width);
            write!(errors, "\r{blank}\r")?;
            errors.flush()?;
        }
        Ok(())
    }
}
