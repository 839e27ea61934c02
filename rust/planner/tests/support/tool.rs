//! The tool as its users run it, and what it printed read back.

use std::path::{Path, PathBuf};
use std::process::{Command, Output};

/// The repository's root, where the examples' paths begin.
pub fn root() -> PathBuf {
    Path::new(env!("CARGO_MANIFEST_DIR")).join("../..")
}

/// A file for a test alone.
pub fn scratch(name: &str) -> String {
    format!("{}/{name}", env!("CARGO_TARGET_TMPDIR"))
}

/// How a run ended.
#[derive(Debug)]
pub struct Ended {
    pub status: Option<i32>,
    pub output: Vec<u8>,
    pub errors: String,
}

impl Ended {
    pub fn text(&self) -> &str {
        std::str::from_utf8(&self.output).expect("a text in UTF-8")
    }
}

impl From<Output> for Ended {
    fn from(output: Output) -> Ended {
        Ended {
            status: output.status.code(),
            output: output.stdout,
            errors: String::from_utf8(output.stderr).expect("messages in UTF-8"),
        }
    }
}

/// Runs the tool at the repository's root.
pub fn klumdray<S: AsRef<str>>(words: &[S]) -> Ended {
    let mut tool = Command::new(env!("CARGO_BIN_EXE_planner"));
    tool.args(words.iter().map(AsRef::as_ref));
    let output = tool.current_dir(root()).output();
    output.expect("the tool starts").into()
}

/// The tables of a trace, read by their columns.
#[derive(Debug, PartialEq, Eq)]
pub struct Printed {
    /// The lines reached, as the program `trace` writes them.
    pub list: String,
    /// The lines marked as the start.
    pub starts: Vec<String>,
    /// Each line that is not reached, and what is said of it.
    pub stopped: Vec<(String, String)>,
}

impl Printed {
    pub fn read(text: &str) -> Printed {
        let mut rows = text.lines().skip_while(|row| !row.starts_with("Line "));
        let head = rows.next().expect("a table of lines reached");
        let mut printed = Printed {
            list: String::new(),
            starts: Vec::new(),
            stopped: Vec::new(),
        };
        for (reached, row) in rows.by_ref().enumerate() {
            if let Some((lines, forwardings)) = sum(row) {
                assert_eq!(lines, reached, "{text}");
                printed.list += &format!("forwardings {forwardings}\n");
                break;
            }
            printed.take_reached(head, row);
        }
        printed.take_stopped(rows);
        printed
    }

    fn take_reached(&mut self, head: &str, row: &str) {
        let [count, crossed] = ["Count", "Crossed"].map(|name| ends(head, name));
        let line = cell(row, 0, 5);
        let (count, mark) = (cell(row, count - 5, count), cell(row, crossed, usize::MAX));
        let crossed = cell(row, crossed - 7, crossed);
        self.list += &format!("{line} count {count} crossed {crossed}\n");
        match mark.as_str() {
            "" => {}
            "start" => self.starts.push(line),
            other => panic!("{other:?} behind {row:?}"),
        }
    }

    fn take_stopped<'a>(&mut self, rows: impl Iterator<Item = &'a str>) {
        let mut rows = rows.skip_while(|row| !row.starts_with("Line "));
        let Some(head) = rows.next() else {
            return;
        };
        let column = ends(head, "Stopped by") - "Stopped by".len();
        for row in rows {
            if let Some((lines, _)) = row.split_once(" not reached, ") {
                let lines = lines.trim_end_matches(" lines").trim_end_matches(" line");
                assert_eq!(lines, self.stopped.len().to_string());
                return;
            }
            let stop = cell(row, column, usize::MAX);
            self.stopped.push((cell(row, 0, 5), stop));
        }
        panic!("no end of the table of lines that are not reached");
    }
}

/// "6 lines reached, 5 forwardings".
fn sum(row: &str) -> Option<(usize, usize)> {
    let (lines, forwardings) = row.split_once(" reached, ")?;
    let number = |text: &str, what: &str| {
        let one = text.strip_suffix(what).filter(|number| *number == "1");
        let plural = format!("{what}s");
        let number = one.or_else(|| text.strip_suffix(&plural).filter(|number| *number != "1"));
        number.and_then(|number| number.parse().ok())
    };
    Some((number(lines, " line")?, number(forwardings, " forwarding")?))
}

fn ends(head: &str, name: &str) -> usize {
    head.find(name).expect(name) + name.len()
}

/// What stands between two columns, which are characters: a label may have any.
fn cell(row: &str, start: usize, end: usize) -> String {
    let text: String = row.chars().take(end).skip(start).collect();
    text.trim().into()
}
