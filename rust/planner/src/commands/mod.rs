//! The commands of `./klumdray`.

pub mod check;
pub mod decode;
pub mod total;
pub mod trace;

use crate::arguments::{fault, quoted};
use crate::fault::{Fault, Status};
use crate::loading::{Failure, RefusedSite};
use std::io::{self, Read, Write};

/// What a command reads and writes.
pub struct Streams<'a> {
    /// Standard input.
    pub input: &'a mut dyn Read,
    /// Standard output: the answer, and nothing else.
    pub output: &'a mut dyn Write,
    /// Standard error: faults, and the refusal of a site that was to be traced.
    pub errors: &'a mut dyn Write,
}

impl Streams<'_> {
    /// Says what is wrong with what was given.
    pub fn faulty(&mut self, faults: &[Fault]) -> io::Result<Status> {
        for fault in faults {
            writeln!(self.errors, "klumdray: {fault}")?;
        }
        Ok(Status::Faulty)
    }

    /// Says why there is no site to ask about.
    pub fn failed(&mut self, failure: &Failure) -> io::Result<Status> {
        match failure {
            Failure::Faulty(faults) => self.faulty(faults),
            Failure::Refused(refused) => self.refused(refused),
            Failure::Broken => self.broken("the site's octets, translated back, are another site"),
        }
    }

    /// Says that the library refuses a site.
    pub fn refused(&mut self, refused: &RefusedSite) -> io::Result<Status> {
        writeln!(self.errors, "klumdray: {refused}")?;
        Ok(Status::Refused)
    }

    /// Says that the tool itself is at fault.
    pub fn broken(&mut self, what: &str) -> io::Result<Status> {
        writeln!(self.errors, "klumdray: the tool is at fault: {what}")?;
        Ok(Status::Broken)
    }

    fn help(&mut self, text: &str) -> io::Result<Status> {
        self.output.write_all(text.as_bytes())?;
        Ok(Status::Answered)
    }
}

const HELP: &str = "\
klumdray: which lines a KNX telegram reaches, what a frame says, whether a site is well-formed, how
many litres a leak meter has reported

  klumdray trace SITE --from LINE --group GROUP | --individual ADDRESS
                              the lines that a telegram reaches, and why not the others
  klumdray decode HEX | FILE  what a TP1 frame, cEMI message or KNXnet/IP datagram says
  klumdray check SITE         whether a site is well-formed, and what in it is probably not meant
  klumdray total FILE --group GROUP
                              the litres that a leak meter has reported, out of a capture
  klumdray COMMAND --help     more on a command

Exit status: 0 answered; 1 the site or a frame is refused, or there is no sum; 2 a file or an
argument cannot be read; 3 the tool itself is at fault.
";

/// Runs the command that the words name.
pub fn run(words: &[String], streams: &mut Streams<'_>) -> io::Result<Status> {
    let Some((name, rest)) = words.split_first() else {
        return streams.faulty(&[fault("klumdray", COMMANDS, "nothing")]);
    };
    let command = match name.as_str() {
        "trace" => (trace::run as Run, trace::HELP),
        "decode" => (decode::run as Run, decode::HELP),
        "check" => (check::run as Run, check::HELP),
        "total" => (total::run as Run, total::HELP),
        "--help" | "-h" | "help" => return streams.help(HELP),
        other => return streams.faulty(&[fault("klumdray", COMMANDS, &quoted(other))]),
    };
    if rest.iter().any(|word| word == "--help" || word == "-h") {
        return streams.help(command.1);
    }
    command.0(rest, streams)
}

type Run = fn(&[String], &mut Streams<'_>) -> io::Result<Status>;

const COMMANDS: &str = "trace, decode, check, total or --help";
