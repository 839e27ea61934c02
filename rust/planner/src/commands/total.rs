//! `klumdray total`.

mod asked;
mod listening;
mod object;
mod progress;
mod sheet;

use super::Streams;
use crate::arguments::fault;
use crate::fault::{Fault, Status};
use crate::telegrams::{Account, Counts, Ledger};
use asked::Asked;
use listening::{listen, Heard, Stopped};
use std::io;

/// What `klumdray total --help` says.
pub const HELP: &str = "\
klumdray total FILE --group GROUP [OPTION]...

Adds up what a leak meter has reported: the exact litres, how many telegrams were counted, which
were not, and from when to when.

  FILE               a capture, pcap or pcapng as Wireshark writes them, with KNXnet/IP routing or
                     tunnelling; or a text with one frame a line in hex, TP1, cEMI or KNXnet/IP,
                     with a time before it or without: 2026-11-16T15:40:35.123Z,
                     2026-11-16 15:40:35+01:00 or 1731771635.250; # begins a comment.
                     - is standard input
  --group GROUP      the meter's group address, as 2/2/52, 2/564, 4660 or 1234h
  --start LITRES     what the total begins with, as 8760.00 or -0.5. Without it: 0
  --by month         the sum of each month as well
  --offset OFFSET    the clock for months, shown times, and times in a text that have no zone, as
                     +01:00, the year round. Without it: UTC
  --way N,N..        of several ways that telegrams came by, count this one, or these as one
  --port PORT        in a capture, the UDP port of KNXnet/IP. Without it: 3671
  --tp1, --cemi, --routing
                     in a text, read each line as this; otherwise they are told apart
  --json             the answer as one JSON object

Counted are indications to the group with a two-octet float (GroupValueWrite of DPT 9, hundredths of
a litre). A repetition of the frame before, a tunnelling request sent again, a cEMI request (a wish)
and a confirmation (an echo) are not, and are told. Refused frames are told by the refusal's number.
The times are those of the first and the last telegram that was counted.

A way is one sender of routing datagrams, or one tunnelling session in one direction, on one
interface of one section of the capture; a text is one way. A telegram that came by two ways would
be counted twice, so where increments came by more than one there is no sum: each way is told, and
--way chooses. Several chosen ways are counted as one: do so where they follow one another, as the
sessions of a laptop that has connected again.

Exit status: 0 answered; 1 increments came by several ways and none was chosen: there is no sum; 2 a
file or an argument cannot be read. A file that breaks off is told up to there, and where it broke.

  klumdray total examples/meter.txt --group 2/2/52
  klumdray total year.pcapng --group 2/2/52 --by month --offset +01:00
";

/// Runs the command.
pub fn run(words: &[String], streams: &mut Streams<'_>) -> io::Result<Status> {
    let asked = match Asked::read(words) {
        Ok(asked) => asked,
        Err(fault) => return streams.faulty(&[fault]),
    };
    let heard = match listen(&asked, streams)? {
        Ok(heard) => heard,
        Err(fault) => return streams.faulty(&[fault]),
    };
    let answer = Answer::of(&asked, &heard);
    let told = match asked.json {
        true => format!("{}\n", object::told(&answer)),
        false => sheet::told(&answer),
    };
    streams.output.write_all(told.as_bytes())?;
    // On a terminal what is said of the answer stands behind it.
    streams.output.flush()?;
    answer.say_more(streams)
}

/// What is answered.
struct Answer<'a> {
    asked: &'a Asked,
    heard: &'a Heard,
    result: Outcome<'a>,
    /// The numbers of the file or, where ways are chosen, of these and of what no way is known of.
    counts: Counts,
}

/// Whether there is a total.
enum Outcome<'a> {
    /// No increment was counted: the total is what it began with.
    Nothing,
    /// One way, or those that were chosen.
    Total(&'a Account),
    /// Increments came by several ways.
    NoSum,
    /// A way was chosen that there is not.
    NoSuchWay(usize),
}

impl<'a> Answer<'a> {
    fn of(asked: &'a Asked, heard: &'a Heard) -> Answer<'a> {
        let ledger = &heard.ledger;
        let result = outcome(ledger);
        let accounts = match (&result, asked.question.chosen.is_empty()) {
            (Outcome::Total(account), false) => std::slice::from_ref(*account),
            _ => ledger.accounts(),
        };
        let mut counts = ledger.aside.counts.clone();
        for account in accounts {
            counts.add(&account.counts);
        }
        Answer {
            asked,
            heard,
            result,
            counts,
        }
    }

    fn ledger(&self) -> &'a Ledger {
        &self.heard.ledger
    }

    /// The hundredths, where there is a sum.
    fn total(&self) -> Option<i64> {
        match self.result {
            Outcome::Nothing => Some(self.asked.question.start),
            Outcome::Total(account) => Some(account.total()),
            Outcome::NoSum | Outcome::NoSuchWay(_) => None,
        }
    }

    /// The accounts that have brought telegrams of the group, in the order of their numbers.
    fn numbered(&self) -> Vec<&'a Account> {
        let accounts = self.ledger().accounts().iter();
        let first = |account: &&Account| account.ways.first().and_then(|(number, _)| *number);
        let mut numbered: Vec<&Account> = accounts.filter(|own| first(own).is_some()).collect();
        numbered.sort_by_key(first);
        numbered
    }

    /// Says on standard error what keeps the answer from being a figure to sign.
    fn say_more(&self, streams: &mut Streams<'_>) -> io::Result<Status> {
        let mut status = Status::Answered;
        match self.result {
            Outcome::NoSum => {
                writeln!(streams.errors, "klumdray: {NO_SUM}")?;
                status = Status::Refused;
            }
            Outcome::NoSuchWay(number) => {
                let expected = match self.ledger().numbered() {
                    0 => "no way, for none has brought a telegram of the group".into(),
                    most => format!("ways from 1 to {most}"),
                };
                let fault = fault("--way", &expected, &format!("'{number}'"));
                status = streams.faulty(&[fault])?;
            }
            Outcome::Total(account) => {
                for note in self.notes(account) {
                    writeln!(streams.errors, "klumdray: note: {note}")?;
                }
            }
            Outcome::Nothing => {}
        }
        if let Some(stopped) = &self.heard.stopped {
            status = status.max(streams.faulty(&[stopped.fault(&self.asked.name())])?);
        }
        Ok(status)
    }

    /// What may have been counted twice.
    fn notes(&self, account: &Account) -> impl Iterator<Item = &'static str> {
        let notes = [
            (account.is_mixed, MIXED),
            (account.counts.twins > 0, TWINS),
            (self.ledger().aside.blurred > 0, BLURRED),
        ];
        notes
            .into_iter()
            .filter_map(|(is_so, note)| is_so.then_some(note))
    }
}

const NO_SUM: &str = "increments came by several ways, so there is no sum: \
    a telegram may have come by more than one; choose by --way";
const MIXED: &str = "the chosen ways overlap; a telegram that came by two of them is counted twice";
const TWINS: &str = "packets seem to stand in the capture twice and are counted twice; \
    take the second ones out, as by editcap -w 0.001, and count again";
const BLURRED: &str = "captured on all interfaces at once; \
    a packet that crossed two of them stands in the capture twice and is counted twice";

fn outcome(ledger: &Ledger) -> Outcome<'_> {
    let chosen = &ledger.question.chosen;
    if let Some(missing) = chosen.iter().find(|number| **number > ledger.numbered()) {
        return Outcome::NoSuchWay(*missing);
    }
    if let Some(account) = ledger.chosen() {
        return Outcome::Total(account);
    }
    let accounts = ledger.accounts().iter();
    let mut counted = accounts.filter(|account| account.counts.counted > 0);
    match (counted.next(), counted.next()) {
        (None, _) => Outcome::Nothing,
        (Some(account), None) => Outcome::Total(account),
        _ => Outcome::NoSum,
    }
}

impl Stopped {
    /// The fault in a file.
    fn fault(&self, file: &str) -> Fault {
        let place = match self.packet {
            Some((octet, packet)) => format!("{file}: octet {octet}, packet {packet}"),
            None => file.into(),
        };
        Fault {
            line: self.line,
            ..fault(&place, &self.expected, &self.found)
        }
    }
}
