//! What was heard on a way: the total that the library keeps, and numbers for people.

use super::{Question, Way};
use crate::calendar::{Moment, Month};
use crate::capture::Datagram;
use klumdray::leak::Total;
use klumdray::station::{Station, Taken};
use klumdray::Refusal;
use std::collections::BTreeMap;
use std::time::Duration;

/// An increment's eleven octets take 15 ms on TP1, and the pause behind them 5 ms.
const SOON: Duration = Duration::from_millis(10);

/// How many telegrams were what.
#[derive(Clone, Debug, Default, PartialEq, Eq)]
pub struct Counts {
    /// Increments of the group that were added.
    pub counted: u64,
    /// Of these, those without a time.
    pub without_time: u64,
    /// The earliest and the latest time of those counted.
    pub times: Option<(Moment, Moment)>,
    /// Repetitions of the frame before them.
    pub repetitions: u64,
    /// Telegrams to the group that are no increment.
    pub no_increment: u64,
    /// Telegrams to other addresses.
    pub other_groups: u64,
    /// cEMI requests and confirmations: a wish, and an echo.
    pub not_indications: u64,
    /// Tunnelling requests that were sent again.
    pub sent_again: u64,
    /// Places where tunnelling requests are missing.
    pub gaps: u64,
    /// Routing datagrams whose packet seems to stand in the capture twice.
    pub twins: u64,
    /// Refusals.
    pub refused: BTreeMap<Refusal, u64>,
}

/// The sum of a month.
#[derive(Clone, Debug, PartialEq, Eq)]
pub struct MonthSum {
    total: Total,
    /// How many increments it has.
    pub counted: u64,
}

/// The routing datagram before.
#[derive(Clone, Debug, Default)]
struct Before {
    number: u16,
    time: Option<Moment>,
    octets: Vec<u8>,
}

/// What was heard on a way, or on several that are taken for one.
#[derive(Clone, Debug)]
pub struct Account {
    /// The ways, each with its number once it has brought a telegram of the group.
    pub ways: Vec<(Option<usize>, Way)>,
    station: Station,
    /// The numbers.
    pub counts: Counts,
    months: BTreeMap<Option<Month>, MonthSum>,
    before: Before,
    /// The place among the ways of the one that was counted last.
    latest: usize,
    /// Whether one of several ways was heard again after a later one: a telegram may have come by
    /// both.
    pub is_mixed: bool,
}

impl MonthSum {
    /// The hundredths.
    pub fn hundredths(&self) -> i64 {
        self.total.hundredths()
    }
}

impl Counts {
    /// Counts a refusal.
    pub fn refuse(&mut self, refusal: Refusal) {
        *self.refused.entry(refusal).or_default() += 1;
    }

    /// Adds the numbers of another way.
    pub fn add(&mut self, other: &Counts) {
        self.counted += other.counted;
        self.without_time += other.without_time;
        self.repetitions += other.repetitions;
        self.no_increment += other.no_increment;
        self.other_groups += other.other_groups;
        self.not_indications += other.not_indications;
        self.sent_again += other.sent_again;
        self.gaps += other.gaps;
        self.twins += other.twins;
        for (refusal, count) in &other.refused {
            *self.refused.entry(*refusal).or_default() += count;
        }
        self.times = match (self.times, other.times) {
            (Some((first, last)), Some((begun, ended))) => {
                Some((first.min(begun), last.max(ended)))
            }
            (own, others) => own.or(others),
        };
    }

    /// All refusals.
    pub fn refusals(&self) -> u64 {
        self.refused.values().sum()
    }

    fn count(&mut self, time: Option<Moment>) {
        self.counted += 1;
        match (time, self.times) {
            (None, _) => self.without_time += 1,
            (Some(time), None) => self.times = Some((time, time)),
            (Some(time), Some((first, last))) => {
                self.times = Some((first.min(time), last.max(time)));
            }
        }
    }
}

impl Account {
    /// Of a way on which nothing has been heard.
    pub fn new(question: &Question, way: Way) -> Account {
        Account {
            ways: vec![(None, way)],
            station: Station::new(question.group, question.start),
            counts: Counts::default(),
            months: BTreeMap::new(),
            before: Before::default(),
            latest: 0,
            is_mixed: false,
        }
    }

    /// The total, in hundredths.
    pub fn total(&self) -> i64 {
        self.station.total()
    }

    /// The sums of the months, what has no time first.
    pub fn months(&self) -> impl Iterator<Item = (Option<Month>, &MonthSum)> {
        self.months.iter().map(|(month, sum)| (*month, sum))
    }

    /// Looks whether a routing datagram is the very packet before once more: the same octets, with
    /// the same number of the sender's (which is 0 where it gives none) or sooner than a line could
    /// carry another telegram.
    pub fn compare(&mut self, datagram: &Datagram<'_>, time: Option<Moment>) {
        let number = datagram.identification;
        let is_numbered = number != 0 && self.before.number == number;
        let is_soon = |(before, now): (Moment, Moment)| before.apart(now) < SOON;
        let is_same = is_numbered || self.before.time.zip(time).is_some_and(is_soon);
        let is_twin = is_same && self.before.octets == datagram.octets;
        self.counts.twins += u64::from(is_twin);
        self.before.number = number;
        self.before.time = time;
        self.before.octets.clear();
        self.before.octets.extend_from_slice(datagram.octets);
    }

    /// The station takes a TP1 frame; nothing is noted yet.
    pub fn take(&mut self, frame: &[u8]) -> Result<Taken, Refusal> {
        self.station.take(frame)
    }

    /// Notes what became of a frame that came by a way at a time.
    pub fn note(
        &mut self,
        question: &Question,
        taken: Result<Taken, Refusal>,
        way: &Way,
        time: Option<Moment>,
    ) {
        match taken {
            Ok(Taken::Counted(code)) => {
                self.counts.count(time);
                self.pass_to(way);
                if question.by_month {
                    self.add_to_month(time.map(|time| time.month(question.place)), code);
                }
            }
            Ok(Taken::Repetition) => self.counts.repetitions += 1,
            Ok(Taken::NoIncrement) => self.counts.no_increment += 1,
            Ok(Taken::AnotherGroup) => self.counts.other_groups += 1,
            Err(refusal) => self.counts.refuse(refusal),
        }
    }

    fn add_to_month(&mut self, month: Option<Month>, code: u16) {
        let empty = || MonthSum {
            total: Total::new(0),
            counted: 0,
        };
        let sum = self.months.entry(month).or_insert_with(empty);
        match sum.total.add(code) {
            Ok(()) => sum.counted += 1,
            Err(refusal) => self.counts.refuse(refusal),
        }
    }

    fn pass_to(&mut self, way: &Way) {
        let place = self.ways.iter().position(|(_, own)| own == way);
        let place = place.unwrap_or_default();
        self.is_mixed |= place < self.latest;
        self.latest = place;
    }
}
