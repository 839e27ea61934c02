//! What the library's answer says of each line and each coupler of the picture.

use crate::address::Line;
use crate::loading::Site;
use crate::plan::Direction;
use crate::tracing::{Stop, Telegram, Traced};
use crate::words::counted;
use klumdray::tracer::{Listed, Reason};

/// A trace to be drawn.
pub struct Scene<'a> {
    /// Over which site.
    pub site: &'a Site,
    /// Of which telegram.
    pub telegram: &'a Telegram,
    /// The answer.
    pub traced: &'a Traced,
}

/// A line, as it is drawn.
pub struct Drawn {
    /// Its address.
    pub name: String,
    /// What it is called; empty where the site does not say.
    pub label: String,
    /// Count on arrival and couplers crossed, if it is reached.
    pub arrival: Option<Listed>,
    /// Whether the telegram starts there.
    pub start: bool,
    /// All of this in words.
    pub words: String,
}

/// What becomes of the telegram at a coupler.
#[derive(Clone, Copy, Debug, PartialEq, Eq)]
pub enum Passage {
    /// It is handed on.
    Crossed(Direction),
    /// It is not handed on.
    Stopped(Direction, Reason),
    /// It does not come there.
    NotAsked,
    /// There is no coupler.
    NotFitted,
}

impl Scene<'_> {
    /// The site's title, if it has one, the telegram, and how far it comes.
    pub fn header(&self) -> Vec<String> {
        let Telegram { from, to, count } = self.telegram;
        let lines = counted(self.traced.reached.len(), "line");
        let forwardings = counted(self.traced.forwardings, "forwarding");
        let title = self.site.text.title.iter().cloned();
        let rows = title.chain([
            format!("{to} from {from}, count {count}"),
            format!("{lines} reached, {forwardings}"),
        ]);
        rows.filter(|row| !row.is_empty()).collect()
    }

    /// What is drawn of a line.
    pub fn line(&self, line: Line) -> Drawn {
        let label = self.label(line);
        let arrival = self.arrival(line);
        let mut stops = self.traced.not_reached.iter();
        let stop = stops.find(|stop| stop.line == line);
        let outcome = match (arrival, stop) {
            (Some(listed), _) => arrival_words(listed),
            (None, Some(stop)) => format!("not reached; {}", self.stop_words(stop)),
            (None, None) => "not reached".into(),
        };
        Drawn {
            name: line.to_string(),
            arrival,
            start: line == self.telegram.from,
            words: format!("{}: {outcome}", format!("{line} {label}").trim_end()),
            label,
        }
    }

    /// What becomes of the telegram at a line's coupler, and this in words.
    pub fn coupler(&self, line: Line) -> (Passage, String) {
        let mut couplers = self.site.text.plan.couplers.iter();
        if !couplers.any(|coupler| coupler.line == line) {
            return (Passage::NotFitted, format!("no coupler {line} fitted"));
        }
        if let (Some(main), Some(sub)) = (self.arrival(line.main()), self.arrival(line)) {
            let direction = if main.crossed < sub.crossed {
                Direction::Down
            } else {
                Direction::Up
            };
            let words = format!("coupler {line}: crossed {direction}");
            return (Passage::Crossed(direction), words);
        }
        let mut stops = self.traced.not_reached.iter();
        match stops.find(|stop| stop.coupler == line) {
            Some(stop) => (
                Passage::Stopped(stop.direction, stop.reason),
                format!("coupler {}", self.stop_words(stop)),
            ),
            None => (
                Passage::NotAsked,
                format!("coupler {line}: nothing came to it"),
            ),
        }
    }

    fn stop_words(&self, stop: &Stop) -> String {
        let words = stop.words(self.telegram.to);
        format!("{} {}: {words}", stop.coupler, stop.direction)
    }

    fn arrival(&self, line: Line) -> Option<Listed> {
        let mut reached = self.traced.reached.iter();
        reached.find(|listed| listed.line == line.0).copied()
    }

    fn label(&self, line: Line) -> String {
        match (self.site.label(line), line.0 >> 4, line.0 & 15) {
            (Some(label), ..) => label.into(),
            (None, area, 0) => format!("main line of area {area}"),
            _ => String::new(),
        }
    }
}

/// How the telegram arrives.
pub fn arrival_words(listed: Listed) -> String {
    format!("count {}, crossed {}", listed.count, listed.crossed)
}

/// A reason in few words.
pub fn short(reason: Reason) -> &'static str {
    match reason {
        Reason::NotFitted => "no coupler",
        Reason::OwnAddress => "own address",
        Reason::Closed => "closed",
        Reason::NotBelow => "not below",
        Reason::NotAbove => "not above",
        Reason::NotInTable => "not in table",
        Reason::CountUsedUp => "count used up",
    }
}
