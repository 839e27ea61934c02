//! The answer for people.

use crate::address::{Individual, Line};
use crate::loading::Site;
use crate::tracing::{Destination, Stop, Telegram, Traced};
use crate::words::counted;
use klumdray::tracer::{Listed, Reason};
use std::collections::BTreeSet;

/// A longer label is not cut; its row alone is out of the columns.
const WIDEST_LABEL: usize = 40;

/// Tells the telegram and the site, the lines reached, and what stops the telegram on the way to
/// each of the others.
pub fn told(site: &Site, telegram: &Telegram, traced: &Traced) -> String {
    let sheet = Sheet {
        site,
        telegram,
        traced,
        width: label_width(site, traced),
    };
    [sheet.head(), sheet.reached(), sheet.not_reached()].join("\n")
}

struct Sheet<'a> {
    site: &'a Site,
    telegram: &'a Telegram,
    traced: &'a Traced,
    /// Of the column of labels, in both tables.
    width: usize,
}

impl Sheet<'_> {
    fn head(&self) -> String {
        let Telegram { from, to, count } = self.telegram;
        let number = self.telegram.query().destination;
        let text = &self.site.text;
        let tables = text.plan.project.len() + text.plan.own.len();
        format!(
            "Telegram  {to} ({number:04X}h) from line {from}{}, count {count}\n\
             Site      {}{}: {}, {}\n",
            in_quotes(self.site.label(*from)),
            self.site.file,
            in_quotes(text.title.as_deref()),
            counted(text.plan.couplers.len(), "coupler"),
            counted(tables, "filter table"),
        )
    }

    fn reached(&self) -> String {
        let mut table = format!("{}  Count  Crossed\n", self.cells("Line", "Label"));
        for listed in &self.traced.reached {
            table += &self.reached_row(listed);
        }
        table += &format!(
            "{} reached, {}\n",
            counted(self.traced.reached.len(), "line"),
            counted(self.traced.forwardings, "forwarding"),
        );
        if let Destination::Individual(address) = self.telegram.to {
            table += &self.arrival(address);
        }
        table
    }

    fn reached_row(&self, listed: &Listed) -> String {
        let line = Line(listed.line);
        let mark = if line == self.telegram.from {
            "  start"
        } else {
            ""
        };
        let Listed { count, crossed, .. } = listed;
        format!("{}  {count:>5}  {crossed:>7}{mark}\n", self.line(line))
    }

    /// Whether a device of this address hears the telegram. A coupler hears it on either side.
    fn arrival(&self, address: Individual) -> String {
        let line = address.line();
        let mut stops = self.traced.not_reached.iter();
        if stops.any(|stop| stop.reason == Reason::OwnAddress) {
            return format!("{address} is coupler {line} itself: the telegram comes to it\n");
        }
        let mut reached = self.traced.reached.iter();
        let is = match reached.any(|listed| Line(listed.line) == line) {
            true => "is",
            false => "is not",
        };
        format!("{address} lies on line {line}, which {is} reached\n")
    }

    fn not_reached(&self) -> String {
        let stops = &self.traced.not_reached;
        if stops.is_empty() {
            return "Every line of the site is reached\n".into();
        }
        let mut table = format!("{}  Stopped by\n", self.cells("Line", "Label"));
        for stop in stops {
            table += &self.stopped_row(stop);
        }
        let places = stops.iter().map(|stop| (stop.coupler, stop.direction));
        let places: BTreeSet<_> = places.collect();
        table += &format!(
            "{} not reached, stopped at {}\n",
            counted(stops.len(), "line"),
            counted(places.len(), "place"),
        );
        table
    }

    fn stopped_row(&self, stop: &Stop) -> String {
        let words = stop.words(self.telegram.to);
        let Stop {
            coupler, direction, ..
        } = stop;
        format!("{}  {coupler} {direction}: {words}\n", self.line(stop.line))
    }

    fn line(&self, line: Line) -> String {
        self.cells(&line.to_string(), label(self.site, line))
    }

    fn cells(&self, line: &str, label: &str) -> String {
        format!("{line:<5}  {label:<width$}", width = self.width)
    }
}

fn label_width(site: &Site, traced: &Traced) -> usize {
    let reached = traced.reached.iter().map(|listed| Line(listed.line));
    let lines = reached.chain(traced.not_reached.iter().map(|stop| stop.line));
    let widths = lines.map(|line| label(site, line).chars().count());
    let widest = widths.filter(|width| *width <= WIDEST_LABEL).max();
    widest.unwrap_or_default().max("Label".len())
}

fn label(site: &Site, line: Line) -> &str {
    site.label(line).unwrap_or("-")
}

fn in_quotes(text: Option<&str>) -> String {
    text.map(|text| format!(" \"{text}\"")).unwrap_or_default()
}
