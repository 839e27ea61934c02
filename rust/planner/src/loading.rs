//! A site's file, read, translated and judged.

use crate::address::Line;
use crate::arguments::fault;
use crate::fault::Fault;
use crate::json::Json;
use crate::octets::{octets_of, plan_of, Octets};
use crate::plan::{Class, Coupler, Direction, Plan, Setting};
use crate::text::{read, CouplerText, SiteText};
use klumdray::tracer::{why, Query};
use klumdray::Refusal;
use std::fmt;
use std::fs;

/// A site that came back the same from its octets; well-formed if [`load`] gave it.
#[derive(Debug)]
pub struct Site {
    /// Its file.
    pub file: String,
    /// Its text.
    pub text: SiteText,
    /// What the library is given.
    pub octets: Octets,
}

impl Site {
    /// What a line is called, if it has a name.
    pub fn label(&self, line: Line) -> Option<&str> {
        if line == Line(0) {
            return Some("backbone");
        }
        let couplers = &self.text.plan.couplers;
        let place = couplers.iter().position(|coupler| coupler.line == line)?;
        self.text.couplers[place].label.as_deref()
    }
}

/// Why there is no site to ask about.
#[derive(Debug)]
pub enum Failure {
    /// The text cannot be read.
    Faulty(Vec<Fault>),
    /// The library refuses the site.
    Refused(RefusedSite),
    /// The octets, translated back, are another site.
    Broken,
}

/// A refusal, and where in the text it comes from.
#[derive(Clone, Debug, PartialEq, Eq)]
pub struct RefusedSite {
    /// The library's refusal.
    pub refusal: Refusal,
    /// The site's file.
    pub file: String,
    /// The text's line.
    pub line: usize,
    /// What in that line draws the refusal.
    pub because: String,
}

impl RefusedSite {
    /// What scripts are told of it.
    pub fn members(&self) -> Vec<(&'static str, Json)> {
        vec![
            ("refused", self.refusal.number().into()),
            ("words", self.refusal.words().into()),
            ("file", self.file.as_str().into()),
            ("line", self.line.into()),
            ("because", self.because.as_str().into()),
        ]
    }
}

impl fmt::Display for RefusedSite {
    fn fmt(&self, f: &mut fmt::Formatter<'_>) -> fmt::Result {
        let RefusedSite {
            refusal,
            file,
            line,
            because,
        } = self;
        write!(f, "{file}:{line}: {refusal}: {because}")
    }
}

/// Reads a site's file, translates it and has the library judge it.
pub fn load(file: &str) -> Result<Site, Failure> {
    accepted(translated(file)?)
}

/// As [`load`], with the file's text at hand.
pub fn load_text(file: &str, text: &[u8]) -> Result<Site, Failure> {
    accepted(translated_text(file, text)?)
}

fn accepted(site: Site) -> Result<Site, Failure> {
    match judge(&site) {
        None => Ok(site),
        Some(refused) => Err(Failure::Refused(refused)),
    }
}

/// Reads a site's file and translates it.
pub fn translated(file: &str) -> Result<Site, Failure> {
    let unreadable = |error: std::io::Error| {
        Failure::Faulty(vec![fault(file, "a site's file", &error.to_string())])
    };
    translated_text(file, &fs::read(file).map_err(unreadable)?)
}

fn translated_text(file: &str, text: &[u8]) -> Result<Site, Failure> {
    let text = read(file, text).map_err(Failure::Faulty)?;
    let octets = translate(&text.plan).ok_or(Failure::Broken)?;
    Ok(Site {
        file: file.into(),
        text,
        octets,
    })
}

/// The library's refusal of a site; none if it is well-formed.
pub fn judge(site: &Site) -> Option<RefusedSite> {
    let (refusal, place) = refused(&site.octets)?;
    let (line, because) = cause(&site.text, refusal, place);
    Some(RefusedSite {
        refusal,
        file: site.file.clone(),
        line,
        because,
    })
}

/// Translates a site to octets, and these back: without the same site again there are none.
pub fn translate(plan: &Plan) -> Option<Octets> {
    let octets = octets_of(plan)?;
    (plan_of(&octets).as_ref() == Some(plan)).then_some(octets)
}

/// The library's refusal of a site, and the first coupler with which it is drawn: "record by
/// record".
fn refused(octets: &Octets) -> Option<(Refusal, usize)> {
    let query = Query {
        start: 0,
        group: true,
        destination: 0,
        count: 0,
    };
    let refusal = |couplers: usize| why(&query, &octets.first(couplers), 0).err();
    let all = octets.couplers();
    let refusal_of_all = refusal(all)?;
    let first = (1..=all).find(|couplers| refusal(*couplers).is_some());
    Some((refusal_of_all, first.unwrap_or(all).saturating_sub(1)))
}

/// The line of the text that draws a refusal, and why.
fn cause(text: &SiteText, refusal: Refusal, place: usize) -> (usize, String) {
    let (Some(coupler), Some(at)) = (text.plan.couplers.get(place), text.couplers.get(place))
    else {
        return (1, "the site as a whole".into());
    };
    let groups = [Class::LowerGroups, Class::UpperGroups];
    match refusal {
        Refusal::SETTING if coupler.line == Line(0) => (at.at, "line 0.0 has no coupler".into()),
        Refusal::SETTING => filtered(
            (coupler, at),
            &[Class::Broadcast],
            "broadcast is either closed or open",
        ),
        Refusal::TABLE => filtered((coupler, at), &groups, "the coupler names no table"),
        _ => (at.at, second(text, coupler.line)),
    }
}

/// The line with the first of these classes that is set to filter, and why it may not be.
fn filtered(
    (coupler, at): (&Coupler, &CouplerText),
    classes: &[Class],
    but: &str,
) -> (usize, String) {
    let mut pairs = Direction::ALL
        .into_iter()
        .flat_map(|direction| classes.iter().map(move |class| (direction, *class)));
    let is_filter = |pair: &(Direction, Class)| coupler.setting(pair.0, pair.1) == Setting::Filter;
    match pairs.find(is_filter) {
        None => (at.at, but.into()),
        Some((direction, class)) => {
            let because = format!("{class} filter {direction}, but {but}");
            (at.rows[direction as usize], because)
        }
    }
}

fn second(text: &SiteText, line: Line) -> String {
    let mut couplers = text.plan.couplers.iter().zip(&text.couplers);
    let first = couplers.find(|(coupler, _)| coupler.line == line);
    let first = first.map_or(0, |(_, at)| at.at);
    format!("a second coupler {line}; the first stands at line {first} of the file")
}
