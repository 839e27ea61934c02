//! The marks for lines and couplers. Borders, arrows, crosses and gaps tell them apart; the one
//! colour only adds to that.

use super::layout::{Link, Outline, Way, RAIL};
use super::scene::{arrival_words, short, Drawn, Passage};
use super::svg::{cut, Anchor, Letters, Point, Svg};
use crate::plan::Direction;
use klumdray::tracer::Reason;

const INK: &str = "#000000";
const FAINT: &str = "#505050";
const BLUE: &str = "#0b4a8f";
const TINT: &str = "#dce9f6";
/// Under everything.
pub const PAPER: &str = "#ffffff";

const ADDRESS: Letters = Letters {
    size: 15,
    bold: true,
    anchor: Anchor::Start,
};
const START: Letters = Letters {
    size: 13,
    bold: true,
    anchor: Anchor::End,
};
/// Small print: labels, counts, the legend.
pub const PLAIN: Letters = Letters {
    size: 12,
    bold: false,
    anchor: Anchor::Start,
};
const REASON: Letters = Letters {
    size: 11,
    bold: true,
    anchor: Anchor::Start,
};

const PADDING: i32 = 9;
const ROW: i32 = 17;
/// Half the side of a coupler's square, of a cross, of an arrow head's base.
const SQUARE: i32 = 8;
const CROSS: i32 = 6;
const HEAD: i32 = 8;
const HEAD_LENGTH: i32 = 14;
/// What a bold border covers of a link's end.
const BORDER: i32 = 2;
/// Half of the gap where a coupler is missing.
const GAP: i32 = 14;

/// How a line's border is drawn.
#[derive(Clone, Copy)]
pub enum Border {
    /// Not reached.
    Thin,
    /// Reached.
    Bold,
    /// The starting line.
    Double,
}

/// Draws a line: its outline, and in its frame address, label and how the telegram arrives.
pub fn line(svg: &mut Svg, drawn: &Drawn, outline: &Outline) {
    let kind = match drawn.arrival {
        _ if drawn.start => Border::Double,
        Some(_) => Border::Bold,
        None => Border::Thin,
    };
    border(svg, kind, outline);
    let inner = outline.frame.width - 2 * PADDING;
    let at = outline.frame.corner.moved(PADDING, ROW + 4);
    svg.text(at, ADDRESS, &drawn.name);
    if drawn.start {
        svg.text(at.moved(inner, 0), START, "start");
    }
    let label = cut(&drawn.label, PLAIN, inner);
    svg.text(at.moved(0, ROW), PLAIN, &label);
    let arrival = drawn.arrival.map(arrival_words).unwrap_or_default();
    svg.text(at.moved(0, 2 * ROW), PLAIN, &arrival);
}

/// Draws a line's border and, but for a thin one, a tint within it.
pub fn border(svg: &mut Svg, border: Border, outline: &Outline) {
    let path = path(outline);
    match border {
        Border::Thin => outlined(svg, &path, (PAPER, FAINT, 1)),
        Border::Bold => outlined(svg, &path, (TINT, BLUE, 3)),
        Border::Double => {
            outlined(svg, &path, (TINT, BLUE, 8));
            outlined(svg, &path, ("none", PAPER, 3));
        }
    }
}

fn outlined(svg: &mut Svg, path: &str, (fill, stroke, width): (&str, &str, i32)) {
    svg.element(
        "path",
        &[
            ("d", &path),
            ("fill", &fill),
            ("stroke", &stroke),
            ("stroke-width", &width),
        ],
    );
}

fn path(outline: &Outline) -> String {
    let (corner, frame) = (outline.frame.corner, outline.frame);
    let (right, bottom) = (corner.x + frame.width, corner.y + frame.height);
    let rail = match outline.rail {
        Some(end) => format!("H{} V{end} ", corner.x + RAIL),
        None => String::new(),
    };
    format!(
        "M{} {} H{right} V{bottom} {rail}H{} Z",
        corner.x, corner.y, corner.x
    )
}

/// Draws a coupler on its link, and what becomes of the telegram there.
pub fn coupler(svg: &mut Svg, passage: Passage, link: &Link) {
    match passage {
        Passage::Crossed(direction) => crossed(svg, &link.way(direction)),
        Passage::Stopped(direction, reason) => {
            hollow(svg, link);
            cross(svg, &link.way(direction));
            say(svg, link, reason);
        }
        Passage::NotAsked => hollow(svg, link),
        Passage::NotFitted => {
            for direction in Direction::ALL {
                stub(svg, &link.way(direction));
            }
            say(svg, link, Reason::NotFitted);
        }
    }
}

fn crossed(svg: &mut Svg, way: &Way) {
    let tip = way.length - BORDER;
    let base = tip - HEAD_LENGTH;
    stroke(svg, [way.point(0, 0), way.point(base, 0)], (BLUE, 5));
    square(svg, way.point(way.length / 2, 0), (BLUE, BLUE));
    let corners = [(tip, 0), (base, HEAD), (base, -HEAD)];
    let corners = corners.map(|(along, beside)| way.point(along, beside));
    let points = corners.map(|point| format!("{},{}", point.x, point.y));
    svg.element("polygon", &[("points", &points.join(" ")), ("fill", &BLUE)]);
}

fn hollow(svg: &mut Svg, link: &Link) {
    stroke(svg, [link.main, link.sub], (INK, 1));
    square(svg, link.middle(), (PAPER, INK));
}

/// On the side that the telegram comes from, between that side and the coupler.
fn cross(svg: &mut Svg, way: &Way) {
    let middle = (way.length / 2 - SQUARE + BORDER) / 2;
    for slope in [-CROSS, CROSS] {
        let from = way.point(middle - CROSS, -slope);
        let to = way.point(middle + CROSS, slope);
        stroke(svg, [from, to], (INK, 4));
    }
}

/// One of the two loose ends where there is no coupler.
fn stub(svg: &mut Svg, way: &Way) {
    let ends = [way.point(0, 0), way.point(way.length / 2 - GAP, 0)];
    svg.group("g", &[("stroke-dasharray", &"5 4")], |svg| {
        stroke(svg, ends, (INK, 1));
    });
}

fn stroke(svg: &mut Svg, [from, to]: [Point; 2], (colour, width): (&str, i32)) {
    svg.element(
        "line",
        &[
            ("x1", &from.x),
            ("y1", &from.y),
            ("x2", &to.x),
            ("y2", &to.y),
            ("stroke", &colour),
            ("stroke-width", &width),
        ],
    );
}

fn square(svg: &mut Svg, middle: Point, (fill, stroke): (&str, &str)) {
    let corner = middle.moved(-SQUARE, -SQUARE);
    svg.element(
        "rect",
        &[
            ("x", &corner.x),
            ("y", &corner.y),
            ("width", &(2 * SQUARE)),
            ("height", &(2 * SQUARE)),
            ("fill", &fill),
            ("stroke", &stroke),
            ("stroke-width", &2),
        ],
    );
}

/// Few words at a link: below one that goes across, else in its gap or to the right of its coupler.
fn say(svg: &mut Svg, link: &Link, reason: Reason) {
    let (right, down, anchor) = match (link.is_across(), reason) {
        (true, _) => (0, SQUARE + 13, Anchor::Middle),
        (false, Reason::NotFitted) => (0, 4, Anchor::Middle),
        (false, _) => (SQUARE + 7, 4, Anchor::Start),
    };
    let at = link.middle().moved(right, down);
    svg.text(at, Letters { anchor, ..REASON }, short(reason));
}
