//! What each mark means, drawn with the same marks.

use super::layout::{Link, Outline, Rectangle, ACROSS, MARGIN};
use super::marks::{border, coupler, Border, PLAIN};
use super::scene::Passage;
use super::svg::{Point, Svg};
use crate::plan::Direction;
use klumdray::tracer::Reason;

const CELL: i32 = 294;
const ROW: i32 = 58;
const SAMPLE_HEIGHT: i32 = 34;
/// The two rows of cells.
pub const HEIGHT: i32 = 2 * ROW;
/// The cells of the longer row.
pub const WIDTH: i32 = 4 * CELL;

type Sample = (Mark, [&'static str; 2]);

enum Mark {
    Line(Border),
    Coupler(Passage),
}

const LINES: [Sample; 3] = [
    (
        Mark::Line(Border::Double),
        ["line on which the", "telegram starts"],
    ),
    (
        Mark::Line(Border::Bold),
        ["line reached: its count on", "arrival, couplers crossed"],
    ),
    (Mark::Line(Border::Thin), ["line not reached", ""]),
];

const COUPLERS: [Sample; 4] = [
    (
        Mark::Coupler(Passage::Crossed(Direction::Down)),
        ["coupler crossed,", "in the arrow's direction"],
    ),
    (
        Mark::Coupler(Passage::Stopped(Direction::Down, Reason::Closed)),
        ["coupler that stops the", "telegram, and why"],
    ),
    (
        Mark::Coupler(Passage::NotAsked),
        ["coupler to which the", "telegram does not come"],
    ),
    (Mark::Coupler(Passage::NotFitted), ["no coupler fitted", ""]),
];

/// Draws the legend below a height.
pub fn draw(svg: &mut Svg, top: i32) {
    for (row, samples) in [&LINES[..], &COUPLERS[..]].into_iter().enumerate() {
        for (column, (mark, words)) in samples.iter().enumerate() {
            let corner = Point {
                x: MARGIN + column as i32 * CELL,
                y: top + row as i32 * ROW,
            };
            sample(svg, corner, mark);
            let at = corner.moved(ACROSS + 12, SAMPLE_HEIGHT / 2 - 3);
            svg.text(at, PLAIN, words[0]);
            svg.text(at.moved(0, 15), PLAIN, words[1]);
        }
    }
}

fn sample(svg: &mut Svg, corner: Point, mark: &Mark) {
    match mark {
        Mark::Line(kind) => {
            let frame = Rectangle {
                corner,
                width: ACROSS,
                height: SAMPLE_HEIGHT,
            };
            border(svg, *kind, &Outline { frame, rail: None });
        }
        Mark::Coupler(passage) => {
            let main = corner.moved(0, SAMPLE_HEIGHT / 2);
            let sub = main.moved(ACROSS, 0);
            coupler(svg, *passage, &Link { main, sub });
        }
    }
}
