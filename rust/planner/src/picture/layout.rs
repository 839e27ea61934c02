//! Where everything lies: the backbone as a bar across the top, below it a column for each area.

use super::svg::Point;
use crate::address::Line;
use crate::plan::Direction;
use std::collections::BTreeSet;

/// Free on all sides of the picture.
pub const MARGIN: i32 = 24;
/// Above the backbone: title, telegram and summary.
const HEADER: i32 = 118;
/// A line's frame has room for three rows of text.
const FRAME_HEIGHT: i32 = 66;
const FRAME_WIDTH: i32 = 172;
/// The part of a main line that the lines of its area hang on.
pub const RAIL: i32 = 12;
/// From a rail to a frame: room for a coupler and, below it, a reason.
pub const ACROSS: i32 = 108;
/// From the backbone to a main line.
const DOWN: i32 = 76;
const COLUMN: i32 = RAIL + ACROSS + FRAME_WIDTH;
const BETWEEN_COLUMNS: i32 = 30;
const PITCH: i32 = COLUMN + BETWEEN_COLUMNS;
const BETWEEN_ROWS: i32 = 14;

/// A rectangle by its upper left corner.
#[derive(Clone, Copy, Debug, PartialEq, Eq)]
pub struct Rectangle {
    /// The upper left corner.
    pub corner: Point,
    /// To the right.
    pub width: i32,
    /// Down.
    pub height: i32,
}

/// A line as it is drawn: a frame and, where other lines hang on it, a rail that goes down from the
/// frame's left edge.
#[derive(Clone, Copy, Debug, PartialEq, Eq)]
pub struct Outline {
    /// The frame.
    pub frame: Rectangle,
    /// The rail's lower end.
    pub rail: Option<i32>,
}

/// Where a coupler lies, or would lie: from its main side straight across or straight down to its
/// sub side.
#[derive(Clone, Copy, Debug, PartialEq, Eq)]
pub struct Link {
    /// On the main side's outline.
    pub main: Point,
    /// On the sub side's outline.
    pub sub: Point,
}

/// A link as a telegram takes it.
#[derive(Clone, Copy, Debug, PartialEq, Eq)]
pub struct Way {
    from: Point,
    along: (i32, i32),
    /// From side to side.
    pub length: i32,
}

impl Link {
    /// The link in a direction.
    pub fn way(&self, direction: Direction) -> Way {
        let (from, to) = match direction {
            Direction::Down => (self.main, self.sub),
            Direction::Up => (self.sub, self.main),
        };
        let (x, y) = (to.x - from.x, to.y - from.y);
        Way {
            from,
            along: (x.signum(), y.signum()),
            length: x.abs() + y.abs(),
        }
    }

    /// Where the coupler lies.
    pub fn middle(&self) -> Point {
        let way = self.way(Direction::Down);
        way.point(way.length / 2, 0)
    }

    /// Whether it goes across, as below a main line.
    pub fn is_across(&self) -> bool {
        self.main.y == self.sub.y
    }
}

impl Way {
    /// The point so far along the way and so far beside it.
    pub fn point(&self, along: i32, beside: i32) -> Point {
        let (x, y) = self.along;
        Point {
            x: self.from.x + x * along - y * beside,
            y: self.from.y + y * along + x * beside,
        }
    }
}

/// Where the lines and couplers of a site lie.
pub struct Layout {
    /// Each line's outline, rising.
    pub lines: Vec<(Line, Outline)>,
    /// The link of each line but the backbone, rising.
    pub links: Vec<(Line, Link)>,
    /// Of the backbone, below which all else lies.
    pub width: i32,
    /// To the lower edge of the lowest line.
    pub height: i32,
}

impl Layout {
    /// Lays lines out; with a line its main side has to be among them.
    pub fn new(lines: &BTreeSet<Line>) -> Layout {
        let below = |area: u8| lines.range(Line(area << 4 | 1)..=Line(area << 4 | 15));
        let areas = (0..16).filter(|area| match area {
            0 => below(0).count() > 0,
            _ => lines.contains(&Line(area << 4)),
        });
        let areas: Vec<u8> = areas.collect();
        let columns = areas.len().max(1) as i32;
        let corner = Point {
            x: MARGIN,
            y: HEADER,
        };
        let bar = frame(corner, columns * PITCH - BETWEEN_COLUMNS);
        let mut layout = Layout {
            lines: Vec::new(),
            links: Vec::new(),
            width: bar.width,
            height: 0,
        };
        // Area 0's lines hang on the backbone itself: its column, if there is one, is the first.
        layout.hang(Line(0), bar, below(0));
        for (column, area) in areas.into_iter().enumerate() {
            if area > 0 {
                let corner = corner.moved(column as i32 * PITCH, FRAME_HEIGHT + DOWN);
                layout.hang_area(Line(area << 4), corner, below(area));
            }
        }
        layout
    }

    /// An area: its main line hangs on the backbone by its coupler, the other lines on the main
    /// line.
    fn hang_area<'a>(&mut self, main: Line, corner: Point, below: impl Iterator<Item = &'a Line>) {
        let sub = corner.moved(COLUMN / 2, 0);
        let link = Link {
            main: sub.moved(0, -DOWN),
            sub,
        };
        self.links.push((main, link));
        self.hang(main, frame(corner, COLUMN), below);
    }

    /// A line, and below it those that hang on it by their couplers.
    fn hang<'a>(&mut self, main: Line, top: Rectangle, below: impl Iterator<Item = &'a Line>) {
        let place = self.lines.len();
        let mut outline = Outline {
            frame: top,
            rail: None,
        };
        let mut corner = top.corner.moved(RAIL + ACROSS, 0);
        for line in below {
            corner = corner.moved(0, FRAME_HEIGHT + BETWEEN_ROWS);
            let sub = corner.moved(0, FRAME_HEIGHT / 2);
            let link = Link {
                main: sub.moved(-ACROSS, 0),
                sub,
            };
            self.links.push((*line, link));
            let frame = frame(corner, FRAME_WIDTH);
            self.lines.push((*line, Outline { frame, rail: None }));
            outline.rail = Some(sub.y + RAIL);
        }
        self.lines.insert(place, (main, outline));
        self.height = self.height.max(corner.y + FRAME_HEIGHT);
    }
}

fn frame(corner: Point, width: i32) -> Rectangle {
    Rectangle {
        corner,
        width,
        height: FRAME_HEIGHT,
    }
}
