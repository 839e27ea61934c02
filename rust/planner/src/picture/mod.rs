//! A picture of a trace, as SVG: the tree of lines with the couplers between them. Reached, stopped
//! and unfitted are told apart by more than colour, so that it reads in print.

mod layout;
mod legend;
mod marks;
mod scene;
mod svg;

use crate::loading::Site;
use crate::tracing::{self, Telegram, Traced};
use layout::{Layout, MARGIN};
use marks::PAPER;
use scene::{Passage, Scene};
use svg::{cut, Anchor, Letters, Point, Svg};

/// Draws the lines of a site, and what becomes of a telegram on them.
pub fn draw(site: &Site, telegram: &Telegram, traced: &Traced) -> String {
    let layout = Layout::new(&tracing::lines(site, telegram));
    let scene = Scene {
        site,
        telegram,
        traced,
    };
    let below = layout.height + 2 * MARGIN;
    let inner = layout.width.max(legend::WIDTH);
    let (width, height) = (inner + 2 * MARGIN, below + legend::HEIGHT);
    let mut svg = Svg::default();
    let attributes: &svg::Attributes<'_> = &[
        ("xmlns", &"http://www.w3.org/2000/svg"),
        ("width", &width),
        ("height", &height),
        ("viewBox", &format!("0 0 {width} {height}")),
        ("font-family", &"sans-serif"),
    ];
    let rows = scene.header();
    svg.group("svg", attributes, |svg| {
        svg.text_element("title", &[], &rows.join("; "));
        svg.element(
            "rect",
            &[("width", &width), ("height", &height), ("fill", &PAPER)],
        );
        header(svg, &rows, inner);
        // Under the lines, whose borders cover the ends of the links.
        couplers(svg, &scene, &layout);
        lines(svg, &scene, &layout);
        svg.group("g", &[("class", &"legend")], |svg| legend::draw(svg, below));
    });
    svg.into_text()
}

fn header(svg: &mut Svg, rows: &[String], room: i32) {
    let mut at = Point { x: MARGIN, y: 20 };
    for (row, text) in rows.iter().enumerate() {
        let size = if row == 0 { 22 } else { 16 };
        let letters = Letters {
            size,
            bold: row == 0,
            anchor: Anchor::Start,
        };
        at.y += size + 8;
        svg.text(at, letters, &cut(text, letters, room));
    }
}

fn couplers(svg: &mut Svg, scene: &Scene<'_>, layout: &Layout) {
    for (line, link) in &layout.links {
        let (passage, words) = scene.coupler(*line);
        let class = format!("coupler {}", kind(passage));
        svg.group("g", &[("class", &class), ("data-coupler", line)], |svg| {
            svg.text_element("title", &[], &words);
            marks::coupler(svg, passage, link);
        });
    }
}

fn lines(svg: &mut Svg, scene: &Scene<'_>, layout: &Layout) {
    for (line, outline) in &layout.lines {
        let drawn = scene.line(*line);
        let class = match drawn.arrival {
            _ if drawn.start => "line reached start",
            Some(_) => "line reached",
            None => "line not-reached",
        };
        svg.group("g", &[("class", &class), ("data-line", line)], |svg| {
            svg.text_element("title", &[], &drawn.words);
            marks::line(svg, &drawn, outline);
        });
    }
}

fn kind(passage: Passage) -> &'static str {
    match passage {
        Passage::Crossed(_) => "crossed",
        Passage::Stopped(..) => "stopped",
        Passage::NotAsked => "not-asked",
        Passage::NotFitted => "not-fitted",
    }
}
