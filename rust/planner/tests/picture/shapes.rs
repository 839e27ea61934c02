//! How much room the elements of a picture take.

use super::xml::Element;

/// A rectangle from its left and upper edge to its right and lower edge.
#[derive(Clone, Copy, Debug, PartialEq)]
pub struct Area {
    pub left: f64,
    pub top: f64,
    pub right: f64,
    pub bottom: f64,
}

impl Area {
    pub fn around(points: &[(f64, f64)]) -> Area {
        let least = |a: f64, b: f64| a.min(b);
        let most = |a: f64, b: f64| a.max(b);
        let (x, y): (Vec<f64>, Vec<f64>) = points.iter().copied().unzip();
        Area {
            left: x.iter().copied().fold(f64::INFINITY, least),
            top: y.iter().copied().fold(f64::INFINITY, least),
            right: x.iter().copied().fold(f64::NEG_INFINITY, most),
            bottom: y.iter().copied().fold(f64::NEG_INFINITY, most),
        }
    }

    pub fn grown(self, by: f64) -> Area {
        Area {
            left: self.left - by,
            top: self.top - by,
            right: self.right + by,
            bottom: self.bottom + by,
        }
    }

    pub fn meets(&self, other: &Area) -> bool {
        self.left < other.right
            && other.left < self.right
            && self.top < other.bottom
            && other.top < self.bottom
    }

    pub fn holds(&self, other: &Area) -> bool {
        self.left <= other.left
            && self.top <= other.top
            && self.right >= other.right
            && self.bottom >= other.bottom
    }

    pub fn middle(&self) -> (f64, f64) {
        (
            (self.left + self.right) / 2.0,
            (self.top + self.bottom) / 2.0,
        )
    }
}

/// The room that an element takes, with its stroke; none for one that is not drawn itself.
pub fn area(element: &Element) -> Option<Area> {
    let area = match element.name.as_str() {
        "rect" => rectangle(element),
        "line" => Area::around(&ends(element)),
        "polygon" => Area::around(&corners(element)),
        "path" => Area::around(&path(element)),
        "text" => return Some(text(element)),
        _ => return None,
    };
    let stroke = element
        .attribute("stroke-width")
        .map(|_| element.number("stroke-width"));
    Some(area.grown(stroke.unwrap_or(0.0) / 2.0))
}

pub fn ends(line: &Element) -> [(f64, f64); 2] {
    [("x1", "y1"), ("x2", "y2")].map(|(x, y)| (line.number(x), line.number(y)))
}

pub fn corners(polygon: &Element) -> Vec<(f64, f64)> {
    let points = polygon.attribute("points").expect("points").split(' ');
    let number = |text: &str| text.parse().expect("a number");
    let point = |(x, y): (&str, &str)| (number(x), number(y));
    points
        .map(|pair| point(pair.split_once(',').expect("a pair")))
        .collect()
}

/// The corners of a path that goes across and down alone.
pub fn path(path: &Element) -> Vec<(f64, f64)> {
    let words: Vec<&str> = path.attribute("d").expect("d").split(' ').collect();
    let [first, second, steps @ .., "Z"] = &words[..] else {
        panic!("{words:?}");
    };
    let number = |text: &str| text.parse::<f64>().expect("a number");
    let start = first.strip_prefix('M').map(number).expect("a start");
    let mut at = (start, number(second));
    let mut corners = vec![at];
    for step in steps {
        match step.split_at(1) {
            ("H", x) => at.0 = number(x),
            ("V", y) => at.1 = number(y),
            _ => panic!("{step}"),
        }
        corners.push(at);
    }
    corners
}

/// A line's frame and, if it has one, its rail.
pub fn parts(line: &Element) -> Vec<Area> {
    let corners = path(line.named("path")[0]);
    match corners[..] {
        [_, _, _, _] => vec![Area::around(&corners)],
        [a, b, c, _, rail, f] => {
            let frame = Area::around(&[a, b, c]);
            vec![frame, Area::around(&[(f.0, c.1), rail, f])]
        }
        _ => panic!("{corners:?}"),
    }
}

fn rectangle(rect: &Element) -> Area {
    let corner = |name: &str| rect.attribute(name).map_or(0.0, |_| rect.number(name));
    let (x, y) = (corner("x"), corner("y"));
    Area::around(&[
        (x, y),
        (x + rect.number("width"), y + rect.number("height")),
    ])
}

fn text(text: &Element) -> Area {
    let (x, y, size) = (text.number("x"), text.number("y"), text.number("font-size"));
    let bold = text.attribute("font-weight") == Some("bold");
    let width = size * text.text.chars().map(|part| width(part, bold)).sum::<f64>();
    let left = match text.attribute("text-anchor") {
        Some("start") => x,
        Some("middle") => x - width / 2.0,
        Some("end") => x - width,
        other => panic!("{other:?}"),
    };
    // Above the base line as high as an accent, below it as deep as a comma on a g.
    Area::around(&[(left, y - 0.95 * size), (left + width, y + 0.24 * size)])
}

/// Widths in thousandths of the font's size, from the space to the tilde, plain and bold, of DejaVu
/// Sans, which is among the widest in use.
const WIDTHS: [[u16; 95]; 2] = [
    [
        318, 401, 460, 838, 637, 951, 780, 275, 391, 391, 500, 838, 318, 361, 318, 337, 637, 637,
        637, 637, 637, 637, 637, 637, 637, 637, 337, 337, 838, 838, 838, 531, 1000, 685, 687, 699,
        771, 632, 576, 775, 752, 295, 295, 656, 558, 863, 749, 788, 604, 788, 695, 635, 611, 732,
        685, 989, 686, 611, 686, 391, 337, 391, 838, 500, 500, 613, 635, 550, 635, 616, 353, 635,
        634, 278, 278, 580, 278, 975, 634, 612, 635, 635, 412, 521, 393, 634, 592, 818, 592, 592,
        525, 637, 337, 637, 838,
    ],
    [
        349, 457, 521, 838, 696, 1002, 873, 307, 458, 458, 523, 838, 380, 416, 380, 366, 696, 696,
        696, 696, 696, 696, 696, 696, 696, 696, 400, 400, 838, 838, 838, 581, 1000, 774, 763, 734,
        831, 684, 684, 821, 837, 373, 373, 775, 638, 996, 837, 851, 733, 851, 771, 721, 683, 813,
        774, 1104, 771, 725, 726, 458, 366, 458, 838, 500, 500, 675, 716, 593, 716, 679, 436, 716,
        712, 343, 343, 666, 343, 1042, 712, 688, 716, 716, 494, 596, 479, 712, 652, 924, 646, 652,
        583, 712, 366, 712, 838,
    ],
];

fn width(character: char, bold: bool) -> f64 {
    let place = (u32::from(character) as usize).wrapping_sub(32);
    match WIDTHS[usize::from(bold)].get(place) {
        Some(width) => f64::from(*width) / 1000.0,
        None if matches!(character, 'ß' | 'ä' | 'é') => 0.65,
        None => 1.0,
    }
}
