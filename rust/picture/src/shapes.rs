//! The shapes that marks are made of.

use crate::plan::Shape;
use crate::xml::escape;

pub fn text(x: i32, y: i32, class: &str, text: &str) -> String {
    format!("<text x=\"{}\" y=\"{}\" class=\"{}\">{}</text>\n", x, y, class, escape(text))
}

pub fn circle(x: i32, y: i32, r: i32, class: &str) -> String {
    format!("<circle cx=\"{}\" cy=\"{}\" r=\"{}\" class=\"{}\"/>\n", x, y, r, class)
}

pub fn line(from: (f64, f64), to: (f64, f64), class: &str) -> String {
    format!("<line x1=\"{:.1}\" y1=\"{:.1}\" x2=\"{:.1}\" y2=\"{:.1}\" class=\"{}\"/>\n", from.0, from.1, to.0, to.1, class)
}

pub fn point((x, y): (i32, i32)) -> (f64, f64) {
    (f64::from(x), f64::from(y))
}

/// An arrow between two marks, a little shorter at both ends; `head` is the length of its point.
pub fn arrow(from: (i32, i32), to: (i32, i32), ends: (i32, i32), class: &str, head: (f64, &str)) -> String {
    let ((x1, y1), (x2, y2)) = (point(from), point(to));
    let length = (x2 - x1).hypot(y2 - y1).max(1.0);
    let (dx, dy) = ((x2 - x1) / length, (y2 - y1) / length);
    let along = |t: f64, aside: f64| (x1 + dx * t - dy * aside, y1 + dy * t + dx * aside);
    let tip = length - f64::from(ends.1);
    let (size, point_class) = head;
    let [a, b, c] = [along(tip, 0.0), along(tip - size, size * 0.55), along(tip - size, -size * 0.55)];
    let shaft = line(along(f64::from(ends.0), 0.0), along(tip - size * 0.7, 0.0), class);
    let points = format!("{:.1},{:.1} {:.1},{:.1} {:.1},{:.1}", a.0, a.1, b.0, b.1, c.0, c.1);
    format!("{}<polygon points=\"{}\" class=\"{}\"/>\n", shaft, points, point_class)
}

pub fn diamond(x: i32, y: i32, r: i32, class: &str) -> String {
    format!("<polygon points=\"{},{} {},{} {},{} {},{}\" class=\"{}\"/>\n", x, y - r, x + r, y, x, y + r, x - r, y, class)
}

pub fn cross(x: i32, y: i32) -> String {
    let (a, b) = (
        line(point((x - 8, y - 8)), point((x + 8, y + 8)), "cross"),
        line(point((x - 8, y + 8)), point((x + 8, y - 8)), "cross"),
    );
    a + &b
}

/// A hatched bar.
pub fn stretch(shape: &Shape, x: i32, top: i32, bottom: i32) -> String {
    format!(
        "<rect x=\"{}\" y=\"{}\" width=\"10\" height=\"{}\" fill=\"url(#{}-hatch)\" class=\"stretch\"/>\n",
        x - 5,
        top,
        (bottom - top).max(1),
        shape.id
    )
}

/// Half the width of a mark, which is more if the bearing has three digits.
pub fn half(mark: i32, bearing: u32) -> i32 {
    mark + if bearing < 100 { 0 } else { 4 }
}

/// A mark with the bearing in it.
pub fn numbered(mark: &str, x: i32, y: i32, class: &str, bearing: u32) -> String {
    format!("{}{}", mark, text(x, y + 5, &format!("in {}", class), &bearing.to_string()))
}
