//! The picture: rows from top to bottom, marks in the lanes of the shelves, words beside them.

use depot_register::{Bearing, Depot, Shelf};

use crate::arguments::Asked;
use crate::key::{sign_mark, signs};
use crate::lettering::{broken, class, height_of, line_height, wrap};
use crate::messages::messages;
use crate::plan::{width, Placed, Plan, Row, Shape, SHORT};
use crate::run::{Event, Found, Line, Run};
use crate::shapes::{circle, cross, diamond, half, line, numbered, point, text};
use crate::style;
use crate::words::{self, Tone};
use crate::xml::escape;

/// The parts of the picture, from the lowest layer to the highest.
#[derive(Default)]
pub struct Layers {
    pub ground: String,
    pub stretches: String,
    pub arrows: String,
    pub marks: String,
    pub text: String,
}

/// The whole picture. As a file of its own it names itself to whoever cannot see it.
pub fn svg(run: &Run, asked: &Asked, shape: &Shape, alone: bool) -> String {
    let width = width(run, shape);
    let mut layers = Layers::default();
    let top = opening(&mut layers, run, asked, shape, width);
    let plan = Plan::new(run, asked, shape, top);
    for section in 0..run.sections.len() {
        ground(&mut layers, &plan, section);
    }
    for placed in &plan.rows {
        row(&mut layers, &plan, placed);
    }
    messages(&mut layers, &plan);
    let height = ending(&mut layers, &plan) + 10;
    let title = escape(&asked.title);
    let names = if alone {
        let about = format!("{} lines of the desk, from top to bottom, and what each did", run.lines.len());
        format!("<title>{}</title>\n<desc>{}</desc>\n", title, about)
    } else {
        String::new()
    };
    let role = if alone { " role=\"img\"" } else { "" };
    format!(
        "<svg xmlns=\"http://www.w3.org/2000/svg\" id=\"{id}\" width=\"{w}\" height=\"{h}\" viewBox=\"0 0 {w} {h}\"{role}>\n{names}\
         <style>\n{style}</style>\n\
         <defs><pattern id=\"{id}-hatch\" width=\"8\" height=\"8\" patternUnits=\"userSpaceOnUse\" patternTransform=\"rotate(45)\">\
         <rect width=\"8\" height=\"8\" class=\"ground\"/><line x1=\"2\" y1=\"0\" x2=\"2\" y2=\"8\" class=\"hatch\"/></pattern></defs>\n\
         <rect width=\"{w}\" height=\"{h}\" class=\"paper\"/>\n{ground}{stretches}{arrows}{marks}{text}</svg>\n",
        id = shape.id,
        w = plan.width,
        h = height,
        style = style::sheet(shape.id),
        ground = layers.ground,
        stretches = layers.stretches,
        arrows = layers.arrows,
        marks = layers.marks,
        text = layers.text,
    )
}

/// The title and what the marks mean. Says where the rows begin.
fn opening(layers: &mut Layers, run: &Run, asked: &Asked, shape: &Shape, width: i32) -> i32 {
    let mut y = 34;
    let whole = width - 2 * shape.margin;
    for part in wrap(&asked.title, Tone::Main, whole * 8 / 10) {
        layers.text += &text(shape.margin + 4, y, "big", &part);
        y += 28;
    }
    let how = "Time runs downwards. A column is a depot, a line in it one of its shelves. The number in a mark is the bearing.";
    for part in wrap(how, Tone::Thin, whole) {
        layers.text += &text(shape.margin + 4, y, "thin", &part);
        y += 20;
    }
    if let Some(only) = asked.filter.words(run.lines.len()) {
        for part in wrap(&only, Tone::Refused, whole) {
            layers.text += &text(shape.margin + 4, y + 4, "head", &part);
            y += 24;
        }
    }
    y += 14;
    let two = whole >= 560;
    let column = if two { whole / 2 } else { whole };
    let signs = signs(run, asked);
    for (i, (sign, meaning)) in (0..).zip(&signs) {
        let (x, down) = if two { (i % 2 * column, i / 2) } else { (0, i) };
        let (x, y) = (shape.margin + 4 + x, y + 30 * down);
        layers.ground += &sign_mark(shape, *sign, x + 22, y);
        layers.text += &text(x + 54, y + 5, "thin", meaning);
    }
    let rows = if two { (signs.len() as i32 + 1) / 2 } else { signs.len() as i32 };
    y + 30 * rows + 4
}

/// The bands of the depots and the lines of their shelves.
fn ground(layers: &mut Layers, plan: &Plan, section: usize) {
    let Some((top, bottom)) = plan.sections[section] else { return };
    let lanes = plan.lanes(section);
    for depot in (0..lanes.counts.depots).map(Depot) {
        let (x, width, height) = (lanes.depot(depot), lanes.depot_width(), bottom - top);
        layers.ground +=
            &format!("<rect x=\"{}\" y=\"{}\" width=\"{}\" height=\"{}\" rx=\"8\" class=\"band\"/>\n", x, top, width, height);
        for shelf in (0..lanes.counts.shelves).map(Shelf) {
            let x = lanes.shelf(depot, shelf);
            layers.ground += &line(point((x, top + 50)), point((x, bottom)), "life");
        }
    }
}

/// One row: its words, and the mark of its line.
fn row(layers: &mut Layers, plan: &Plan, placed: &Placed) {
    match placed.row {
        Row::Head(section) => head(layers, plan, section, placed.top),
        Row::Gap(start, end) => {
            let lines = if end - start == 1 { format!("line {}", end) } else { format!("lines {} to {}", start + 1, end) };
            let y = placed.top + 22;
            layers.ground +=
                &line(point((plan.shape.margin, placed.top)), point((plan.width - plan.shape.margin, placed.top)), "rule");
            layers.text += &text(plan.words, y, "thin", &format!("… {} not shown", lines));
        }
        Row::Line(at) => {
            layers.ground +=
                &line(point((plan.shape.margin, placed.top)), point((plan.width - plan.shape.margin, placed.top)), "rule");
            words_of(layers, plan, at, placed);
            mark_of(layers, plan, at);
        }
    }
}

/// The names of the depots and the numbers of their shelves.
fn head(layers: &mut Layers, plan: &Plan, section: usize, top: i32) {
    let lanes = plan.lanes(section);
    for depot in (0..lanes.counts.depots).map(Depot) {
        let (x, width) = (lanes.depot(depot), lanes.depot_width());
        // Above the stretches: they go on behind the names.
        layers.marks += &format!("<rect x=\"{}\" y=\"{}\" width=\"{}\" height=\"50\" class=\"band\"/>\n", x, top, width);
        layers.text +=
            &text(x + width / 2, top + 21, if width < 72 { "head thin-head mid" } else { "head mid" }, &depot.to_string());
        for shelf in (0..lanes.counts.shelves).map(Shelf) {
            layers.text += &text(lanes.shelf(depot, shelf), top + 43, "thin mid", &shelf.0.to_string());
        }
    }
    layers.text += &text(lanes.left - 2, top + 43, "number", "shelf");
}

/// The number of a line and the words beside it.
fn words_of(layers: &mut Layers, plan: &Plan, at: usize, placed: &Placed) {
    let line = &plan.run.lines[at];
    let texts = words::told(plan.run, line);
    let whole: Vec<&str> = texts.iter().map(|(_, text)| &text[..]).collect();
    let id = format!("{}{}", plan.shape.id, at + 1);
    layers.text += &format!("<g id=\"{}\" class=\"row\">\n<title>{}</title>\n", id, escape(&whole.join(". ")));
    let short = placed.height == SHORT;
    let first = placed.top + if short { 19 } else { 27 };
    layers.text += &text(plan.shape.margin + plan.shape.number - 8, first, "number", &(at + 1).to_string());
    let mut y = first;
    let texts = broken(&texts, plan.shape.words);
    if let ([(tone, words), (_, desk)], true) = (&texts[..], short) {
        layers.text += &text(plan.words, y, class(*tone), words);
        layers.text += &text(plan.width - plan.shape.margin, y, "desk number", desk);
    } else {
        for (tone, words) in &texts {
            layers.text += &text(plan.words, y, class(*tone), words);
            y += line_height(*tone);
        }
    }
    layers.text += "</g>\n";
}

/// The mark of a line in its lane; of one that has no lane, beside its words.
fn mark_of(layers: &mut Layers, plan: &Plan, at: usize) {
    let asked = &plan.run.lines[at];
    let (y, r) = (plan.marks[at].0, plan.shape.mark);
    let x = match (asked.place, asked.section) {
        (Some((depot, shelf)), Some(section)) => plan.lanes(section).shelf(depot, shelf),
        _ => plan.words - 15,
    };
    let marks = &mut layers.marks;
    if asked.refused.is_some() || asked.event == Event::Bad {
        let clear = circle(x, y, 11, "paper");
        *marks += &format!("<g class=\"no\" data-line=\"{}\">\n{}{}</g>\n", at + 1, clear, cross(x, y));
        return;
    }
    match &asked.event {
        Event::Setup { .. } | Event::Bad => {}
        Event::Write { bearing, .. } => {
            *marks += &numbered(&circle(x, y, half(r, bearing.0), "written"), x, y, "written-in", bearing.0);
        }
        Event::Read { bearing, .. } => *marks += &numbered(&diamond(x, y, half(r, bearing.0) + 4, "read"), x, y, "", bearing.0),
        Event::List { page, .. } => list(marks, plan, asked, page, y),
        Event::Tick { .. } => *marks += &circle(x, y, 4, "dot tick"),
        Event::Take { .. } => take(marks, plan, asked, x, y),
        Event::Refresh { .. } => *marks += &circle(x, y, 5, "read refresh"),
    }
}

/// The marks of a list: on each shelf that it reads a diamond with the first of its bearings there, and a bar from the first shelf to the last.
fn list(marks: &mut String, plan: &Plan, asked: &Line, page: &[(Bearing, Found)], y: i32) {
    let (Some((depot, _)), Some(section)) = (asked.place, asked.section) else { return };
    let lanes = plan.lanes(section);
    let shelf_of = |bearing: Bearing| Shelf(bearing.0 % lanes.counts.shelves);
    let mut firsts: Vec<Bearing> = Vec::new();
    for (bearing, _) in page {
        if firsts.iter().all(|first| shelf_of(*first) != shelf_of(*bearing)) {
            firsts.push(*bearing);
        }
    }
    let places: Vec<i32> = firsts.iter().map(|first| lanes.shelf(depot, shelf_of(*first))).collect();
    let [left, right] = [places.iter().min(), places.iter().max()].map(|x| x.copied().unwrap_or(0));
    *marks += &line(point((left - 20, y)), point((right + 20, y)), "page");
    for (first, x) in firsts.iter().zip(places) {
        *marks += &numbered(&diamond(x, y, half(plan.shape.mark, first.0) + 4, "read"), x, y, "", first.0);
    }
}

/// The mark of a take: a box with the bearing, or of a heartbeat a dot.
fn take(marks: &mut String, plan: &Plan, asked: &Line, x: i32, y: i32) {
    let copy = asked.took.and_then(|id| Some((id, plan.run.messages[id].copy?)));
    let Some((_, (bearing, _))) = copy else {
        *marks += &circle(x, y, 4, "dot heard");
        return;
    };
    let (r, aside) = (plan.shape.mark, half(plan.shape.mark, bearing.0));
    let square = format!(
        "<rect x=\"{}\" y=\"{}\" width=\"{}\" height=\"{}\" rx=\"4\" class=\"taken\"/>\n",
        x - aside,
        y - r + 1,
        2 * aside,
        2 * r - 2
    );
    *marks += &numbered(&square, x, y, "taken-in", bearing.0);
}

/// Who has what at the end, and the auditor's word. Says where the picture ends.
fn ending(layers: &mut Layers, plan: &Plan) -> i32 {
    let mut y = plan.bottom;
    let newest = plan.run.newest.iter().filter(|newest| plan.asked.filter.bearing.map_or(true, |only| only == newest.bearing));
    layers.text += &format!("<g id=\"{}-end\" class=\"end\">\n", plan.shape.id);
    let section = plan.run.sections.len().checked_sub(1);
    let rows: Vec<_> = newest.collect();
    if let (Some(section), false) = (section, rows.is_empty()) {
        y = heading(layers, plan, y + 6, "At the end: the newest of each bearing, and who has it");
        let lanes = plan.lanes(section);
        for newest in rows {
            let texts = broken(&[(Tone::Main, words::held(plan.run, newest))], plan.shape.words);
            layers.ground += &line(point((plan.shape.margin, y)), point((plan.width - plan.shape.margin, y)), "rule");
            for (depot, &has) in (0..).map(Depot).zip(&newest.has) {
                let x = lanes.depot(depot) + lanes.depot_width() / 2;
                let (class, inside) = if has { ("green has", "green-in") } else { ("lacks", "") };
                layers.marks += &numbered(
                    &circle(x, y + 20, half(plan.shape.mark, newest.bearing.0), class),
                    x,
                    y + 20,
                    inside,
                    newest.bearing.0,
                );
            }
            for (i, (_, part)) in (0..).zip(&texts) {
                layers.text += &text(plan.words, y + 26 + 23 * i, "main", part);
            }
            y += (height_of(&texts) + 16).max(40);
        }
    }
    if let Some(word) = &plan.run.word {
        y = heading(layers, plan, y, &format!("The auditor: {}", word));
    }
    layers.text += "</g>\n";
    y
}

/// A sentence over the whole width. Says where it ends.
fn heading(layers: &mut Layers, plan: &Plan, top: i32, words: &str) -> i32 {
    let parts = wrap(words, Tone::Refused, plan.width - 2 * plan.shape.margin - 8);
    for (i, part) in (0..).zip(&parts) {
        layers.text += &text(plan.shape.margin + 4, top + 28 + 24 * i, "head", part);
    }
    top + 16 + 24 * parts.len() as i32
}
