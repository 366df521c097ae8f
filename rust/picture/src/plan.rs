//! Where everything stands: the lanes of the shelves, the rows of the lines, and their heights.

use depot_register::{Counts, Depot, Shelf};

use crate::arguments::Asked;
use crate::lettering::{broken, height_of, in_one};
use crate::run::Run;
use crate::words;

/// The measures of a picture, in points.
pub struct Shape {
    pub id: &'static str,
    /// The width of a shelf's lane, at least, and the room between depots.
    pub lane: i32,
    pub between: i32,
    /// The width of the line numbers and of the words.
    pub number: i32,
    pub words: i32,
    /// Half the width of a mark.
    pub mark: i32,
    pub margin: i32,
}

/// For a desk.
pub const DESK: Shape = Shape { id: "d", lane: 46, between: 14, number: 52, words: 372, mark: 13, margin: 10 };
/// For a telephone.
pub const PHONE: Shape = Shape { id: "n", lane: 31, between: 6, number: 38, words: 200, mark: 12, margin: 4 };

/// After so many rows the names of the depots stand again.
const AGAIN: usize = 40;
/// The height of a row of small weight.
pub const SHORT: i32 = 28;

/// Where the lanes of a register are.
#[derive(Clone, Copy)]
pub struct Lanes {
    pub counts: Counts,
    pub left: i32,
    pub lane: i32,
    pub between: i32,
}

impl Lanes {
    pub fn new(shape: &Shape, counts: Counts) -> Lanes {
        // A depot's name has room above its shelves.
        let lane = shape.lane.max(72 / counts.shelves as i32);
        Lanes { counts, left: shape.margin + shape.number, lane, between: shape.between }
    }

    pub fn depot_width(&self) -> i32 {
        self.lane * self.counts.shelves as i32
    }

    pub fn depot(&self, depot: Depot) -> i32 {
        self.left + self.between / 2 + depot.0 as i32 * (self.depot_width() + self.between)
    }

    /// The middle of a shelf's lane.
    pub fn shelf(&self, depot: Depot, shelf: Shelf) -> i32 {
        self.depot(depot) + shelf.0 as i32 * self.lane + self.lane / 2
    }

    pub fn right(&self) -> i32 {
        self.depot(Depot(self.counts.depots))
    }
}

/// What stands in a row.
pub enum Row {
    /// The names of the depots of a section.
    Head(usize),
    Line(usize),
    /// So many lines that are not shown.
    Gap(usize, usize),
}

pub struct Placed {
    pub row: Row,
    pub top: i32,
    pub height: i32,
}

/// Where everything stands.
pub struct Plan<'a> {
    pub run: &'a Run,
    pub asked: &'a Asked,
    pub shape: &'a Shape,
    pub rows: Vec<Placed>,
    /// For each line the height of its mark, and whether it is shown.
    pub marks: Vec<(i32, bool)>,
    /// For each section its top and bottom, if any of it is shown.
    pub sections: Vec<Option<(i32, i32)>>,
    /// The left edge of the words, and the width of all.
    pub words: i32,
    pub width: i32,
    pub bottom: i32,
}

impl<'a> Plan<'a> {
    pub fn new(run: &'a Run, asked: &'a Asked, shape: &'a Shape, top: i32) -> Plan<'a> {
        let shown: Vec<bool> = (0..run.lines.len()).map(|at| asked.filter.shows(run, at)).collect();
        let (words, width) = (words_edge(run, shape), width(run, shape));
        let (marks, sections) = (vec![(top, false); run.lines.len()], vec![None; run.sections.len()]);
        let mut plan = Plan { run, asked, shape, rows: Vec::new(), marks, sections, words, width, bottom: top };
        let mut since = 0;
        let mut at = 0;
        while at < run.lines.len() {
            if !shown[at] {
                let end = (at..run.lines.len()).find(|&later| shown[later]).unwrap_or(run.lines.len());
                plan.gap(at, end);
                at = end;
                continue;
            }
            let section = run.lines[at].section;
            if let Some(section) = section.filter(|&section| plan.sections[section].is_none() || since >= AGAIN) {
                plan.add(Row::Head(section), 52);
                since = 0;
            }
            plan.line(at);
            since += 1;
            at += 1;
        }
        plan
    }

    fn add(&mut self, row: Row, height: i32) {
        let section = match row {
            Row::Head(section) => Some(section),
            Row::Line(at) => self.run.lines[at].section,
            // A gap belongs to the section of its first line, if that is drawn already.
            Row::Gap(at, _) => self.run.lines[at].section.filter(|&section| self.sections[section].is_some()),
        };
        if let Some(section) = section {
            let top = self.sections[section].map_or(self.bottom, |(top, _)| top);
            self.sections[section] = Some((top, self.bottom + height));
        }
        self.rows.push(Placed { row, top: self.bottom, height });
        self.bottom += height;
    }

    fn gap(&mut self, start: usize, end: usize) {
        self.marks[start..end].fill((self.bottom + 17, false));
        self.add(Row::Gap(start, end), 34);
    }

    fn line(&mut self, at: usize) {
        let line = &self.run.lines[at];
        let texts = broken(&words::told(self.run, line), self.shape.words);
        let levels = i32::from(!line.showed.is_empty());
        let height = if in_one(&texts, self.shape) { SHORT } else { (height_of(&texts) + 16).max(42 + levels * 30) };
        self.marks[at] = (self.bottom + if height == SHORT { 14 } else { 21 + 30 * levels }, true);
        self.add(Row::Line(at), height);
    }

    /// The height of what a line shows, which comes before its mark.
    pub fn shown_at(&self, at: usize) -> i32 {
        let (mark, shown) = self.marks[at];
        if shown {
            mark - 30
        } else {
            mark
        }
    }

    pub fn lanes(&self, section: usize) -> Lanes {
        Lanes::new(self.shape, self.run.sections[section].counts)
    }
}

/// The left edge of the words.
pub fn words_edge(run: &Run, shape: &Shape) -> i32 {
    let rights = run.sections.iter().map(|section| Lanes::new(shape, section.counts).right());
    rights.max().unwrap_or(shape.margin + shape.number + 24) + 12
}

/// The width of a picture.
pub fn width(run: &Run, shape: &Shape) -> i32 {
    words_edge(run, shape) + shape.words + shape.margin
}
