//! The shortest list that tells two registers apart.

use std::time::{Duration, Instant};

use crate::compare::{differs, Finding};
use crate::event::{Event, Step};
use crate::register::Register;
use straight::layout::{held, slot, stored, taken, ROOM, WORDS};

/// The shortest list it can find that still shows a difference, within the time given: events are removed, then words of
/// laid books and bytes of lines, then numbers are lowered, until nothing more can be.
pub fn shrink(left: &dyn Register, right: &dyn Register, finding: Finding, time: Duration) -> Finding {
    let end = Instant::now() + time;
    let mut best = Shrinking { left, right, steps: finding.steps, end };
    best.steps.truncate(finding.difference.step + 1);
    loop {
        let before = best.steps.clone();
        best.remove_steps();
        for at in 0..best.steps.len() {
            best.clear_records(at);
            best.empty_links(at);
            best.shorten(at);
            best.lower(at);
        }
        if best.steps == before || Instant::now() > end {
            break;
        }
    }
    let difference = differs(left, right, &best.steps).expect("a shrunk list shows the difference");
    Finding { seed: finding.seed, steps: best.steps, difference }
}

struct Shrinking<'a> {
    left: &'a dyn Register,
    right: &'a dyn Register,
    steps: Vec<Step>,
    end: Instant,
}

impl Shrinking<'_> {
    /// Keeps the list if it still shows a difference, cut off behind it.
    fn keep(&mut self, mut steps: Vec<Step>) -> bool {
        if Instant::now() > self.end {
            return false;
        }
        match differs(self.left, self.right, &steps) {
            Some(difference) => {
                steps.truncate(difference.step + 1);
                self.steps = steps;
                true
            }
            None => false,
        }
    }

    fn remove_steps(&mut self) {
        let mut size = self.steps.len() / 2;
        while size > 0 {
            let mut at = 0;
            while at < self.steps.len() {
                let mut steps = self.steps.clone();
                steps.drain(at..(at + size).min(steps.len()));
                if !self.keep(steps) {
                    at += size;
                }
            }
            size /= 2;
        }
    }

    /// Makes stored versions of a laid book unwritten: all of a depot, else one by one.
    fn clear_records(&mut self, at: usize) {
        for depot in 0..4 {
            self.keep_laid(at, |book| book[stored(depot, 0)..stored(depot, 160)].fill(0));
            for bearing in 0..160 {
                self.keep_laid(at, |book| book[stored(depot, bearing)..stored(depot, bearing + 1)].fill(0));
            }
        }
    }

    /// Takes messages off the links of a laid book: all of a link, else one by one.
    fn empty_links(&mut self, at: usize) {
        for link in 0..64 {
            self.keep_laid(at, |book| {
                book[held(link)..held(link) + 2].fill(0);
                book[slot(link, 0)..slot(link + 1, 0)].fill(0);
            });
            for place in (0..ROOM as usize).rev() {
                self.keep_laid(at, |book| {
                    let count = book[held(link)].min(ROOM) as usize;
                    if place < count {
                        book.copy_within(slot(link, place + 1)..slot(link, count), slot(link, place));
                        book[slot(link, count - 1)..slot(link, count)].fill(0);
                        book[held(link)] -= 1;
                        book[taken(link)] -= u32::from(place < book[taken(link)] as usize);
                    }
                });
            }
        }
    }

    /// Keeps a change of a laid book, if there is one and it still shows a difference.
    fn keep_laid(&mut self, at: usize, change: impl Fn(&mut [u32])) {
        let words = match self.steps.get(at).map(|step| &step.event) {
            Some(Event::Lay(words)) => words,
            _ => return,
        };
        let mut book = vec![0; WORDS];
        words.iter().for_each(|&(at, word)| book[at as usize] = word);
        change(&mut book);
        let changed: Vec<(u16, u32)> = (0..WORDS).filter(|&at| book[at] != 0).map(|at| (at as u16, book[at])).collect();
        if changed != *words {
            let mut steps = self.steps.clone();
            steps[at].event = Event::Lay(changed);
            self.keep(steps);
        }
    }

    /// Takes away words of a laid book, bytes of a line, crews of a setup, bearings of a list, and odd lengths.
    fn shorten(&mut self, at: usize) {
        let mut size = length(self.steps.get(at)) / 2 + 1;
        while size > 0 {
            let mut from = 0;
            while from < length(self.steps.get(at)) {
                let mut steps = self.steps.clone();
                match &mut steps[at].event {
                    Event::Lay(words) => drop(words.drain(from..(from + size).min(words.len()))),
                    Event::Line(text) => drop(text.drain(from..(from + size).min(text.len()))),
                    Event::List { bearings, .. } => drop(bearings.drain(from..(from + size).min(bearings.len()))),
                    Event::Setup { counts, homes } => {
                        let as_many = counts[3] as usize == homes.len();
                        homes.drain(from..(from + size).min(homes.len()));
                        if as_many {
                            counts[3] = homes.len() as u32;
                        }
                    }
                    _ => return,
                }
                if !self.keep(steps) {
                    from += size;
                }
            }
            size /= 2;
        }
        if let Some(step) = self.steps.get(at) {
            let plain = Step::new(step.event.clone());
            if *step != plain {
                let mut steps = self.steps.clone();
                steps[at] = plain;
                self.keep(steps);
            }
        }
    }

    /// Lowers each number of a step.
    fn lower(&mut self, at: usize) {
        let mut which = 0;
        while at < self.steps.len() {
            let number = match numbers(&mut self.steps[at].event).get(which) {
                Some(number) => **number,
                None => return,
            };
            // By all of it, by all but one, by a half, by a quarter, and so on.
            let less = |part: u32| number.checked_shr(part).filter(|&by| by > 0);
            let by = less(0).into_iter().chain(number.checked_sub(1)).chain((1..32).filter_map(less));
            let lowered = by.filter(|&by| by > 0).any(|by| {
                let mut steps = self.steps.clone();
                *numbers(&mut steps[at].event)[which] = number - by;
                self.keep(steps)
            });
            if !lowered {
                which += 1;
            }
        }
    }
}

/// How much of a step can be taken away.
fn length(step: Option<&Step>) -> usize {
    match step.map(|step| &step.event) {
        Some(Event::Lay(words)) => words.len(),
        Some(Event::Line(text)) => text.len(),
        Some(Event::Setup { homes, .. }) => homes.len(),
        Some(Event::List { bearings, .. }) => bearings.len(),
        _ => 0,
    }
}

/// The numbers of an event that can be lowered.
fn numbers(event: &mut Event) -> Vec<&mut u32> {
    match event {
        Event::Lay(words) => words.iter_mut().map(|(_, word)| word).collect(),
        Event::Put { word, .. } => vec![word],
        Event::Setup { counts, homes } => counts.iter_mut().chain(homes).collect(),
        Event::Read { crew, bearing } => vec![crew, bearing],
        Event::Write { crew, bearing, value, card } => vec![crew, bearing, value].into_iter().chain(card).collect(),
        Event::Grams { card } => card.iter_mut().collect(),
        Event::Tick { depot, shelf } | Event::Refresh { depot, shelf } => vec![depot, shelf],
        Event::Take { depot, shelf, from } => vec![depot, shelf, from],
        Event::Move { crew, depot } => vec![crew, depot],
        Event::List { crew, bearings } => std::iter::once(crew).chain(bearings).collect(),
        Event::Greater { a, b, depots } => a.iter_mut().chain(b).chain(Some(depots)).collect(),
        Event::Fit | Event::Line(_) => Vec::new(),
    }
}
