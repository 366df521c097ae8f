//! Which lines of a run are shown: those of a bearing, of a depot, from one line to another.

use depot_register::{Bearing, Depot};

use crate::run::{Event, Line, Message, Run};

#[derive(Clone, Debug, Default, PartialEq, Eq)]
pub struct Filter {
    pub bearing: Option<Bearing>,
    pub depot: Option<Depot>,
    /// The first and the last line, counted from 1.
    pub lines: Option<(usize, usize)>,
}

impl Filter {
    /// Whether the line at this place, counted from 0, is shown.
    pub fn shows(&self, run: &Run, at: usize) -> bool {
        let line = &run.lines[at];
        let within = self.lines.map_or(true, |(first, last)| (first..=last).contains(&(at + 1)));
        let setup = matches!(line.event, Event::Setup { .. }) && line.refused.is_none();
        let bearing = self.bearing.map_or(true, |bearing| concerns(run, line, bearing));
        let depot = self.depot.map_or(true, |depot| happens_at(line, depot));
        within && (setup || bearing && depot)
    }

    /// What is shown, in words, of a run of so many lines; nothing if that is all.
    pub fn words(&self, lines: usize) -> Option<String> {
        let bearing = self.bearing.map(|bearing| bearing.to_string());
        let depot = self.depot.map(|depot| depot.to_string());
        let range = self.lines.map(|(first, last)| format!("lines {} to {}", first, last));
        let only: Vec<String> = [bearing, depot, range].into_iter().flatten().collect();
        (!only.is_empty()).then(|| format!("Only {}. The run has {} lines.", only.join(", "), lines))
    }

    /// Whether the message is drawn, if its lines are shown.
    pub fn draws(&self, message: &Message) -> bool {
        let bearing = self.bearing.map_or(true, |bearing| message.copy.is_some_and(|(copied, _)| copied == bearing));
        bearing && self.depot.map_or(true, |depot| message.link.from == depot || message.link.to == depot)
    }
}

/// A line that writes or reads the bearing, takes a copy of it, or shows one.
fn concerns(run: &Run, line: &Line, bearing: Bearing) -> bool {
    let asked = line.event.reads(bearing) || matches!(line.event, Event::Write { bearing: written, .. } if written == bearing);
    let copies = |id: &usize| run.messages[*id].copy.is_some_and(|(copied, _)| copied == bearing);
    asked || line.took.iter().chain(&line.showed).any(copies)
}

/// A line that happens at the depot, or takes what it sent.
fn happens_at(line: &Line, depot: Depot) -> bool {
    let sent = matches!(line.event, Event::Take { from, .. } if from == depot);
    sent || line.place.is_some_and(|(at, _)| at == depot)
}
