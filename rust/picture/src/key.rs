//! What the signs mean, for those that occur.

use crate::arguments::Asked;
use crate::plan::Shape;
use crate::run::{Event, Message, Run};
use crate::shapes::{arrow, circle, cross, diamond, line, numbered, point, stretch};

#[derive(Clone, Copy, PartialEq)]
pub enum Sign {
    Write,
    Copy,
    Waiting,
    Hidden,
    Shown,
    Lower,
    Read,
    Page,
    Refused,
    Beat,
    Refresh,
}

const KEY: [(Sign, &str); 11] = [
    (Sign::Write, "a crew writes"),
    (Sign::Copy, "its copy, on its way"),
    (Sign::Waiting, "a copy not yet taken"),
    (Sign::Hidden, "taken there, but hidden"),
    (Sign::Shown, "shown: readers find it"),
    (Sign::Lower, "a greater one stays"),
    (Sign::Read, "a crew reads"),
    (Sign::Page, "it reads a list at one moment"),
    (Sign::Refused, "refused: nothing changed"),
    (Sign::Beat, "a heartbeat: a clock's tick"),
    (Sign::Refresh, "a shelf is refreshed"),
];

/// The signs that the picture has.
pub fn signs(run: &Run, asked: &Asked) -> Vec<(Sign, &'static str)> {
    let lines = || run.lines.iter().enumerate().filter(move |(at, _)| asked.filter.shows(run, *at)).map(|(_, line)| line);
    let done = |of: fn(&Event) -> bool| lines().any(|line| line.refused.is_none() && of(&line.event));
    let took = || lines().filter_map(|line| line.took).map(move |id| &run.messages[id]);
    let showed = |kept: bool| lines().any(|line| line.showed.iter().any(|&id| run.messages[id].kept == kept));
    let waits = |message: &Message| {
        message.copy.is_some() && message.taken.is_none() && asked.filter.draws(message) && asked.filter.shows(run, message.sent)
    };
    let has = |sign: Sign| match sign {
        Sign::Write => done(|event| matches!(event, Event::Write { .. })),
        Sign::Copy | Sign::Hidden => took().any(|message| message.copy.is_some()),
        Sign::Waiting => run.messages.iter().any(waits),
        Sign::Shown => showed(true),
        Sign::Lower => showed(false),
        Sign::Read => done(|event| matches!(event, Event::Read { .. } | Event::List { .. })),
        Sign::Page => done(|event| matches!(event, Event::List { .. })),
        Sign::Refused => lines().any(|line| line.refused.is_some() || line.event == Event::Bad),
        Sign::Beat => done(|event| matches!(event, Event::Tick { .. })) || took().any(|message| message.copy.is_none()),
        Sign::Refresh => done(|event| matches!(event, Event::Refresh { .. })),
    };
    KEY.into_iter().filter(|(sign, _)| has(*sign)).collect()
}

/// A sign as it stands in the key.
pub fn sign_mark(shape: &Shape, sign: Sign, x: i32, y: i32) -> String {
    match sign {
        Sign::Write => numbered(&circle(x, y, 12, "written key"), x, y, "written-in", 0),
        Sign::Shown => numbered(&circle(x, y, 12, "green key"), x, y, "green-in", 0),
        Sign::Lower => numbered(&circle(x, y, 12, "lower key"), x, y, "", 0),
        Sign::Copy => arrow((x - 22, y - 6), (x + 20, y + 6), (0, 0), "copy", (10.0, "point")),
        Sign::Waiting => line(point((x - 22, y - 6)), point((x + 20, y + 6)), "waiting"),
        Sign::Beat => arrow((x - 22, y - 4), (x + 20, y + 4), (0, 0), "beat", (6.0, "dot")),
        Sign::Hidden => stretch(shape, x, y - 12, y + 12),
        Sign::Read => numbered(&diamond(x, y, 15, "read key"), x, y, "", 0),
        Sign::Page => line(point((x - 22, y)), point((x + 22, y)), "page key"),
        Sign::Refused => cross(x, y),
        Sign::Refresh => circle(x, y, 5, "read key"),
    }
}
