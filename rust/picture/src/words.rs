//! The run in plain words: dates, cards, refusals, and the bytes of a line that may be anything.

use depot_register::calendar::date_of;
use depot_register::{Bearing, Card, Depot, Refusal};

use crate::run::{Event, Found, Line, Newest, Run};

/// How a piece of text is set.
#[derive(Clone, Copy, Debug, PartialEq, Eq)]
pub enum Tone {
    /// What a line does.
    Main,
    /// The same of a line of small weight: a tick, a heartbeat taken, a refresh that shows nothing.
    Thin,
    Refused,
    Hidden,
    Shown,
    /// The line and its answer as the desk has them.
    Desk,
}

const MONTHS: [&str; 12] = ["Jan", "Feb", "Mar", "Apr", "May", "Jun", "Jul", "Aug", "Sep", "Oct", "Nov", "Dec"];

/// A value as the date that it is, by the register's calendar.
pub fn date(value: u32) -> String {
    match date_of(value) {
        Ok(date) => format!("{}\u{a0}{}\u{a0}{}", date.day, MONTHS[(date.month - 1) as usize], date.year),
        Err(_) => format!("day {}", value),
    }
}

/// A length or a weight: two places at most, or with an exponent if it is small.
fn measure(value: f64) -> String {
    if value != 0.0 && value.abs() < 0.01 {
        return format!("{:.1e}", value);
    }
    let text = format!("{:.2}", value);
    text.trim_end_matches('0').trim_end_matches('.').to_string()
}

/// A card with the grams of grease for it.
pub fn card(card: Card) -> String {
    let [diameter, width] = [card.diameter, card.width].map(|length| measure(f64::from(length)));
    match card.grams() {
        Ok(grams) => format!("{}\u{a0}×\u{a0}{}\u{a0}mm, {}\u{a0}g", diameter, width, measure(grams)),
        Err(_) => format!("{}\u{a0}×\u{a0}{}\u{a0}mm", diameter, width),
    }
}

/// Any bytes as text: those of plain text as they are, all others by number; a long line is cut.
pub fn plain(bytes: &[u8]) -> String {
    const MOST: usize = 60;
    let mut text = String::new();
    for &byte in bytes.iter().take(MOST) {
        match byte {
            b'\\' => text += "\\\\",
            b' '..=b'~' => text.push(char::from(byte)),
            _ => text += &format!("\\x{:02x}", byte),
        }
    }
    if bytes.len() > MOST {
        text += &format!("… ({} bytes)", bytes.len());
    }
    text
}

/// The name of a refusal, its number and what it means.
pub fn refusal(number: u32) -> String {
    match Refusal::of_number(number) {
        Some(refusal) => format!("{} ({}): {}", refusal.name(), number, refusal),
        None if number == 13 => "BAD LINE (13): no line of the desk".to_string(),
        None => format!("refusal {}", number),
    }
}

/// Whether the line is of small weight.
pub fn thin(run: &Run, line: &Line) -> bool {
    let nothing_shown = line.refused.is_none() && line.showed.is_empty();
    nothing_shown
        && match line.event {
            Event::Tick { .. } | Event::Refresh { .. } => true,
            Event::Take { .. } => line.took.is_some_and(|id| run.messages[id].copy.is_none()),
            _ => false,
        }
}

/// What is written beside a line's marks.
pub fn told(run: &Run, line: &Line) -> Vec<(Tone, String)> {
    let tone = if thin(run, line) { Tone::Thin } else { Tone::Main };
    let mut texts = match line.event {
        Event::Bad if line.refused.is_none() => vec![(Tone::Refused, "A line not known here".to_string())],
        Event::Bad => Vec::new(),
        _ => vec![(tone, doing(run, line))],
    };
    let named = |ids: &[usize]| ids.iter().map(|&id| from_line(run, id)).collect::<Vec<_>>().join(", ");
    if !line.hidden.is_empty() {
        texts.push((Tone::Hidden, format!("Hidden here: {}", named(&line.hidden))));
    }
    let (kept, lower): (Vec<usize>, Vec<usize>) = line.showed.iter().partition(|&&id| run.messages[id].kept);
    if !kept.is_empty() {
        texts.push((Tone::Shown, format!("Now shown: {}", named(&kept))));
    }
    if !lower.is_empty() {
        texts.push((Tone::Shown, format!("Compared, and a greater one stays: {}", named(&lower))));
    }
    if let Some(number) = line.refused {
        texts.push((Tone::Refused, format!("Refused: {}", refusal(number))));
    }
    let text = if line.text.is_empty() { "(empty)".to_string() } else { plain(&line.text) };
    texts.push((Tone::Desk, format!("{} → {}", text, plain(line.answer.as_bytes()))));
    texts
}

/// A copy, named by its bearing and the line that wrote it.
fn from_line(run: &Run, id: usize) -> String {
    let message = &run.messages[id];
    match message.copy {
        Some((bearing, _)) => format!("{} of line\u{a0}{}", bearing, message.sent + 1),
        None => format!("the tick of line\u{a0}{}", message.sent + 1),
    }
}

/// What a line does, or asks for if it is refused.
fn doing(run: &Run, line: &Line) -> String {
    let done = line.refused.is_none();
    match &line.event {
        Event::Setup { counts, homes } if done => {
            let [depots, shelves] = [(counts.depots, "depot"), (counts.shelves, "shelf")].map(counted);
            let [bearings, crews] = [(counts.bearings, "bearing"), (counts.crews, "crew")].map(counted);
            format!("A fresh register: {}, {} each, {}, {}. At home: {}", depots, shelves, bearings, crews, at_home(homes))
        }
        Event::Setup { .. } => "A setup".to_string(),
        Event::Read { crew, bearing, .. } if !done => format!("Crew {} asks for {}", crew.0, bearing),
        Event::Read { crew, bearing, answer } => format!("Crew {} reads {}", crew.0, finding(bearing, answer)),
        Event::List { crew, page } if !done => format!("Crew {} asks for {} at one moment", crew.0, listed(page)),
        Event::List { crew, page } => {
            let findings: Vec<String> = page.iter().map(|(bearing, answer)| finding(bearing, answer)).collect();
            format!("Crew {} reads at one moment {}", crew.0, findings.join(". And "))
        }
        Event::Write { crew, bearing, value, card: size, superseded } => {
            let verb = if done { "writes" } else { "would write" };
            let stays = if *superseded { "; superseded: a greater one stays" } else { "" };
            format!("Crew {} {} {}: {}; {}{}", crew.0, verb, bearing, date(*value), card(*size), stays)
        }
        Event::Tick { depot, shelf } if !done => format!("Depot {}, {} would tick", depot.0, shelf),
        Event::Tick { depot, shelf } => format!("Depot {}, {} ticks", depot.0, shelf),
        Event::Take { depot, shelf, from } => match line.took {
            Some(id) => format!("Depot {} takes {}", depot.0, from_line(run, id)),
            None => format!("Depot {}, {} would take from {}", depot.0, shelf, from),
        },
        Event::Refresh { depot, shelf } => format!("Depot {}, {} is refreshed", depot.0, shelf),
        Event::Bad => String::new(),
    }
}

/// A bearing and what a read of it was told.
fn finding(bearing: &Bearing, answer: &Found) -> String {
    match answer {
        Some((value, size)) => format!("{}: {}; {}", bearing, date(*value), card(*size)),
        None => format!("{}: unwritten", bearing),
    }
}

/// The bearings of a page.
fn listed(page: &[(Bearing, Found)]) -> String {
    if page.is_empty() {
        return "no bearings".to_string();
    }
    page.iter().map(|(bearing, _)| bearing.to_string()).collect::<Vec<_>>().join(", ")
}

/// Which crews are at home where.
fn at_home(homes: &[Depot]) -> String {
    let mut depots = homes.to_vec();
    depots.sort();
    depots.dedup();
    let crews = |depot: &Depot| {
        let crews: Vec<String> =
            (0..).zip(homes).filter(|(_, home)| *home == depot).map(|(crew, _): (u32, _)| crew.to_string()).collect();
        let word = if crews.len() == 1 { "crew" } else { "crews" };
        format!("{} {} in {}", word, crews.join(" "), depot)
    };
    depots.iter().map(crews).collect::<Vec<_>>().join(", ")
}

fn counted((count, what): (u32, &str)) -> String {
    match (count, what) {
        (1, _) => format!("1 {}", what),
        (_, "shelf") => format!("{} shelves", count),
        _ => format!("{} {}s", count, what),
    }
}

/// A line of the end: who has the newest version of a bearing, and where it is for the others.
pub fn held(run: &Run, newest: &Newest) -> String {
    let what = format!("Bearing {}: {}", newest.bearing.0, date(newest.version.value));
    let lacks: Vec<String> =
        (0..).zip(&newest.has).filter(|(_, &has)| !has).map(|(x, _)| lacking(run, newest, Depot(x))).collect();
    if lacks.is_empty() {
        return format!("{}. Everybody has it", what);
    }
    let has: Vec<String> = (0..).zip(&newest.has).filter(|(_, &has)| has).map(|(x, _)| Depot(x).to_string()).collect();
    format!("{}. With {}; {}", what, has.join(", "), lacks.join("; "))
}

/// Where the newest version is for a depot that does not store it.
fn lacking(run: &Run, newest: &Newest, depot: Depot) -> String {
    let of = |bearing: Bearing| bearing == newest.bearing;
    let sent = run.messages.iter().rev().find(|message| {
        let from = message.link.from == newest.version.origin && message.stamp == newest.version.stamp;
        from && message.link.to == depot && message.copy.is_some_and(|(bearing, _)| of(bearing))
    });
    match sent {
        Some(message) if message.taken.is_some() => format!("hidden at {}", depot),
        _ => format!("on its way to {}", depot),
    }
}
