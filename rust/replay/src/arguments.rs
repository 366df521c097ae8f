//! What the command line of `replay` asks for.

use crate::slips::{slips, Slip};

pub const USAGE: &str = "\
usage: replay [EVENTS] [--seed FIRST] [--slip NAME]          EVENTS (200000), half as many damaged lines and damaged books
       replay --long [--seed FIRST] [--slip NAME]            10,000,000 events, 1,000,000 damaged lines and damaged books
       replay --damage [ROUNDS] [--seed FIRST] [--slip NAME] each word of a book damaged, for each call; 4 rounds a book (16)
       replay --lines FOLDER [COUNT] [--seed FIRST]          desk.in and desk.out, for a desk program";

/// What there is to do, at least.
#[derive(Debug, PartialEq)]
pub struct Goal {
    /// All events but damaged lines.
    pub events: u64,
    pub damaged_lines: u64,
    pub damaged_books: u64,
}

#[derive(Debug, PartialEq)]
pub enum Task {
    /// Random lists, then rounds of damage.
    Lists(Goal),
    /// So many rounds of damage.
    Damage(u64),
    /// Desk input and output in a folder, of so many lines.
    Lines(String, u64),
}

#[derive(Debug, PartialEq)]
pub struct Asked {
    pub task: Task,
    /// The first seed.
    pub seed: u64,
    /// A mistake to find, in place of the library.
    pub slip: Option<Slip>,
}

/// What the words ask for, or why they ask for nothing.
pub fn parse(words: impl IntoIterator<Item = String>) -> Result<Asked, String> {
    let (mut long, mut damage, mut folder, mut count, mut seed, mut slip) = (None, None, None, None, None, None);
    let mut words = words.into_iter();
    while let Some(word) = words.next() {
        let mut next = || words.next().ok_or(format!("nothing follows {}", word));
        match &word[..] {
            "--long" => once(&word, &mut long, ())?,
            "--damage" => once(&word, &mut damage, ())?,
            "--lines" => once(&word, &mut folder, next()?)?,
            "--seed" => once(&word, &mut seed, number(&next()?)?)?,
            "--slip" => once(&word, &mut slip, slip_named(&next()?)?)?,
            _ => match number(&word)? {
                0 => return Err("0 is nothing to do".to_string()),
                more => once(&word, &mut count, more)?,
            },
        }
    }
    let task = match (long, damage, folder, count) {
        (None, None, None, count) => {
            let events = count.unwrap_or(200_000);
            Task::Lists(Goal { events, damaged_lines: events / 2, damaged_books: events / 2 })
        }
        (Some(()), None, None, None) => {
            Task::Lists(Goal { events: 10_000_000, damaged_lines: 1_000_000, damaged_books: 1_000_000 })
        }
        (None, Some(()), None, count) => Task::Damage(count.unwrap_or(16)),
        (None, None, Some(folder), count) if slip.is_none() => Task::Lines(folder, count.unwrap_or(200_000)),
        _ => return Err("these do not go together".to_string()),
    };
    Ok(Asked { task, seed: seed.unwrap_or(1), slip })
}

/// Keeps what a word says, if nothing has said it before.
fn once<T>(word: &str, place: &mut Option<T>, value: T) -> Result<(), String> {
    match place.replace(value) {
        None => Ok(()),
        Some(_) => Err(format!("{} is one too many", word)),
    }
}

fn number(word: &str) -> Result<u64, String> {
    word.parse().map_err(|_| format!("{} is no number", word))
}

fn slip_named(name: &str) -> Result<Slip, String> {
    let names = || slips().iter().map(Slip::to_string).collect::<Vec<_>>().join(" ");
    slips().into_iter().find(|slip| slip.to_string() == name).ok_or_else(|| format!("the slips are {}", names()))
}
