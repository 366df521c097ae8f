//! One damaged word, in every place of a book and for every call.
//!
//! Both registers have to answer alike and to leave alike books. Besides, a damaged word that the call does not look at has
//! no effect: the answer is the same as without it, and if the call does not write there either, the word stays as it is
//! and every other word is the same.

use std::fmt;

use crate::books::{counts, lay, setup};
use crate::compare::{differs, Finding};
use crate::event::{Event, Outcome, Step, BUFFER};
use crate::lines;
use crate::parts::{looks, pieces, Call, Named};
use crate::random::Random;
use crate::register::{Register, Straight};
use crate::values;
use straight::calendar::LAST_DAY;
use straight::layout::*;
use straight::Counts;

/// The ways in which a word is damaged: out of every range, just out of the range of stamps, 0, and one more.
pub const WAYS: usize = 4;
/// The kinds of books that the rounds go over.
pub const KINDS: usize = 4;

fn spoilt(way: usize, word: u32) -> u32 {
    [u32::MAX, END + 1, 0, word.wrapping_add(1)][way]
}

/// What a round found.
pub enum Trouble {
    /// The two registers differ.
    Differ(Finding),
    /// A damaged word has an effect that it must not have.
    Effect(String),
}

/// A call of a round: the step, and the event that it is or, for a line, asks for.
struct Called {
    step: Step,
    event: Event,
}

/// How many damaged books the calls of each kind met, and what came of it.
#[derive(Default)]
pub struct Damaged {
    pub books: u64,
    rows: Vec<(&'static str, [u64; 3])>,
}

impl Damaged {
    /// The damaged books that a call met, those that it answered with BAD BOOK, and those whose damage had no effect.
    pub fn of(&self, name: &str) -> [u64; 3] {
        self.rows.iter().find(|row| row.0 == name).map_or([0; 3], |row| row.1)
    }

    fn count(&mut self, name: &'static str, bad: bool, no_effect: bool) {
        self.books += 1;
        if !self.rows.iter().any(|row| row.0 == name) {
            self.rows.push((name, [0; 3]));
        }
        let row = self.rows.iter_mut().find(|row| row.0 == name).expect("the row is there");
        row.1[0] += 1;
        row.1[1] += u64::from(bad);
        row.1[2] += u64::from(no_effect);
    }
}

impl fmt::Display for Damaged {
    fn fmt(&self, f: &mut fmt::Formatter<'_>) -> fmt::Result {
        writeln!(f, "{:<16}{:>12}{:>12}{:>12}", "damaged books", "met", "BAD BOOK", "no effect")?;
        self.rows.iter().try_for_each(|(name, row)| writeln!(f, "{:<16}{:>12}{:>12}{:>12}", name, row[0], row[1], row[2]))
    }
}

/// One round: the book of a seed, damaged in every place in one way, for every call. The ways go round with the seed, then the
/// kinds of books. `look` sees the damaged books that have been met so far.
pub fn round(
    left: &dyn Register,
    right: &dyn Register,
    seed: u64,
    damaged: &mut Damaged,
    look: &mut dyn FnMut(u64),
) -> Result<(), Trouble> {
    let way = (seed % WAYS as u64) as usize;
    let mut random = Random::new(seed / WAYS as u64);
    let kind = (seed / WAYS as u64 % KINDS as u64) as usize;
    let book = book(&mut random, kind);
    for called in calls(&mut random, &book, kind) {
        one_call(left, right, seed, way, &book, &called, damaged)?;
        look(damaged.books);
    }
    Ok(())
}

/// A fit book: laid at random, the largest one or any; or reached by calls, in a small register or any.
fn book(random: &mut Random, kind: usize) -> Vec<u32> {
    let mut book = vec![0; BUFFER];
    let first = match kind {
        0 => lay(random, [MOST_DEPOTS, MOST_SHELVES, MOST_BEARINGS, MOST_CREWS]),
        1 => Event::Setup { counts: [2, 2, 4, 2], homes: vec![0, 1] },
        2 => {
            let counts = counts(random);
            lay(random, counts)
        }
        _ => setup(random),
    };
    Step::new(first).run(&Straight, &mut book);
    if kind % 2 == 1 {
        // More is sent than taken, and more taken than shown.
        let n = Counts::of(&book);
        for _ in 0..40 * n.depots * n.shelves {
            let kind = random.choose(&[0, 1, 1, 1, 1, 2, 2, 3, 3, 3, 3, 4]);
            Step::new(event(random, n, kind)).run(&Straight, &mut book);
        }
    }
    book
}

/// A call with numbers in range: a read, a write, a tick, a take, a refresh, a move or a list.
fn event(random: &mut Random, n: Counts, kind: usize) -> Event {
    let below = |random: &mut Random, count: usize| random.below(count) as u32;
    let (crew, bearing) = (below(random, n.crews), below(random, n.bearings));
    let (depot, shelf, from) = (below(random, n.depots), below(random, n.shelves), below(random, n.depots));
    match kind {
        0 => Event::Read { crew, bearing },
        1 => {
            let value = below(random, 100);
            let length = |by: u32| values::LENGTHS[by as usize % values::LENGTHS.len()];
            Event::Write { crew, bearing, value, card: [length(value), length(bearing)] }
        }
        2 => Event::Tick { depot, shelf },
        3 => Event::Take { depot, shelf, from },
        4 => Event::Refresh { depot, shelf },
        5 => Event::Move { crew, depot },
        _ => Event::List { crew, bearings: [bearing].into_iter().chain((0..2).map(|_| below(random, n.bearings))).collect() },
    }
}

/// For a book, each call once, done if there is one that can be; one with a number out of range, and a list that is refused,
/// by the kind of the book; the writes of a day beyond the calendar and of no card; and a line.
fn calls(random: &mut Random, book: &[u32], kind: usize) -> Vec<Called> {
    let n = Counts::of(book);
    let done = |event: &Event| Step::new(event.clone()).run(&Straight, &mut book.to_vec()).number == 0;
    let mut events: Vec<Event> = (0..7)
        .map(|kind| {
            let mut found = event(random, n, kind);
            for _ in 0..200 {
                if done(&found) {
                    break;
                }
                found = event(random, n, kind);
            }
            found
        })
        .collect();
    events.push(setup(random));
    events.push(Event::Fit);
    events.push(match kind {
        0 => Event::Read { crew: 0, bearing: n.bearings as u32 },
        1 => Event::Take { depot: 0, shelf: 0, from: 0 },
        2 => Event::Move { crew: 0, depot: n.depots as u32 },
        _ => Event::Tick { depot: 0, shelf: n.shelves as u32 },
    });
    let bearings = [vec![0; 9], vec![0, n.bearings as u32], Vec::new()];
    events.push(Event::List { crew: 0, bearings: bearings[kind % 3].clone() });
    if let Event::Write { crew, bearing, card, .. } = events[1] {
        events.push(Event::Write { crew, bearing, value: LAST_DAY + 1, card });
        events.push(Event::Write { crew, bearing, value: LAST_DAY, card: [card[0], 0] });
    }
    let line = random.choose(&[0, 1, 2, 3, 4, 6]);
    let text = lines::text(&events[line]);
    let mut calls: Vec<Called> =
        events.iter().map(|event| Called { step: Step::new(event.clone()), event: event.clone() }).collect();
    calls.push(Called { step: Step::new(Event::Line(text)), event: events[line].clone() });
    calls
}

fn name(called: &Called) -> &'static str {
    match called.step.event {
        Event::Setup { .. } => "setup",
        Event::Read { .. } => "read",
        Event::Write { .. } => "write",
        Event::Tick { .. } => "tick",
        Event::Take { .. } => "take",
        Event::Refresh { .. } => "refresh",
        Event::Move { .. } => "move",
        Event::List { .. } => "list",
        Event::Fit => "is_fit",
        _ => "line",
    }
}

/// The words that a call looks at, and those that it moves or writes, in a fit book.
struct Places {
    looks: Vec<bool>,
    writes: Vec<bool>,
}

/// The places of a call on a book, by `docs/LAYOUT.md`; `done` if it is done there.
fn places(book: &[u32], event: &Event, done: bool) -> Places {
    let n = Counts::of(book);
    let mut places = Places { looks: vec![false; WORDS], writes: vec![false; WORDS] };
    if let Event::Setup { .. } = event {
        places.writes.fill(done);
        return places;
    }
    places.looks[..4].fill(true);
    places.looks[home(0)..home(n.crews)].fill(true);
    let named = Named::of(book, n, event);
    for piece in pieces(n) {
        let looked_at = match &named {
            Some(named) => looks(named.call, named.part(piece)),
            None => *event == Event::Fit,
        };
        if looked_at {
            piece.used(book, n).into_iter().for_each(|at| places.looks[at] = true);
            if done && named.as_ref().is_some_and(|named| named.call != Call::Move) {
                piece.words(book, n).into_iter().for_each(|at| places.writes[at] = true);
            }
        }
    }
    if let Event::Move { crew, .. } = event {
        places.writes[home(*crew as usize)] = done;
    }
    if let Some(named) = named.filter(|named| done && matches!(named.call, Call::Write | Call::Tick)) {
        for to in (0..n.depots).filter(|&to| to != named.depot) {
            for link in named.shelves(n).map(|shelf| link(shelf, named.depot, to)) {
                places.writes[slot(link, book[held(link)] as usize)..][..SLOT].fill(true);
            }
        }
    }
    places
}

/// Damages every word of a book in turn, and lets one call meet each.
fn one_call(
    left: &dyn Register,
    right: &dyn Register,
    seed: u64,
    way: usize,
    book: &[u32],
    called: &Called,
    damaged: &mut Damaged,
) -> Result<(), Trouble> {
    let step = &called.step;
    let mut plain = book.to_vec();
    let answer = step.run(left, &mut plain);
    let places = places(book, &called.event, is_done(&answer));
    let (mut left_book, mut right_book) = (book.to_vec(), book.to_vec());
    for at in 0..WORDS {
        let word = spoilt(way, book[at]);
        if word == book[at] {
            continue;
        }
        left_book[at] = word;
        right_book[at] = word;
        let left_answer = step.run(left, &mut left_book);
        let right_answer = step.run(right, &mut right_book);
        if left_answer != right_answer || left_book != right_book {
            return Err(Trouble::Differ(finding(left, right, seed, book, at, word, step)));
        }
        let no_effect = !places.looks[at] && !places.writes[at];
        let stays = left_book[at] == word;
        if no_effect {
            left_book[at] = plain[at];
        }
        if (!places.looks[at] && left_answer != answer) || (no_effect && !(stays && left_book == plain)) {
            return Err(Trouble::Effect(format!(
                "seed {}: {} on a book in which word {} is {} and not {}: the word has an effect\n  {} with it, {} without\n",
                seed,
                step,
                at,
                word,
                book[at],
                step.tell(&left_answer),
                step.tell(&answer)
            )));
        }
        damaged.count(name(called), is_bad_book(called, &left_answer), no_effect);
        left_book.copy_from_slice(book);
        right_book.copy_from_slice(book);
    }
    Ok(())
}

/// Whether a call, or the line of one, answers 0.
fn is_done(answer: &Outcome) -> bool {
    answer.number == 0 || answer.bytes[0] == b'0'
}

/// Whether a call answers BAD BOOK; for the look over the whole book, that it is not fit.
fn is_bad_book(called: &Called, answer: &Outcome) -> bool {
    match called.step.event {
        Event::Line(_) => answer.bytes.starts_with(b"1\n"),
        Event::Fit => answer.number == 0,
        _ => answer.number == 1,
    }
}

/// The list of a difference: lay the book, put the word, call.
fn finding(left: &dyn Register, right: &dyn Register, seed: u64, book: &[u32], at: usize, word: u32, step: &Step) -> Finding {
    let words = (0..WORDS).filter(|&at| book[at] != 0).map(|at| (at as u16, book[at])).collect();
    let steps = vec![Step::new(Event::Lay(words)), Step::new(Event::Put { at, word }), step.clone()];
    let difference = differs(left, right, &steps).expect("the list shows the difference");
    Finding { seed, steps, difference }
}

#[cfg(test)]
mod tests {
    use super::*;
    use crate::parts::Piece;

    /// The books of the first rounds hold messages of every kind, and in them each call can be done.
    #[test]
    fn the_books_are_busy() {
        for kind in 0..KINDS {
            let mut random = Random::new(kind as u64);
            let book = book(&mut random, kind);
            let mut messages = Vec::new();
            for piece in pieces(Counts::of(&book)) {
                if let Piece::Head { shelf, from, to } = piece {
                    let link = link(shelf, from, to);
                    let place = |place| (place < book[taken(link)] as usize, book[slot(link, place)]);
                    messages.extend((0..book[held(link)] as usize).map(place));
                }
            }
            for message in [(true, COPY), (false, COPY), (false, HEARTBEAT)] {
                assert!(messages.contains(&message), "book {} has no message {:?}", kind, message);
            }
            for called in calls(&mut random, &book, kind).iter().take(7) {
                assert_eq!(called.step.run(&Straight, &mut book.clone()).number, 0, "book {}: {}", kind, called.step);
            }
        }
    }
}
