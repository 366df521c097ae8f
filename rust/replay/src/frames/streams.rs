//! Long rows of frames over a bad radio: lost, repeated, shuffled and cut, around the wrap of the serial. None is farther than
//! 32,767 from the one expected. What is handed out must be the messages of a first stretch of the frames sent, in order and once
//! each.

use std::collections::VecDeque;

use super::cases::{any_link, any_message, lay_book, number, put_message};
use super::{Difference, Frames, Link, Pair, Tally};
use crate::random::Random;
use straight::layout::*;
use straight::{Counts, BAD_FRAME, GAP, LONGEST_FRAME, MOST_MESSAGES, OLD};

/// The farthest that a frame may be from the one expected.
const FARTHEST: usize = 32_767;

/// What is wrong with a stream.
pub enum Trouble {
    /// The two differ.
    Differ(Box<Difference>),
    /// They agree, and yet what they do is not what is promised.
    Order(String),
}

impl From<Box<Difference>> for Trouble {
    fn from(difference: Box<Difference>) -> Trouble {
        Trouble::Differ(difference)
    }
}

/// What a stream came to: frames done, dropped as old, dropped as too early, refused as cut, and how often the serial wrapped.
#[derive(Clone, Copy, Debug, Default, PartialEq, Eq)]
pub struct Heard {
    pub done: usize,
    pub old: usize,
    pub gaps: usize,
    pub cut: usize,
    pub wraps: usize,
}

/// A frame that was sent, and the words of its messages.
struct Sent {
    frame: Vec<u8>,
    words: Vec<u32>,
}

/// Sends so many frames of one link, and lets the far box hear them until all but the last few are done; the last few are lost.
pub fn replay(left: &dyn Frames, right: &dyn Frames, seed: u64, frames: usize, tally: &mut Tally) -> Result<Heard, Trouble> {
    let random = &mut Random::new(seed);
    let mut near = lay_book(random);
    near[0] = near[0].max(2);
    (0..near[3] as usize).for_each(|crew| near[home(crew)] %= near[0]);
    let n = Counts::of(&near);
    let link = any_link(random, n);
    // The first serial lies close before a wrap, close after it, or anywhere.
    let first = match random.below(4) {
        0 => random.bits() as u16,
        1 => random.below(3) as u16,
        _ => 65_535 - random.below(300) as u16,
    };
    let far = far_book(random, n);
    let mut pair = Pair::new(seed, left, right, near);
    let sent = send(random, &mut pair, link, first, frames, tally)?;
    pair.change(|book| *book = far);
    hear(random, &pair, link, first, &sent, tally)
}

/// The far box's own book: the same counts, all else its own.
fn far_book(random: &mut Random, n: Counts) -> Vec<u32> {
    let mut book = lay_book(random);
    book[..3].copy_from_slice(&[n.depots as u32, n.shelves as u32, n.bearings as u32]);
    (0..book[3] as usize).for_each(|crew| book[home(crew)] %= n.depots as u32);
    book
}

/// The near box's side: messages join the link at its end, the oldest go into the next frame and are let go of.
fn send(
    random: &mut Random,
    pair: &mut Pair<'_>,
    on: Link,
    first: u16,
    frames: usize,
    tally: &mut Tally,
) -> Result<Vec<Sent>, Trouble> {
    let n = Counts::of(pair.book());
    let link = number(on);
    let mut waiting: VecDeque<[u32; SLOT]> = VecDeque::new();
    let mut sent = Vec::new();
    for at in 0..frames {
        // Taken copies stand before what is sent, whatever they hold, and count as room.
        let taken_now = if random.percent(50) { 0 } else { random.below(ROOM as usize - waiting.len().max(1) + 1) };
        let most = ROOM as usize - taken_now;
        let more = if random.percent(4) { most } else { random.between(1, 3) };
        while waiting.len() < more.min(most) {
            waiting.push_back(any_message(random, n, on));
        }
        pair.change(|book| {
            book[held(link)] = (taken_now + waiting.len()) as u32;
            book[taken(link)] = taken_now as u32;
            for (place, &message) in waiting.iter().enumerate() {
                put_message(&mut book[slot(link, taken_now + place)..][..SLOT], n, message);
            }
        });
        let count = random.between(1, waiting.len());
        let serial = first.wrapping_add(at as u16);
        let answer = pair.write(on, count as u32, serial, LONGEST_FRAME)?;
        tally.answer("write", &answer);
        let words: Vec<u32> = waiting.drain(..count).flatten().collect();
        match answer {
            Ok(frame) => sent.push(Sent { frame, words }),
            Err(number) => return Err(Trouble::Order(format!("seed's frame {} is refused by {}", at, number))),
        }
    }
    Ok(sent)
}

/// The far box's side: which frame comes next is up to the radio.
fn hear(random: &mut Random, pair: &Pair<'_>, on: Link, first: u16, sent: &[Sent], tally: &mut Tally) -> Result<Heard, Trouble> {
    let lost = random.between(1, 20).min(sent.len());
    let mut heard = Heard::default();
    let mut expected = first;
    while heard.done < sent.len() - lost {
        let done = heard.done;
        let lowest = done.saturating_sub(FARTHEST);
        let highest = (done + FARTHEST).min(sent.len() - 1);
        let at = match random.below(20) {
            0 => lowest,
            1 => highest,
            2 => random.between(lowest, highest),
            3..=5 => random.between(done.saturating_sub(9), (done + 9).min(highest)),
            6 => done.saturating_sub(1),
            _ => done,
        };
        let Sent { frame, words } = &sent[at];
        let length = if random.percent(3) { random.below(frame.len()) } else { frame.len() };
        let answer = pair.read(on, expected, &frame[..length], SLOT * MOST_MESSAGES)?;
        tally.answer("read", &answer);
        let right = match &answer {
            Ok(handed) => at == done && length == frame.len() && handed == words,
            Err(BAD_FRAME) => length < frame.len(),
            Err(OLD) => at < done && length == frame.len(),
            Err(GAP) => at > done && length == frame.len(),
            Err(_) => false,
        };
        if !right {
            return Err(Trouble::Order(format!("frame {}, {} bytes of it, with {} done: {:?}", at, length, done, answer)));
        }
        match answer {
            Ok(_) => {
                heard.done += 1;
                expected = expected.wrapping_add(1);
                heard.wraps += usize::from(expected == 0);
            }
            Err(BAD_FRAME) => heard.cut += 1,
            Err(OLD) => heard.old += 1,
            Err(_) => heard.gaps += 1,
        }
    }
    Ok(heard)
}
