//! Links, frames and damaged frames at random, a list of calls for each seed.

use super::{Difference, Frames, Link, Pair, Tally, MARKS};
use crate::random::Random;
use straight::layout::*;
use straight::{Counts, LONGEST_FRAME, MOST_MESSAGES, WORDS};

/// The calls of a seed.
pub const CALLS: usize = 60;

/// The bits of 1 and of 2,000 millimetres.
const ONE: u32 = 0x3F80_0000;
const MOST: u32 = 0x44FA_0000;

/// Numbers at which something changes.
const EDGES: [u32; 18] = [0, 1, 2, 3, 4, 5, 15, 16, 17, 160, 161, 256, MOST, MOST + 1, END, END + 1, 0x7FC0_0000, u32::MAX];

/// The calls of one seed on both, and what they reach.
pub fn replay(left: &dyn Frames, right: &dyn Frames, seed: u64, tally: &mut Tally) -> Result<(), Box<Difference>> {
    let random = &mut Random::new(seed);
    let book = lay_book(random);
    let n = Counts::of(&book);
    let mut pair = Pair::new(seed, left, right, book);
    let mut link = any_link(random, n);
    let mut frame = Vec::new();
    for call in 0..CALLS {
        if call % 6 == 0 {
            link = any_link(random, n);
            pair.change(|book| lay_link(random, book, link));
            frame = fresh_frame(random, pair.book(), link);
        }
        let named = if random.percent(88) { link } else { wrong_link(random, n, link) };
        let good = pair.book().to_vec();
        if random.percent(30) {
            pair.change(|book| damage(random, book, link));
        }
        if random.percent(40) {
            write_one(random, &pair, named, tally)?;
        } else {
            read_one(random, &pair, named, &frame, tally)?;
        }
        if pair.book() != good {
            pair.change(|book| *book = good);
        }
    }
    Ok(())
}

/// One call of the writer: counts, serials and rooms of every kind, mostly good ones.
fn write_one(random: &mut Random, pair: &Pair<'_>, named: Link, tally: &mut Tally) -> Result<(), Box<Difference>> {
    let untaken = untaken(pair.book(), named);
    let serial = any_serial(random);
    let count = match random.below(10) {
        0..=6 => random.between(1, untaken.max(1)) as u32,
        7 => untaken as u32,
        _ => random.choose(&[0, untaken as u32 + 1, 16, 17, 256, 257, 65_537, u32::MAX, held_on(pair.book(), named)]),
    };
    let mut probe = [0; LONGEST_FRAME];
    let length = straight::frame_write(pair.book(), named.depot, named.shelf, named.from, count, serial, &mut probe);
    let length = length.unwrap_or(random.below(LONGEST_FRAME));
    let room = match random.below(10) {
        0..=3 => LONGEST_FRAME,
        4..=6 => length,
        7 => length.saturating_sub(1),
        8 => length + random.below(20),
        _ => random.below(length + 1),
    };
    let answer = pair.write(named, count, serial, room)?;
    tally.answer("write", &answer);
    if answer.is_ok() {
        let n = Counts::of(pair.book());
        let on = number(named);
        let taken_now = pair.book()[taken(on)] as usize;
        let unfit = |place: usize| pair.book()[slot(on, place)] != COPY || pair.book()[slot(on, place) + 1] >= n.bearings as u32;
        if (0..taken_now).any(unfit) {
            tally.mark(MARKS[0], 0);
        }
        if count as usize == MOST_MESSAGES {
            tally.mark(MARKS[1], 0);
        }
    }
    Ok(())
}

/// One call of the reader: a frame as it was made, or changed on its way.
fn read_one(random: &mut Random, pair: &Pair<'_>, named: Link, made: &[u8], tally: &mut Tally) -> Result<(), Box<Difference>> {
    let mut frame = made.to_vec();
    for _ in 0..random.choose(&[0, 0, 0, 1, 1, 1, 1, 2]) {
        spoil(random, &mut frame, pair.book());
    }
    let serial = if frame.len() < 4 { 0 } else { u16::from_le_bytes([frame[2], frame[3]]) };
    let behind = match random.below(10) {
        0..=5 => 0,
        6 => random.bits() as u16,
        _ => random.choose(&[1, 2, 3, 32_766, 32_767, 32_768, 32_769, 65_533, 65_534, 65_535]),
    };
    let need = SLOT * frame.get(1).map_or(1, |&count| count as usize).min(MOST_MESSAGES + 1);
    let room = match random.below(10) {
        0..=4 => SLOT * (MOST_MESSAGES + 1),
        5..=7 => need,
        8 => need.saturating_sub(1),
        _ => random.below(need + 1),
    };
    let answer = pair.read(named, serial.wrapping_add(behind), &frame, room)?;
    tally.answer("read", &answer);
    match answer {
        Ok(_) if serial == 0 => tally.mark(MARKS[3], 0),
        Err(straight::OLD) if behind == 32_767 => tally.mark(MARKS[4], 0),
        Err(straight::GAP) if behind == 32_768 => tally.mark(MARKS[5], 0),
        _ => {}
    }
    if answer.is_ok() && frame != made {
        tally.mark(MARKS[2], 0);
    }
    Ok(())
}

/// A book whose counts and homes are fit. Half the time all its other words are anything: a frame asks for no more than its link.
pub fn lay_book(random: &mut Random) -> Vec<u32> {
    let mut book = vec![0; WORDS];
    if random.percent(50) {
        book.iter_mut().for_each(|word| *word = random.word());
    }
    let depots = random.choose(&[1, 2, 2, 2, 3, 3, 4, 4, 4]);
    let bearings = random.choose(&[1, 2, 3, 4, 5, 17, 64, 127, 128, 159, 160]);
    book[..4].copy_from_slice(&[depots, random.between(1, 4) as u32, bearings, random.choose(&[1, 2, 15, 16])]);
    for crew in 0..book[3] as usize {
        book[home(crew)] = random.below(depots as usize) as u32;
    }
    book
}

/// A link of the register; of one with a single depot there is none, and the numbers are those of another.
pub fn any_link(random: &mut Random, n: Counts) -> Link {
    let depots = n.depots.max(2);
    let from = random.below(depots);
    let depot = (from + 1 + random.below(depots - 1)) % depots;
    Link { depot: depot as u32, shelf: random.below(n.shelves) as u32, from: from as u32 }
}

/// Numbers that name another link or none.
fn wrong_link(random: &mut Random, n: Counts, good: Link) -> Link {
    let mut link = good;
    for _ in 0..random.between(1, 2) {
        let wrong = |random: &mut Random, number: u32, count: usize| {
            let count = count as u32;
            random.choose(&[0, 1, count - 1, count, count + 1, 4, number + 4, number + 256, number + 65_536, u32::MAX])
        };
        match random.below(4) {
            0 => link.depot = wrong(random, good.depot, n.depots),
            1 => link.shelf = wrong(random, good.shelf, n.shelves),
            2 => link.from = wrong(random, good.from, n.depots),
            _ => link.depot = link.from,
        }
    }
    link
}

/// The number of a link in the layout; its numbers are below 4.
pub fn number(named: Link) -> usize {
    link(named.shelf as usize, named.from as usize, named.depot as usize)
}

fn in_layout(book: &[u32], named: Link) -> bool {
    book.len() == WORDS && named.depot < 4 && named.shelf < 4 && named.from < 4
}

fn held_on(book: &[u32], named: Link) -> u32 {
    if in_layout(book, named) {
        book[held(number(named))]
    } else {
        0
    }
}

fn untaken(book: &[u32], named: Link) -> usize {
    if !in_layout(book, named) {
        return 0;
    }
    let (held, taken) = (book[held(number(named))], book[taken(number(named))]);
    held.saturating_sub(taken).min(ROOM) as usize
}

/// Fit messages on a link, up to sixteen, the first ones taken. Half the time a taken one holds anything: it is not looked at.
pub fn lay_link(random: &mut Random, book: &mut [u32], on: Link) {
    let n = Counts::of(book);
    let count = if random.percent(40) { ROOM as usize } else { random.below(ROOM as usize + 1) };
    let taken_now = if random.percent(40) { 0 } else { random.below(count + 1) };
    let link = number(on);
    book[held(link)] = count as u32;
    book[taken(link)] = taken_now as u32;
    let garbage = random.percent(50);
    for place in 0..count {
        let message = any_message(random, n, on);
        let words = &mut book[slot(link, place)..][..SLOT];
        put_message(words, n, message);
        if place < taken_now && garbage && random.percent(50) {
            words[random.below(SLOT)] = random.choose(&EDGES);
        }
    }
}

/// Puts the words of a message that mean something; the others stay as they are.
pub fn put_message(words: &mut [u32], n: Counts, message: [u32; SLOT]) {
    let meant = if message[0] == HEARTBEAT { 2 } else { 6 + n.depots };
    words[..meant].copy_from_slice(&message[..meant]);
}

/// A message that is fit for the link, the words that mean nothing 0. Its numbers are small, at an edge or any.
pub fn any_message(random: &mut Random, n: Counts, on: Link) -> [u32; SLOT] {
    let entry = |random: &mut Random| match random.below(4) {
        0 => random.choose(&[0, 1, 255, 256, 65_535, 65_536, END - 1, END]),
        1 => random.word() & END,
        _ => random.below(8) as u32,
    };
    let length = |random: &mut Random| match random.below(4) {
        0 => random.choose(&[1, 2, ONE, MOST - 1, MOST]),
        1 => random.between(1, MOST as usize) as u32,
        _ => ONE,
    };
    let mut message = [0; SLOT];
    let shelf = on.shelf as usize;
    if shelf >= n.bearings || random.percent(35) {
        message[0] = HEARTBEAT;
        message[1] = entry(random);
        return message;
    }
    let on_shelf = (n.bearings - shelf + n.shelves - 1) / n.shelves;
    let any = random.below(on_shelf);
    let bearing = shelf + n.shelves * random.choose(&[0, on_shelf - 1, any]);
    message[0] = COPY;
    message[1 + BEARING] = bearing as u32;
    let any = random.word();
    message[1 + VALUE] = random.choose(&[0, 20, 146_096, u32::MAX, any]);
    message[1 + DIAMETER] = length(random);
    message[1 + WIDTH] = length(random);
    message[1 + ORIGIN] = on.from;
    for x in 0..n.depots {
        message[1 + VECTOR + x] = entry(random);
    }
    let stamp = &mut message[1 + VECTOR + on.from as usize];
    *stamp = (*stamp).max(1);
    message
}

pub fn any_serial(random: &mut Random) -> u16 {
    let any = random.bits() as u16;
    random.choose(&[0, 0, 1, 255, 256, 32_767, 32_768, 65_534, 65_535, any])
}

/// One or two words that become something else: of the counts, the homes, the link or anywhere. Or another length.
fn damage(random: &mut Random, book: &mut Vec<u32>, on: Link) {
    if random.percent(6) {
        let length = random.choose(&[0, 1, 3, 4, 20, WORDS - 1, WORDS + 1, 2 * WORDS]);
        book.resize(length, 0);
        return;
    }
    let link = number(on);
    for _ in 0..random.between(1, 2) {
        let count = book[held(link)].min(ROOM).max(1) as usize;
        let first = (book[taken(link)] as usize).min(count - 1);
        let at = match random.below(20) {
            0 | 1 => random.below(4),
            2 | 3 => home(random.below(16)),
            4 | 5 => held(link) + random.below(2),
            6 => random.below(WORDS),
            7 | 8 => slot(link, random.below(count)) + random.below(SLOT),
            9 => slot(link, count - 1) + random.below(SLOT),
            _ => slot(link, random.between(first, count - 1)) + random.below(SLOT),
        };
        let old = book[at];
        let beside =
            [old.wrapping_add(1), old.wrapping_sub(1), old.wrapping_add(256), old ^ (1 << random.below(32)), random.word()];
        book[at] = if random.percent(50) { random.choose(&EDGES) } else { random.choose(&beside) };
    }
}

/// A frame of the link; of heartbeats, if it has no untaken message.
fn fresh_frame(random: &mut Random, book: &[u32], on: Link) -> Vec<u8> {
    let serial = any_serial(random);
    let mut out = [0; LONGEST_FRAME];
    let count = random.between(1, untaken(book, on).max(1)) as u32;
    match straight::frame_write(book, on.depot, on.shelf, on.from, count, serial, &mut out) {
        Ok(length) => out[..length].to_vec(),
        Err(_) => {
            let whom = 64 * (book[0] - 1) + number(on) as u32;
            let messages = (0..random.between(1, 16)).map(|at| vec![HEARTBEAT as u8, at as u8, 0, 0, 0]).collect();
            Parts { whom: whom as u8, serial, messages, tail: Vec::new() }.bytes()
        }
    }
}

/// A frame in its parts.
struct Parts {
    whom: u8,
    serial: u16,
    messages: Vec<Vec<u8>>,
    tail: Vec<u8>,
}

impl Parts {
    /// The parts of a frame whose offsets are good, or nearly so.
    fn of(frame: &[u8]) -> Option<Parts> {
        let header = frame.get(..4)?;
        let count = header[1] as usize;
        let offset = |at: usize| {
            let two = frame.get(4 + 2 * at..6 + 2 * at)?;
            Some(u16::from_le_bytes([two[0], two[1]]) as usize)
        };
        let mut messages = Vec::new();
        for at in 0..count {
            let begin = offset(at)?;
            let end = if at + 1 < count { offset(at + 1)? } else { frame.len() };
            messages.push(frame.get(begin..end)?.to_vec());
        }
        Some(Parts { whom: header[0], serial: u16::from_le_bytes([header[2], header[3]]), messages, tail: Vec::new() })
    }

    /// The bytes, with the count and the offsets that the messages have.
    fn bytes(&self) -> Vec<u8> {
        let mut frame = vec![self.whom, self.messages.len() as u8];
        frame.extend(self.serial.to_le_bytes());
        let mut begin = 4 + 2 * self.messages.len();
        for message in &self.messages {
            frame.extend((begin as u16).to_le_bytes());
            begin += message.len();
        }
        self.messages.iter().for_each(|message| frame.extend(message));
        frame.extend(&self.tail);
        frame
    }
}

/// Changes a frame: a byte, its length, or one of its parts, the others still in their places.
fn spoil(random: &mut Random, frame: &mut Vec<u8>, book: &[u32]) {
    let any = random.bits() as u8;
    let at = random.below(frame.len().max(1));
    match random.below(16) {
        0 | 1 if !frame.is_empty() => {
            let old = frame[at];
            let flipped = old ^ (1 << random.below(8));
            frame[at] = random.choose(&[any, old.wrapping_add(1), old.wrapping_sub(1), flipped, 0, 255]);
        }
        2 => frame.truncate(random.choose(&[at, frame.len().saturating_sub(1), 0, 3, 4, 5, 6])),
        3 => frame.extend((0..random.between(1, 6)).map(|_| any)),
        4 => frame.insert(at, any),
        5 if !frame.is_empty() => {
            frame.remove(at);
        }
        6 if !frame.is_empty() => {
            // The same numbers for a register of another size, or another link.
            let shift = random.choose(&[64, 16, 4, 1, 128, 192]);
            frame[0] = frame[0].wrapping_add(shift);
        }
        7 => {
            frame.truncate(random.below(8));
            frame.extend((0..random.below(40)).map(|_| random.bits() as u8 & random.choose(&[1, 3, 255])));
        }
        8 if frame.len() > 4 => {
            // An offset beside its place, or two exchanged.
            let count = (frame[1] as usize).min((frame.len() - 4) / 2).max(1);
            let (one, two) = (4 + 2 * random.below(count), 4 + 2 * random.below(count));
            if random.percent(50) && two + 1 < frame.len() && one + 1 < frame.len() {
                frame.swap(one, two);
                frame.swap(one + 1, two + 1);
            } else {
                frame[one] = frame[one].wrapping_add(random.choose(&[1, 255, 5, 18, 22]));
            }
        }
        _ => {
            if let Some(mut parts) = Parts::of(frame) {
                spoil_part(random, &mut parts, book);
                *frame = parts.bytes();
            }
        }
    }
}

/// Changes one part of a frame; the count and the offsets will be right.
fn spoil_part(random: &mut Random, parts: &mut Parts, book: &[u32]) {
    if parts.messages.is_empty() {
        return;
    }
    let at = random.below(parts.messages.len());
    let message = parts.messages[at].clone();
    match random.below(12) {
        0 => parts.messages[at].push(random.bits() as u8),
        1 => {
            parts.messages[at].pop();
        }
        2 => parts.messages.insert(at, message),
        3 => {
            parts.messages.remove(at);
        }
        4 => parts.messages.swap(0, at),
        5 => {
            let count = random.choose(&[0, 1, 15, 16, 17, 18, 32]);
            parts.messages.resize(count, message);
        }
        6 => parts.tail = message,
        7 => {
            if let Some(kind) = parts.messages[at].first_mut() {
                *kind = random.choose(&[0, 1, 2, 3, 255]);
            }
        }
        _ => {
            // A field of the message: the bearing, or a word that begins at its place.
            let bearings = book.get(2).copied().unwrap_or(1);
            let message = &mut parts.messages[at];
            if message.first() == Some(&1) && message.len() > 1 && random.percent(25) {
                let old = message[1];
                let shelves = book.get(1).copied().unwrap_or(1) as u8;
                message[1] = random.choose(&[bearings as u8, 160, 255, 0, old.wrapping_add(1), old.wrapping_add(shelves)]);
                return;
            }
            let first = if message.first() == Some(&1) { 2 } else { 1 };
            let words = message.len().saturating_sub(first) / 4;
            if words > 0 {
                let word = random.choose(&EDGES).to_le_bytes();
                message[first + 4 * random.below(words)..][..4].copy_from_slice(&word);
            }
        }
    }
}
