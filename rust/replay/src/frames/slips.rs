//! Writers and readers of frames with one mistake each, and a test that the replay finds each of them.

use super::{Frames, Link};
use straight::layout::*;
use straight::{counts_and_homes, is_card, Counts, BAD_COUNT, BAD_FRAME, GAP, NO_ROOM, OLD, WORDS};

const BAD_BOOK: u32 = 1;
const BAD_DEPOT: u32 = 2;
const BAD_SHELF: u32 = 3;
const SAME_DEPOT: u32 = 6;
const EMPTY_LINK: u32 = 7;

macro_rules! slips {
    ($($slip:ident),* $(,)?) => {
        #[derive(Clone, Copy, Debug, PartialEq, Eq)]
        pub enum Slip { None, $($slip),* }

        /// Every slip but none.
        pub const SLIPS: &[Slip] = &[$(Slip::$slip),*];
    };
}

slips! {
    // Both.
    HomesUnread, ShelfBeforeDepot, SameBeforeShelf, SecondDepotUnread, ShortNumbers, DepotsNotInByte0, FromAndToExchanged,
    // The writer's.
    LooksAtTaken, LooksAtSentOnly, LooksAtNoMessage, LooksAtNoHead, LinkBeforeNumbers, CountBeforeEmpty, RoomBeforeCount,
    CountZero, CountOfHeld, CountOfEightBits, SendsTaken, SerialHighFirst, DiameterAndWidthExchanged, SendsFourEntries,
    RoomForLongest, ClearsPastFrame, WritesWithoutRoom, OffsetsFromMessages,
    // The reader's.
    LooksAtLink, SerialBeforeFrame, RoomBeforeFrame, RoomBeforeSerial, OldAt32768, GapAt32767, NoWrap, Exchanged, Fifteen,
    Seventeen, NoMessage, TailAllowed, OffsetsUnread, FirstOffsetUnread, OffsetsOfOneByte, GapsAllowed, WhomUnread,
    AnyBearing, AnyShelf, AnyEntry, OwnEntryUnread, StampOfZero, AnyCard, AnyWidth, CardBelow2000, NoSubnormals, AnyStamp,
    NoStampOfZero, KindThree, OriginUnset, UnusedLeft, PastDepotsLeft, WritesWhenOld, RoomForSixteen,
}

/// A writer and a reader with a slip.
pub struct Slipped(pub Slip);

/// A link that the numbers name.
struct On {
    n: Counts,
    shelf: usize,
    from: usize,
    to: usize,
}

impl Frames for Slipped {
    fn write(&self, book: &[u32], link: Link, count: u32, serial: u16, out: &mut [u8]) -> Result<usize, u32> {
        if self.is(Slip::LinkBeforeNumbers) && self.looks_bad(book, link, count) {
            return Err(BAD_BOOK);
        }
        let on = self.named(book, link)?;
        if self.looks_bad(book, link, count) {
            return Err(BAD_BOOK);
        }
        let link = number(&on);
        let (held, taken) = (book[held(link)] as usize, book[taken(link)] as usize);
        let (held, taken) = (held.min(16), taken.min(held.min(16)));
        let count = if self.is(Slip::CountOfEightBits) { count as usize % 256 } else { count as usize };
        let most = if self.is(Slip::CountOfHeld) { held } else { held - taken };
        let bad_count = (count == 0 && !self.is(Slip::CountZero)) || count > most;
        if bad_count && self.is(Slip::CountBeforeEmpty) {
            return Err(BAD_COUNT);
        }
        if held == taken {
            return Err(EMPTY_LINK);
        }
        if self.is(Slip::RoomBeforeCount) && out.len() < 11 {
            return Err(NO_ROOM);
        }
        if bad_count {
            return Err(BAD_COUNT);
        }
        let first = if self.is(Slip::SendsTaken) { 0 } else { taken };
        let frame = self.frame(book, &on, first, count, serial);
        if self.is(Slip::WritesWithoutRoom) && !out.is_empty() {
            out[0] = frame[0];
        }
        let need = if self.is(Slip::RoomForLongest) { 516 } else { frame.len() };
        if out.len() < need {
            return Err(NO_ROOM);
        }
        out[..frame.len()].copy_from_slice(&frame);
        if self.is(Slip::ClearsPastFrame) {
            out[frame.len()..].fill(0);
        }
        Ok(frame.len())
    }

    fn read(&self, book: &[u32], link: Link, expected: u16, frame: &[u8], out: &mut [u32]) -> Result<usize, u32> {
        let on = self.named(book, link)?;
        if self.is(Slip::LooksAtLink) && self.looks_bad(book, link, 16) {
            return Err(BAD_BOOK);
        }
        let serial = frame.get(2..4).map_or(0, |two| u16::from_le_bytes([two[0], two[1]]));
        let judged = self.judge(expected, serial);
        if self.is(Slip::SerialBeforeFrame) && frame.len() >= 4 {
            judged?;
        }
        if self.is(Slip::RoomBeforeFrame) && out.len() < SLOT {
            return Err(NO_ROOM);
        }
        let messages = self.messages(frame, &on).ok_or(BAD_FRAME)?;
        let need = SLOT * if self.is(Slip::RoomForSixteen) { 16 } else { messages.len() };
        if self.is(Slip::RoomBeforeSerial) && out.len() < need {
            return Err(NO_ROOM);
        }
        if self.is(Slip::WritesWhenOld) && judged == Err(OLD) && !out.is_empty() {
            out[0] = messages.first().map_or(0, |message| message[0]);
        }
        judged?;
        if out.len() < need {
            return Err(NO_ROOM);
        }
        for (message, words) in messages.iter().zip(out.chunks_mut(SLOT)) {
            let meant = match message[0] {
                HEARTBEAT if self.is(Slip::UnusedLeft) => 2,
                COPY if self.is(Slip::PastDepotsLeft) => 6 + on.n.depots,
                _ => SLOT,
            };
            words[..meant].copy_from_slice(&message[..meant]);
        }
        Ok(messages.len())
    }
}

impl Slipped {
    fn is(&self, slip: Slip) -> bool {
        self.0 == slip
    }

    fn named(&self, book: &[u32], link: Link) -> Result<On, u32> {
        let counts_fit = |book: &[u32]| {
            let mut without_homes = book.to_vec();
            without_homes[home(0)..home(16)].fill(0);
            counts_and_homes(&without_homes)
        };
        let fit = if self.is(Slip::HomesUnread) { book.len() == WORDS && counts_fit(book) } else { counts_and_homes(book) };
        if !fit {
            return Err(BAD_BOOK);
        }
        let n = Counts::of(book);
        let short = |number: u32| if self.is(Slip::ShortNumbers) { number as usize % 256 } else { number as usize };
        let (to, shelf, from) = (short(link.depot), short(link.shelf), short(link.from));
        let bad_shelf = shelf >= n.shelves;
        if self.is(Slip::ShelfBeforeDepot) && bad_shelf {
            return Err(BAD_SHELF);
        }
        if to >= n.depots || (from >= n.depots && !self.is(Slip::SecondDepotUnread)) {
            return Err(BAD_DEPOT);
        }
        if self.is(Slip::SameBeforeShelf) && to == from {
            return Err(SAME_DEPOT);
        }
        if bad_shelf {
            return Err(BAD_SHELF);
        }
        if to == from {
            return Err(SAME_DEPOT);
        }
        Ok(On { n, shelf, from: from % 4, to })
    }

    /// Whether the link is not fit, of a book whose counts are.
    fn looks_bad(&self, book: &[u32], link: Link, count: u32) -> bool {
        if !counts_and_homes(book) || link.depot > 3 || link.shelf > 3 || link.from > 3 {
            return false;
        }
        let on = On { n: Counts::of(book), shelf: link.shelf as usize, from: link.from as usize, to: link.depot as usize };
        let link = number(&on);
        let (held, taken) = (book[held(link)] as usize, book[taken(link)] as usize);
        if held > 16 || taken > held {
            return !self.is(Slip::LooksAtNoHead);
        }
        let end = if self.is(Slip::LooksAtSentOnly) { held.min(taken + count.min(16) as usize) } else { held };
        let first = if self.is(Slip::LooksAtTaken) { 0 } else { taken };
        let unfit = |place: usize| {
            let message = &book[slot(link, place)..][..SLOT];
            (place < taken && message[0] != COPY) || message[0] == 0 || message[0] > 2 || !Slipped(Slip::None).fit(message, &on)
        };
        !self.is(Slip::LooksAtNoMessage) && (first..end).any(unfit)
    }

    /// Whether a message of kind 1 or 2 is fit.
    fn fit(&self, message: &[u32], on: &On) -> bool {
        if message[0] != COPY {
            return (message[1] <= END || self.is(Slip::AnyStamp)) && (message[1] > 0 || !self.is(Slip::NoStampOfZero));
        }
        let record = &message[1..];
        let (bearing, entries) = (record[BEARING] as usize, &record[VECTOR..][..on.n.depots]);
        let in_range = |x: usize| entries[x] <= END || (self.is(Slip::OwnEntryUnread) && x == on.to);
        let card = match self.0 {
            Slip::AnyCard => true,
            Slip::AnyWidth => is_card(record[DIAMETER], record[DIAMETER]),
            Slip::CardBelow2000 => {
                is_card(record[DIAMETER], record[WIDTH]) && record[DIAMETER].max(record[WIDTH]) < 2_000_f32.to_bits()
            }
            Slip::NoSubnormals => is_card(record[DIAMETER], record[WIDTH]) && record[DIAMETER].min(record[WIDTH]) > 0x007F_FFFF,
            _ => is_card(record[DIAMETER], record[WIDTH]),
        };
        record[ORIGIN] as usize == on.from
            && (bearing < on.n.bearings || self.is(Slip::AnyBearing))
            && (bearing % on.n.shelves == on.shelf || self.is(Slip::AnyShelf))
            && (self.is(Slip::AnyEntry) || (0..on.n.depots).all(in_range))
            && (record[VECTOR + on.from] > 0 || self.is(Slip::StampOfZero))
            && card
    }

    fn whom(&self, on: &On) -> u8 {
        let depots = if self.is(Slip::DepotsNotInByte0) { 0 } else { on.n.depots - 1 };
        let (one, two) = if self.is(Slip::FromAndToExchanged) { (on.to, on.from) } else { (on.from, on.to) };
        (64 * depots + 16 * on.shelf + 4 * one + two) as u8
    }

    fn frame(&self, book: &[u32], on: &On, first: usize, count: usize, serial: u16) -> Vec<u8> {
        let mut frame = vec![self.whom(on), count as u8];
        frame.extend(if self.is(Slip::SerialHighFirst) { serial.to_be_bytes() } else { serial.to_le_bytes() });
        let mut messages: Vec<u8> = Vec::new();
        for place in first..first + count {
            let begin = messages.len() + if self.is(Slip::OffsetsFromMessages) { 0 } else { 4 + 2 * count };
            frame.extend((begin as u16).to_le_bytes());
            let message = &book[slot(number(on), place)..][..SLOT];
            messages.push(message[0] as u8);
            if message[0] == HEARTBEAT {
                messages.extend(message[1].to_le_bytes());
                continue;
            }
            let (one, two) = if self.is(Slip::DiameterAndWidthExchanged) { (4, 3) } else { (3, 4) };
            messages.push(message[1] as u8);
            for at in [2, one, two] {
                messages.extend(message[at].to_le_bytes());
            }
            let entries = if self.is(Slip::SendsFourEntries) { 4 } else { on.n.depots };
            message[6..][..entries].iter().for_each(|entry| messages.extend(entry.to_le_bytes()));
        }
        frame.extend(messages);
        frame
    }

    fn judge(&self, expected: u16, serial: u16) -> Result<(), u32> {
        let behind = match self.0 {
            Slip::NoWrap => (u32::from(expected)).saturating_sub(u32::from(serial)),
            Slip::Exchanged => u32::from(serial.wrapping_sub(expected)),
            _ => u32::from(expected.wrapping_sub(serial)),
        };
        let most = match self.0 {
            Slip::OldAt32768 => 32_768,
            Slip::GapAt32767 => 32_766,
            _ => 32_767,
        };
        match behind {
            0 if expected == serial => Ok(()),
            0 => Err(GAP),
            _ if behind <= most => Err(OLD),
            _ => Err(GAP),
        }
    }

    fn messages(&self, frame: &[u8], on: &On) -> Option<Vec<[u32; SLOT]>> {
        let count = *frame.get(1)? as usize;
        let most = match self.0 {
            Slip::Fifteen => 15,
            Slip::Seventeen => 17,
            _ => 16,
        };
        let whom_is_good = frame[0] == self.whom(on) || self.is(Slip::WhomUnread);
        if frame.len() < 4 + 2 * count || !whom_is_good || count > most || (count == 0 && !self.is(Slip::NoMessage)) {
            return None;
        }
        let mut begin = 4 + 2 * count;
        let mut messages = Vec::new();
        for at in 0..count {
            let told = u16::from_le_bytes([frame[4 + 2 * at], frame[5 + 2 * at]]) as usize;
            let good = match self.0 {
                Slip::OffsetsUnread => true,
                Slip::FirstOffsetUnread => at == 0 || told == begin,
                Slip::OffsetsOfOneByte => told % 256 == begin % 256,
                Slip::GapsAllowed if told > begin => {
                    begin = told;
                    true
                }
                _ => told == begin,
            };
            let bytes = frame.get(begin..)?;
            let word = |at: usize| bytes.get(at..at + 4).map(|four| u32::from_le_bytes([four[0], four[1], four[2], four[3]]));
            let mut message = [0; SLOT];
            message[0] = u32::from(*bytes.first()?);
            if message[0] == 3 && self.is(Slip::KindThree) {
                message[0] = HEARTBEAT;
            }
            match message[0] {
                HEARTBEAT => message[1] = word(1)?,
                COPY => {
                    message[1] = u32::from(bytes[1..].first().copied()?);
                    (0..3).try_for_each(|at| word(2 + 4 * at).map(|word| message[2 + at] = word))?;
                    message[5] = on.from as u32;
                    (0..on.n.depots).try_for_each(|x| word(14 + 4 * x).map(|word| message[6 + x] = word))?;
                }
                _ => return None,
            }
            if !good || !self.fit(&message, on) {
                return None;
            }
            if message[0] == COPY && self.is(Slip::OriginUnset) {
                message[5] = 0;
            }
            messages.push(message);
            begin += if message[0] == HEARTBEAT { 5 } else { 14 + 4 * on.n.depots };
        }
        (begin == frame.len() || self.is(Slip::TailAllowed)).then_some(messages)
    }
}

fn number(on: &On) -> usize {
    link(on.shelf, on.from, on.to)
}

#[cfg(test)]
mod tests {
    use super::super::{cases, streams, Straight, Tally, MARKS, READER, WRITER};
    use super::*;

    /// The seeds in which a slip must be found.
    const SEEDS: u64 = 3_000;

    #[test]
    fn every_slip_is_found() {
        let found =
            |slip: Slip| (1..=SEEDS).find(|&seed| cases::replay(&Straight, &Slipped(slip), seed, &mut Tally::default()).is_err());
        let seeds: Vec<(Slip, Option<u64>)> = SLIPS.iter().map(|&slip| (slip, found(slip))).collect();
        let missed: Vec<Slip> = seeds.iter().filter(|(_, seed)| seed.is_none()).map(|&(slip, _)| slip).collect();
        assert!(missed.is_empty(), "not found in {} seeds: {:?}", SEEDS, missed);
        let latest = seeds.iter().max_by_key(|(_, seed)| *seed);
        println!("{} slips; the one found last: {:?}", SLIPS.len(), latest);
    }

    #[test]
    fn no_slip_no_difference() {
        let mut tally = Tally::default();
        for seed in 1..=SEEDS {
            if let Err(difference) = cases::replay(&Straight, &Slipped(Slip::None), seed, &mut tally) {
                panic!("{}", difference);
            }
        }
        println!("{}", tally);
        for number in WRITER {
            assert!(tally.of("write", number) > 100, "the writer answers {}", number);
        }
        for number in READER {
            assert!(tally.of("read", number) > 100, "the reader answers {}", number);
        }
        for mark in MARKS {
            assert!(tally.of(mark, 0) > 100, "{}", mark);
        }
    }

    #[test]
    fn a_difference_is_told() {
        let difference = (1..=SEEDS)
            .find_map(|seed| cases::replay(&Straight, &Slipped(Slip::OldAt32768), seed, &mut Tally::default()).err())
            .expect("the slip is found");
        let text = difference.to_string();
        assert!(text.contains("straight: Err(104)") && text.contains("other:    Err(103)"), "{}", text);
        assert!(difference.left.ends_with(&difference.right[8..]), "the buffers are the same");
    }

    /// 200,000 frames from seed to seed: at least three wraps in each.
    #[test]
    fn long_streams() {
        for seed in 1..=2 {
            let mut tally = Tally::default();
            match streams::replay(&Straight, &Slipped(Slip::None), seed, 200_000, &mut tally) {
                Err(streams::Trouble::Differ(difference)) => panic!("{}", difference),
                Err(streams::Trouble::Order(text)) => panic!("seed {}: {}", seed, text),
                Ok(heard) => {
                    println!("seed {}: {:?}", seed, heard);
                    assert!(heard.done >= 199_980 && heard.done < 200_000);
                    assert!(heard.wraps >= 3 && heard.old > 10_000 && heard.gaps > 10_000 && heard.cut > 1_000);
                }
            }
        }
    }

    /// Streams find the slips of serials, and the promise finds them in two that agree.
    #[test]
    fn streams_find_slips() {
        for slip in [Slip::GapAt32767, Slip::NoWrap, Slip::Exchanged, Slip::SendsTaken, Slip::OriginUnset, Slip::UnusedLeft] {
            let trouble = |left: &dyn Frames| {
                (1..=4).find_map(|seed| streams::replay(left, &Slipped(slip), seed, 40_000, &mut Tally::default()).err())
            };
            assert!(matches!(trouble(&Straight), Some(streams::Trouble::Differ(_))), "{:?}", slip);
            assert!(matches!(trouble(&Slipped(slip)), Some(streams::Trouble::Order(_))), "{:?} on both sides", slip);
        }
    }
}
