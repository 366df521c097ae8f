//! Journals and images with one mistake each, and a test that the replay finds each of them.

use super::{request, tell, Keeper, RECORDED_WORDS, RECOVERED_COUNTS};
use straight::calendar::LAST_DAY;
use straight::{call, counts_and_homes, is_fit, Answer, Request, BAD_IMAGE, BAD_RECORD, CUT, IMAGE, NO_ROOM, WHOLE, WORDS};

const BAD_BOOK: u32 = 1;

macro_rules! slips {
    ($($(#[doc = $doc:literal])* $slip:ident,)*) => {
        #[derive(Clone, Copy, Debug, PartialEq, Eq)]
        pub enum Slip { None, $($(#[doc = $doc])* $slip),* }

        /// Every slip but none.
        pub const SLIPS: &[Slip] = &[$(Slip::$slip),*];
    };
}

slips! {
    /// A call without room for its record is made all the same.
    DoneWithoutRoom,
    /// The room is looked at after the book.
    RoomLast,
    /// Room for the longest record is asked for.
    RoomForLongest,
    /// The room of more than 255 homes or bearings is that of their byte.
    RoomOfByte,
    /// BAD RECORD is noticed after the room.
    KindLast,
    /// The kind is told by its lowest byte.
    ShortKind,
    /// Numbers beyond those of the kind are left out.
    MoreNumbers,
    /// A refused call leaves its record.
    RefusedRecorded,
    /// The bytes behind the record become 0.
    ClearsBehind,
    /// A read has no record.
    ReadForgotten,
    /// A list has no record.
    ListForgotten,
    /// A tick of a register of one depot has no record, since it sends nothing.
    LoneTick,
    /// A record has the highest byte of a number first.
    HighFirst,
    /// A take's two depots change places in its record.
    TakeSwapped,
    /// Diameter and width change places in a write's record.
    CardSwapped,
    /// A move's record is a refresh.
    MoveAsRefresh,
    /// A list's record counts its numbers, the crew's too.
    ListCountsAll,
    /// The answer's words behind it stay.
    ToldBehindKept,
    /// The room of the answer is asked for, and not that of the longest.
    OwnToldRoom,
    /// The length told is without the kind.
    LengthWithoutKind,
    /// A write's answer is not told.
    WriteUntold,

    /// A cut journal is whole.
    CutIsWhole,
    /// The last record is cut even if it is whole.
    LastIsCut,
    /// What is missing of a cut record counts as 0, and its call is made.
    CutPadded,
    /// A lone byte behind the last record is left out.
    LoneByte,
    /// A refused record is left out.
    RefusedSkipped,
    /// A refused record counts.
    RefusedCounts,
    /// The bytes of a refused record count.
    RefusedBytes,
    /// A refusal is told as BAD RECORD.
    RefusedNameless,
    /// A byte of no kind is left out.
    StrangeSkipped,
    /// A byte of no kind is a cut.
    StrangeIsCut,
    /// Kind 8 is not known.
    NoLists,
    /// Kind 0 is the end of a journal.
    ZeroEnds,
    /// A journal that does not begin with a setup is a BAD RECORD.
    SetupFirst,
    /// The records are counted from the last setup on.
    CountsFromSetup,
    /// A setup starts a journal, and is not done behind other records.
    OneSetup,
    /// A setup's record has as many homes as crews, whatever it counts.
    HomesByCrews,
    /// An old write past the calendar is done, as one of the last day.
    LateDone,
    /// A write of no card is done, with the least one.
    CardlessDone,
    /// All bytes that were read are told.
    AllBytes,
    /// A recovery that stops by a fault leaves the starting book.
    FaultForgets,
    /// A recovery that ends in a cut leaves the starting book.
    CutForgets,
    /// Room for a single number is enough.
    OneCount,

    /// A book that is not fit is saved.
    SavesUnfit,
    /// Of a book that is saved only the counts and the homes are looked at.
    SavesByCounts,
    /// The room of an image is looked at before the book.
    SaveRoomFirst,
    /// The bytes behind an image become 0.
    SaveClearsBehind,
    /// The words of an image have the highest byte first.
    ImageHighFirst,
    /// Unused words are saved as 0.
    UnusedCleared,
    /// One of the header's numbers is not looked at.
    NameUnread,
    DepotsUnread,
    ShelvesUnread,
    BearingsUnread,
    CrewsUnread,
    WordsUnread,
    BeginUnread,
    EndUnread,
    /// A longer file is an image too.
    LongerLoads,
    /// A shorter file is an image too, with zeros behind it.
    ShorterLoads,
    /// The book of an image is not judged.
    UnfitLoads,
    /// Of the book of an image only the counts and the homes are judged.
    LoadsByCounts,
    /// The book is judged before the header.
    FitFirst,
    /// The book that is lent is looked at after the image.
    LentLast,
    /// An image is judged in the place that it is loaded to.
    JudgedInPlace,
    /// The book of an image with a value past the calendar is not fit.
    LateUnfit,
}

/// A keeper with a slip.
pub struct Slipped(pub Slip);

impl Slipped {
    fn is(&self, slip: Slip) -> bool {
        self.0 == slip
    }

    fn bytes(&self, number: u32) -> [u8; 4] {
        if self.is(Slip::HighFirst) {
            number.to_be_bytes()
        } else {
            number.to_le_bytes()
        }
    }

    /// The record of a call that is done.
    fn record(&self, kind: u32, numbers: &[u32], depots: u32) -> Vec<u8> {
        let forgotten = (self.is(Slip::ReadForgotten) && kind == 2)
            || (self.is(Slip::ListForgotten) && kind == 8)
            || (self.is(Slip::LoneTick) && kind == 4 && depots == 1);
        if forgotten {
            return Vec::new();
        }
        let mut numbers = numbers.to_vec();
        match (self.0, kind) {
            (Slip::TakeSwapped, 5) => numbers.swap(0, 2),
            (Slip::CardSwapped, 3) => numbers.swap(3, 4),
            _ => {}
        }
        let named = if self.is(Slip::MoveAsRefresh) && kind == 7 { 6 } else { kind };
        let mut record = vec![named as u8];
        match kind {
            1 => record.push((numbers.len() - 4) as u8),
            8 => record.push((numbers.len() - usize::from(!self.is(Slip::ListCountsAll))) as u8),
            _ => {}
        }
        record.extend(numbers.iter().flat_map(|&number| self.bytes(number)));
        record
    }

    /// The call of a record, with what some slips do not look at.
    fn call(&self, book: &mut [u32], request: &Request) -> Result<Answer, u32> {
        let mut request = request.clone();
        if let Request::Write { value, diameter, width, .. } = &mut request {
            if self.is(Slip::LateDone) {
                *value = LAST_DAY.min(*value);
            }
            if self.is(Slip::CardlessDone) && !straight::is_card(*diameter, *width) {
                (*diameter, *width) = (1, 1);
            }
        }
        call(book, &request).map_err(|refusal| refusal as u32)
    }

    /// How many bytes the record that these begin with has, if they tell it.
    fn length(&self, bytes: &[u8]) -> Option<(usize, usize)> {
        let counted = |more: usize| bytes.get(1).map(|&count| (2, more + usize::from(count)));
        Some(match bytes[0] {
            1 if self.is(Slip::HomesByCrews) => {
                let crews = bytes.get(14..18).map(|four| u32::from_le_bytes([four[0], four[1], four[2], four[3]]));
                (2, 4 + crews?.min(255) as usize)
            }
            1 => counted(4)?,
            8 => counted(1)?,
            3 => (1, 5),
            5 => (1, 3),
            _ => (1, 2),
        })
    }

    /// Whether a book is taken for fit.
    fn fit(&self, book: &[u32], any: Slip, by_counts: Slip) -> bool {
        if self.is(any) {
            return book.len() == WORDS;
        }
        if self.is(by_counts) {
            return counts_and_homes(book);
        }
        is_fit(book)
    }

    /// The header that a book's image has, as far as it is looked at: `head` is the one found.
    fn header(&self, book: &[u32], head: &[u32]) -> Vec<u32> {
        let mut header = vec![0x3147_4D49, book[0], book[1], book[2], book[3], 16_384, 32, 65_568];
        let unread = match self.0 {
            Slip::NameUnread => 0,
            Slip::DepotsUnread => 1,
            Slip::ShelvesUnread => 2,
            Slip::BearingsUnread => 3,
            Slip::CrewsUnread => 4,
            Slip::WordsUnread => 5,
            Slip::BeginUnread => 6,
            Slip::EndUnread => 7,
            _ => return header,
        };
        header[unread] = head[unread];
        header
    }
}

impl Keeper for Slipped {
    fn recorded(&self, book: &mut [u32], kind: u32, numbers: &[u32], record: &mut [u8], out: &mut [u32]) -> u32 {
        let own = match kind {
            2 => 9,
            3 => 3,
            _ => 1,
        };
        let told = if self.is(Slip::OwnToldRoom) && kind != 8 { own } else { RECORDED_WORDS };
        if out.len() < told {
            return NO_ROOM;
        }
        let kind = if self.is(Slip::ShortKind) { kind % 256 } else { kind };
        let most = [0, usize::MAX, 2, 5, 2, 3, 2, 2, usize::MAX, 0][kind.min(9) as usize];
        let numbers = if self.is(Slip::MoreNumbers) { &numbers[..numbers.len().min(most)] } else { numbers };
        let head = 1 + usize::from(kind == 1 || kind == 8);
        let counted = match (self.0, kind) {
            (Slip::RoomOfByte, 1 | 8) => numbers.len() % 256,
            _ => numbers.len(),
        };
        let need = if self.is(Slip::RoomForLongest) { 82.max(head + 4 * counted) } else { head + 4 * counted };
        let no_room = record.len() < need;
        if no_room && self.is(Slip::KindLast) {
            return NO_ROOM;
        }
        let Some(request) = request(kind, numbers) else { return BAD_RECORD };
        if no_room && !matches!(self.0, Slip::RoomLast | Slip::DoneWithoutRoom) {
            return NO_ROOM;
        }
        let mut after = book.to_vec();
        let made = call(&mut after, &request);
        let bytes = self.record(kind, numbers, book.first().copied().unwrap_or(0));
        let room = bytes.len().min(record.len());
        if made.is_err() && self.is(Slip::RefusedRecorded) && kind != 1 {
            record[..room].copy_from_slice(&bytes[..room]);
        }
        let answer = match made {
            Ok(answer) => answer,
            Err(refusal) => return refusal as u32,
        };
        if no_room && self.is(Slip::RoomLast) {
            return NO_ROOM;
        }
        book.copy_from_slice(&after);
        if no_room {
            return NO_ROOM;
        }
        record[..room].copy_from_slice(&bytes[..room]);
        if self.is(Slip::ClearsBehind) {
            record[room..].fill(0);
        }
        let before = out.to_vec();
        let mut words = [0; RECORDED_WORDS];
        let length = bytes.len() - usize::from(self.is(Slip::LengthWithoutKind));
        let answer = if self.is(Slip::WriteUntold) && kind == 3 { Answer::Done } else { answer };
        tell(answer, length, &mut words);
        let written = out.len().min(RECORDED_WORDS);
        out[..written].copy_from_slice(&words[..written]);
        if self.is(Slip::ToldBehindKept) && kind != 8 {
            out[own..].copy_from_slice(&before[own..]);
        }
        0
    }

    fn recover(&self, book: &mut [u32], bytes: &[u8], out: &mut [u64]) -> u32 {
        if out.len() < RECOVERED_COUNTS - usize::from(self.is(Slip::OneCount)) {
            return NO_ROOM;
        }
        let start = book.to_vec();
        let (mut records, mut at, mut ended) = (0, 0, WHOLE);
        while at < bytes.len() {
            let next = &bytes[at..];
            let last = if self.is(Slip::NoLists) { 7 } else { 8 };
            if next[0] == 0 && self.is(Slip::ZeroEnds) {
                break;
            }
            if next[0] == 0 || next[0] > last {
                if self.is(Slip::StrangeSkipped) {
                    at += 1;
                    continue;
                }
                ended = if self.is(Slip::StrangeIsCut) { CUT } else { BAD_RECORD };
                break;
            }
            if next.len() == 1 && self.is(Slip::LoneByte) {
                break;
            }
            if self.is(Slip::SetupFirst) && at == 0 && next[0] != 1 {
                ended = BAD_RECORD;
                break;
            }
            let form = self.length(next);
            let whole = form.filter(|&(head, count)| {
                let length = head + 4 * count;
                length < next.len() || (length == next.len() && !self.is(Slip::LastIsCut))
            });
            let (head, count) = match (whole, form) {
                (Some(form), _) => form,
                (None, Some(form)) if self.is(Slip::CutPadded) => form,
                _ => {
                    ended = if self.is(Slip::CutIsWhole) { WHOLE } else { CUT };
                    break;
                }
            };
            let mut record = next[..next.len().min(head + 4 * count)].to_vec();
            record.resize(head + 4 * count, 0);
            let numbers: Vec<u32> =
                record[head..].chunks(4).map(|four| u32::from_le_bytes([four[0], four[1], four[2], four[3]])).collect();
            let request = request(u32::from(record[0]), &numbers).expect("the numbers of its kind");
            let made = if record[0] == 1 && self.is(Slip::OneSetup) && records > 0 {
                Ok(Answer::Done)
            } else {
                self.call(book, &request)
            };
            match made {
                Ok(_) => {}
                Err(_) if self.is(Slip::RefusedSkipped) => {
                    at += record.len();
                    continue;
                }
                Err(number) => {
                    records += u64::from(self.is(Slip::RefusedCounts));
                    at += if self.is(Slip::RefusedBytes) { record.len() } else { 0 };
                    ended = if self.is(Slip::RefusedNameless) { BAD_RECORD } else { number };
                    break;
                }
            }
            records = if record[0] == 1 && self.is(Slip::CountsFromSetup) { 1 } else { records + 1 };
            at += record.len().min(next.len());
        }
        let fault = ![WHOLE, CUT].contains(&ended);
        if (fault && self.is(Slip::FaultForgets)) || (ended == CUT && self.is(Slip::CutForgets)) {
            book.copy_from_slice(&start);
        }
        out[0] = records;
        if out.len() > 1 {
            out[1] = if self.is(Slip::AllBytes) { bytes.len() } else { at } as u64;
        }
        ended
    }

    fn save_image(&self, book: &[u32], image: &mut [u8]) -> u32 {
        if self.is(Slip::SaveRoomFirst) && image.len() < IMAGE {
            return NO_ROOM;
        }
        if !self.fit(book, Slip::SavesUnfit, Slip::SavesByCounts) {
            return BAD_BOOK;
        }
        if image.len() < IMAGE {
            return NO_ROOM;
        }
        let mut words = book.to_vec();
        if self.is(Slip::UnusedCleared) {
            words[16_356..].fill(0);
        }
        let numbers = self.header(&words, &[0; 8]).into_iter().chain(words.iter().copied());
        for (number, bytes) in numbers.zip(image.chunks_mut(4)) {
            let four = if self.is(Slip::ImageHighFirst) { number.to_be_bytes() } else { number.to_le_bytes() };
            bytes.copy_from_slice(&four);
        }
        if self.is(Slip::SaveClearsBehind) {
            image[IMAGE..].fill(0);
        }
        0
    }

    fn load_image(&self, book: &mut [u32], image: &[u8]) -> u32 {
        let lent = book.len() == WORDS;
        if !lent && !self.is(Slip::LentLast) {
            return NO_ROOM;
        }
        let length = match self.0 {
            Slip::LongerLoads => image.len() >= IMAGE,
            Slip::ShorterLoads => image.len() >= 32 && image.len() <= IMAGE,
            _ => image.len() == IMAGE,
        };
        if !length {
            return BAD_IMAGE;
        }
        let mut bytes = image.to_vec();
        bytes.resize(IMAGE, 0);
        let numbers: Vec<u32> = bytes.chunks(4).map(|four| u32::from_le_bytes([four[0], four[1], four[2], four[3]])).collect();
        let (head, words) = numbers.split_at(8);
        let late = |at: usize| self.is(Slip::LateUnfit) && words[at + 1] > LAST_DAY && words[at + 5..at + 9] != [0; 4];
        let any_late = || (10_596..16_356).step_by(9).any(late);
        let fit = self.fit(words, Slip::UnfitLoads, Slip::LoadsByCounts) && !any_late();
        let right = head == self.header(words, head);
        if self.is(Slip::JudgedInPlace) && right && lent {
            book.copy_from_slice(words);
        }
        if self.is(Slip::FitFirst) && !fit {
            return BAD_BOOK;
        }
        if !right {
            return BAD_IMAGE;
        }
        if !fit {
            return BAD_BOOK;
        }
        if !lent {
            return NO_ROOM;
        }
        book.copy_from_slice(words);
        0
    }
}

#[cfg(test)]
mod tests {
    use super::super::{images, journals, recorded, Straight, Tally, Trouble, LOAD, RECORDED, RECOVER, SAVE};
    use super::*;

    /// The seeds in which a slip must be found, and the records of each journal.
    const SEEDS: u64 = 40;
    const RECORDS: usize = 30;

    fn replays(left: &dyn Keeper, right: &dyn Keeper, seed: u64, tally: &mut Tally) -> Result<(), Trouble> {
        for more in 0..4 {
            recorded::replay(left, right, 4 * seed + more, tally)?;
        }
        journals::replay(left, right, seed, RECORDS, tally)?;
        images::replay(left, right, seed, tally)?;
        images::every_word(left, right, seed, 61, tally)
    }

    #[test]
    fn every_slip_is_found() {
        let found =
            |slip: Slip| (1..=SEEDS).find(|&seed| replays(&Straight, &Slipped(slip), seed, &mut Tally::default()).is_err());
        let seeds: Vec<(Slip, Option<u64>)> = SLIPS.iter().map(|&slip| (slip, found(slip))).collect();
        let missed: Vec<Slip> = seeds.iter().filter(|(_, seed)| seed.is_none()).map(|&(slip, _)| slip).collect();
        assert!(missed.is_empty(), "not found in {} seeds: {:?}", SEEDS, missed);
        println!("{} slips; the one found last: {:?}", SLIPS.len(), seeds.iter().max_by_key(|(_, seed)| *seed));
    }

    #[test]
    fn no_slip_no_difference() {
        let mut tally = Tally::default();
        for seed in 1..=SEEDS {
            if let Err(trouble) = replays(&Straight, &Slipped(Slip::None), seed, &mut tally) {
                panic!("{}", trouble);
            }
        }
        println!("{}", tally);
        for (call, answers) in [("recorded", &RECORDED[..]), ("recover", &RECOVER), ("save", &SAVE), ("load", &LOAD)] {
            for &number in answers {
                assert!(tally.of(call, number) > 10, "{} answers {}", call, number);
            }
        }
    }

    /// Two that agree in a mistake never differ; what is promised of them shows it.
    #[test]
    fn the_same_slip_on_both_sides() {
        for slip in [
            Slip::DoneWithoutRoom,
            Slip::RefusedRecorded,
            Slip::ReadForgotten,
            Slip::HighFirst,
            Slip::CutIsWhole,
            Slip::RefusedSkipped,
            Slip::StrangeIsCut,
            Slip::CountsFromSetup,
            Slip::LateDone,
            Slip::CutForgets,
            Slip::SavesUnfit,
            Slip::CrewsUnread,
            Slip::UnfitLoads,
            Slip::JudgedInPlace,
        ] {
            let trouble = (1..=SEEDS).find_map(|seed| replays(&Slipped(slip), &Slipped(slip), seed, &mut Tally::default()).err());
            let text = trouble.map(|trouble| trouble.to_string());
            assert!(
                text.as_ref().is_some_and(|text| text.contains("both answer") || text.contains("in pieces")),
                "{:?}: {:?}",
                slip,
                text
            );
        }
    }
}
