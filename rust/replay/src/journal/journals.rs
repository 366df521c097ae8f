//! Journals of random histories: cut at every byte, damaged, with strange and refused records in them, and in pieces.

use super::{asked, lent, odd_length, request, told, Call, Keeper, Outcome, Pair, Tally, Trouble, RECOVERED_COUNTS};
use crate::books::{counts, lay, setup};
use crate::event::Step;
use crate::generate::Generator;
use crate::random::Random;
use crate::register;
use straight::calendar::LAST_DAY;
use straight::{record, Counts, BAD_RECORD, CUT, NO_ROOM, WHOLE, WORDS};

/// A history of calls that are done, as its records and its books.
pub struct Journal {
    pub bytes: Vec<u8>,
    /// Where the records end; the first is 0, where the first record begins.
    pub ends: Vec<usize>,
    /// The books before the first record and after each, with the words behind them.
    pub books: Vec<Vec<u32>>,
}

/// A journal of so many records, from the book of zeros or, as behind an image, from any fit one.
pub fn journal(seed: u64, records: usize) -> Journal {
    let mut random = Random::new(seed ^ 0x10AD);
    let mut book = vec![0; WORDS];
    if random.percent(40) {
        let counts = counts(&mut random);
        Step::new(lay(&mut random, counts)).run(&register::Straight, &mut book);
    }
    let mut journal = Journal { bytes: Vec::new(), ends: vec![0], books: vec![lent(&mut random, &book)] };
    let mut lists = 0;
    while journal.ends.len() <= records {
        lists += 1;
        let mut generator = Generator::new(random.bits() ^ lists);
        // A journal from zeros has its setup first.
        if journal.books[0][..WORDS].iter().all(|&word| word == 0) && journal.bytes.is_empty() {
            journal.add(asked(&setup(&mut random)).expect("a setup is a call"));
        }
        while let Some(step) = generator.next(journal.book()) {
            if let Some(call) = asked(&step.event).filter(|_| journal.ends.len() <= records) {
                journal.add(call);
            }
        }
    }
    journal
}

impl Journal {
    fn book(&self) -> &[u32] {
        self.books.last().expect("there is a first book")
    }

    /// Adds a call, if it is done.
    fn add(&mut self, (kind, numbers): (u32, Vec<u32>)) {
        let mut book = self.book().to_vec();
        let request = request(kind, &numbers).expect("the numbers of a call");
        if straight::call(&mut book[..WORDS], &request).is_ok() {
            self.bytes.extend(record(&request));
            self.ends.push(self.bytes.len());
            self.books.push(book);
        }
    }

    /// What recovery of the first records must tell, and the book that it must leave.
    fn after(&self, records: usize, ended: u32) -> Outcome {
        let out = told(records, self.ends[records], RECOVERED_COUNTS);
        Outcome { number: ended, bytes: Vec::new(), out, book: self.books[records].clone() }
    }

    /// The first records, and behind them other bytes.
    fn then(&self, records: usize, behind: &[u8]) -> Call {
        recover([&self.bytes[..self.ends[records]], behind].concat())
    }
}

fn recover(bytes: Vec<u8>) -> Call {
    Call::Recover { bytes, out: RECOVERED_COUNTS }
}

/// All that is done with a journal.
pub fn replay(left: &dyn Keeper, right: &dyn Keeper, seed: u64, records: usize, tally: &mut Tally) -> Result<(), Trouble> {
    let pair = Pair { seed, left, right };
    let journal = journal(seed, records);
    let mut random = Random::new(seed);
    every_cut(&pair, &journal, tally)?;
    between_records(&pair, &journal, &mut random, tally)?;
    changed_bytes(&pair, &journal, &mut random, tally)?;
    in_pieces(&pair, &journal, &mut random)?;
    odd_rooms(&pair, &journal, &mut random, tally)
}

/// Cut at any byte: the book after the whole records before the cut, and their number; with none the starting book.
fn every_cut(pair: &Pair, journal: &Journal, tally: &mut Tally) -> Result<(), Trouble> {
    let mut whole = 0;
    for cut in 0..=journal.bytes.len() {
        if journal.ends.get(whole + 1) == Some(&cut) {
            whole += 1;
        }
        let ended = if journal.ends[whole] == cut { WHOLE } else { CUT };
        pair.expect(&recover(journal.bytes[..cut].to_vec()), &journal.books[0], WORDS, &journal.after(whole, ended))?;
        tally.count("recover", ended);
    }
    Ok(())
}

/// Behind each record comes a byte of no kind, a record that is refused, or a write of an old journal that is a BAD DATE now.
/// Recovery stops there, by its number, whatever comes behind.
fn between_records(pair: &Pair, journal: &Journal, random: &mut Random, tally: &mut Tally) -> Result<(), Trouble> {
    for records in 0..journal.ends.len() {
        let from = random.below(journal.bytes.len() + 1);
        let behind = if random.percent(50) { &journal.bytes[from..] } else { &journal.bytes[journal.ends[records]..] };
        let mut stops = |bytes: &[u8], number: u32| {
            tally.count("recover", number);
            let call = journal.then(records, &[bytes, behind].concat());
            pair.expect(&call, &journal.books[0], WORDS, &journal.after(records, number))
        };
        stops(&[random.choose(&[0, 9, 10, 255])], BAD_RECORD)?;
        stops(&[random.between(9, 255) as u8], BAD_RECORD)?;
        let book = &journal.books[records][..WORDS];
        for request in refused(random, book) {
            if let Err(refusal) = straight::call(&mut book.to_vec(), &request) {
                stops(&record(&request), refusal as u32)?;
            }
        }
    }
    Ok(())
}

/// Calls that are mostly refused.
fn refused(random: &mut Random, book: &[u32]) -> Vec<straight::Request> {
    let n = Counts::of(book);
    let below = |random: &mut Random, count: usize| random.below(count.max(1)) as u32;
    let any = random.word();
    let late = random.choose(&[LAST_DAY + 1, u32::MAX, any.max(LAST_DAY + 1)]);
    let card = if random.percent(80) { 0x3F80_0000 } else { 0 };
    let write = vec![below(random, n.crews), below(random, n.bearings), late, card, card];
    let few = |random: &mut Random| below(random, 6);
    let strange = match random.between(1, 8) as u32 {
        1 => (1, (0..random.between(4, 8)).map(|_| few(random)).collect()),
        3 => (3, vec![few(random), few(random), few(random), 0x3F80_0000, 0x3F80_0000]),
        5 => (5, vec![few(random), few(random), few(random)]),
        8 => (8, (0..random.choose(&[1, 2, 9, 10, 11, 256])).map(|_| few(random)).collect()),
        kind => (kind, vec![few(random), few(random)]),
    };
    [(3, write), strange].into_iter().filter_map(|(kind, numbers)| request(kind, &numbers)).collect()
}

/// Each byte changed: whatever it becomes, the bytes that count are the journal of what was done.
fn changed_bytes(pair: &Pair, journal: &Journal, random: &mut Random, tally: &mut Tally) -> Result<(), Trouble> {
    let start = &journal.books[0];
    for at in 0..journal.bytes.len() {
        let mut bytes = journal.bytes.clone();
        match random.below(8) {
            0 => bytes.insert(at, random.bits() as u8),
            1 => drop(bytes.remove(at)),
            2 => bytes[at] = random.bits() as u8,
            _ => bytes[at] ^= 1 << random.below(8),
        }
        let outcome = pair.call(&recover(bytes.clone()), start, WORDS)?;
        tally.count("recover", outcome.number);
        let again = recover(bytes[..outcome.out[1] as usize].to_vec());
        pair.expect(&again, start, WORDS, &Outcome { number: WHOLE, ..outcome })?;
    }
    Ok(())
}

/// In pieces cut anywhere, with the bytes that did not count yet before each: the same as the whole, sound or not.
fn in_pieces(pair: &Pair, journal: &Journal, random: &mut Random) -> Result<(), Trouble> {
    for _ in 0..12 {
        let mut bytes = journal.bytes.clone();
        match random.below(3) {
            0 => bytes.truncate(random.below(bytes.len() + 1)),
            1 => {
                let at = random.below(bytes.len());
                bytes[at] ^= 1 << random.below(8);
            }
            _ => {}
        }
        let whole = pair.call(&recover(bytes.clone()), &journal.books[0], WORDS)?;
        let most = random.choose(&[3, 10, 40, 200]);
        let (mut from, mut to) = (0, 0);
        let mut so_far =
            Outcome { number: WHOLE, bytes: Vec::new(), out: told(0, 0, RECOVERED_COUNTS), book: journal.books[0].clone() };
        while to < bytes.len() && [WHOLE, CUT].contains(&so_far.number) {
            to = (to + random.below(most)).min(bytes.len());
            let piece = pair.call(&recover(bytes[from..to].to_vec()), &so_far.book, WORDS)?;
            from += piece.out[1] as usize;
            let records = (so_far.out[0] + piece.out[0]) as usize;
            so_far = Outcome { out: told(records, from, RECOVERED_COUNTS), ..piece };
        }
        if so_far != whole {
            let text = format!(
                "in pieces it ends with {}, {:?}, and not with {}, {:?}",
                so_far.number, so_far.out, whole.number, whole.out
            );
            return Err(pair.trouble(&recover(bytes), WORDS, &text));
        }
    }
    Ok(())
}

/// With too little room to tell nothing is done; with too much none of it is touched. Books of any length have an answer.
fn odd_rooms(pair: &Pair, journal: &Journal, random: &mut Random, tally: &mut Tally) -> Result<(), Trouble> {
    let start = &journal.books[0];
    for out in 0..RECOVERED_COUNTS + 3 {
        let call = Call::Recover { bytes: journal.bytes.clone(), out };
        let outcome = pair.call(&call, start, WORDS)?;
        tally.count("recover", outcome.number);
        let expected = match out < RECOVERED_COUNTS {
            true => call.untouched(NO_ROOM, start),
            false => Outcome {
                out: told(journal.ends.len() - 1, journal.bytes.len(), out),
                ..journal.after(journal.ends.len() - 1, WHOLE)
            },
        };
        pair.expect(&call, start, WORDS, &expected)?;
    }
    for _ in 0..20 {
        let (call, words) = (recover(journal.bytes.clone()), odd_length(random));
        let outcome = pair.call(&call, start, words)?;
        tally.count("recover", outcome.number);
    }
    for words in [0, 1, WORDS - 1, WORDS + 1] {
        let outcome = Outcome { out: told(0, 0, RECOVERED_COUNTS), ..recover(Vec::new()).untouched(1, start) };
        pair.expect(&recover(journal.bytes.clone()), start, words, &outcome)?;
        pair.expect(&recover(Vec::new()), start, words, &Outcome { number: WHOLE, ..outcome })?;
    }
    Ok(())
}
