//! The calls that are timed, made before the clock starts.

use replay::event::Event;
use replay::lines;
use replay::random::Random;
use replay::register::{Register, Straight, ANSWER_BYTES};
use replay::values;
use straight::layout::{clock, crew_vector, held, home, link, taken};
use straight::{Counts, WORDS};

/// What is timed: one call alone, or many mixed.
#[derive(Clone, Copy, Debug, PartialEq, Eq)]
pub enum Kind {
    Setup,
    Read,
    Write,
    Tick,
    Take,
    Refresh,
    List,
    IsFit,
    Mixed,
}

pub const COUNT_OF_KINDS: usize = 9;

/// The calls that are timed alone.
pub const KINDS: [(Kind, &str); 8] = [
    (Kind::Setup, "setup"),
    (Kind::Read, "read"),
    (Kind::Write, "write"),
    (Kind::Tick, "tick"),
    (Kind::Take, "take"),
    (Kind::Refresh, "refresh"),
    (Kind::List, "list of eight"),
    (Kind::IsFit, "is_fit"),
];

/// Calls in a row that are timed together.
pub struct Block {
    pub kind: Kind,
    pub events: Vec<Event>,
}

/// One call. Says whether it was done; a look at the whole book is, if the book is fit. A setup has a book of its own, so that
/// the other calls go on with theirs.
#[inline(always)]
pub fn call<R: Register>(register: &R, event: &Event, book: &mut [u32], fresh: &mut [u32]) -> bool {
    match event {
        Event::Read { crew, bearing } => register.read(book, *crew, *bearing, &mut [0; 8]) == 0,
        Event::Write { crew, bearing, value, card } => register.write(book, *crew, *bearing, *value, *card, &mut [0; 2]) == 0,
        Event::Tick { depot, shelf } => register.tick(book, *depot, *shelf) == 0,
        Event::Take { depot, shelf, from } => register.take(book, *depot, *shelf, *from) == 0,
        Event::Refresh { depot, shelf } => register.refresh(book, *depot, *shelf) == 0,
        Event::List { crew, bearings } => register.list(book, *crew, bearings, &mut [0; 64]) == 0,
        Event::Setup { counts, homes } => register.setup(fresh, *counts, homes) == 0,
        Event::Fit => register.is_fit(book) == 1,
        _ => false,
    }
}

/// A book, so far as the calls have brought it.
struct Course {
    random: Random,
    n: Counts,
    book: Vec<u32>,
}

impl Course {
    fn new(counts: [u32; 4]) -> Course {
        let mut book = vec![0; WORDS];
        Straight.setup(&mut book, counts, &homes(counts));
        Course { random: Random::new(7), n: Counts::of(&book), book }
    }

    /// Makes the call on the book. Says whether it was done.
    fn goes(&mut self, event: &Event) -> bool {
        call(&Straight, event, &mut self.book, &mut [])
    }

    fn read(&mut self) -> Event {
        Event::Read { crew: self.random.below(self.n.crews) as u32, bearing: self.random.below(self.n.bearings) as u32 }
    }

    /// A write that need not wait, if one is found.
    fn write(&mut self) -> Event {
        let Course { random, n, book } = self;
        let ready = |&(crew, bearing): &(usize, usize)| {
            let depot = book[home(crew)] as usize;
            book[crew_vector(crew) + depot] <= book[clock(depot, bearing % n.shelves)]
        };
        let found = (0..16).map(|_| (random.below(n.crews), random.below(n.bearings))).find(ready);
        let (crew, bearing) = found.unwrap_or((0, 0));
        Event::Write { crew: crew as u32, bearing: bearing as u32, value: values::day(random), card: values::card(random) }
    }

    /// A tick of the shelf that is behind at some depot: it holds up what the others have sent.
    fn tick(&mut self) -> Event {
        let depot = self.random.below(self.n.depots);
        let behind = (0..self.n.shelves).min_by_key(|&shelf| self.book[clock(depot, shelf)]);
        Event::Tick { depot: depot as u32, shelf: behind.expect("a depot has a shelf") as u32 }
    }

    /// A take from a link that has something untaken, if one is found.
    fn take(&mut self) -> Event {
        let Course { random, n, book } = self;
        let waiting = |&(depot, shelf, from): &(usize, usize, usize)| {
            let link = link(shelf, from, depot);
            depot != from && book[taken(link)] < book[held(link)]
        };
        let found = (0..64).map(|_| (random.below(n.depots), random.below(n.shelves), random.below(n.depots))).find(waiting);
        let (depot, shelf, from) = found.unwrap_or((0, 0, 1));
        Event::Take { depot: depot as u32, shelf: shelf as u32, from: from as u32 }
    }

    fn refresh(&mut self) -> Event {
        Event::Refresh { depot: self.random.below(self.n.depots) as u32, shelf: self.random.below(self.n.shelves) as u32 }
    }

    fn list(&mut self) -> Event {
        let bearings = (0..8).map(|_| self.random.below(self.n.bearings) as u32).collect();
        Event::List { crew: self.random.below(self.n.crews) as u32, bearings }
    }

    /// One of many. A message sent to each other depot wants a take there, so takes go by the count of depots.
    fn any(&mut self) -> Event {
        match self.random.below(70 + 28 * (self.n.depots - 1)) {
            0..=24 => self.read(),
            25..=39 => self.write(),
            40..=49 => self.tick(),
            50..=69 => self.refresh(),
            _ => self.take(),
        }
    }

    /// A block of calls that are all done: so many are drawn, and those that are refused left out.
    fn block(&mut self, kind: Kind, draws: usize, draw: fn(&mut Course) -> Event) -> Block {
        let mut events = Vec::new();
        for _ in 0..draws {
            let event = draw(self);
            if self.goes(&event) {
                events.push(event);
            }
        }
        Block { kind, events }
    }
}

fn homes(counts: [u32; 4]) -> Vec<u32> {
    (0..counts[3]).map(|crew| crew % counts[0]).collect()
}

/// A book and mixed events for it: with numbers in range, takes mostly where there is something to take.
pub fn mixed(counts: [u32; 4], count: usize) -> (Vec<u32>, Vec<Event>) {
    let mut course = Course::new(counts);
    let mut start = Vec::new();
    let mut events = Vec::new();
    // The first events fill the book and are not timed.
    for at in 0..count + 2_000 {
        if at == 2_000 {
            start = course.book.clone();
            events.clear();
        }
        // One that is refused is drawn again, twice at most: most events are done, and some are refused.
        let mut event = course.any();
        let mut again = 2;
        while !course.goes(&event) && again > 0 {
            event = course.any();
            again -= 1;
        }
        events.push(event);
    }
    (start, events)
}

/// A book and blocks of one call each, all done, with so many of each call and more: round after round of writes, ticks,
/// takes, refreshes, reads and lists, a look at the whole book, and setups.
pub fn alone(counts: [u32; 4], count: usize) -> (Vec<u32>, Vec<Block>) {
    let mut course = Course::new(counts);
    let shelves = course.n.depots * course.n.shelves;
    let start = course.book.clone();
    let mut blocks: Vec<Block> = Vec::new();
    let mut made = [0; COUNT_OF_KINDS];
    while KINDS.iter().any(|&(kind, _)| made[kind as usize] < count) {
        let mut round = vec![
            course.block(Kind::Write, 8 * shelves, Course::write),
            course.block(Kind::Tick, 6 * shelves, Course::tick),
            course.block(Kind::Take, 16 * shelves * course.n.depots, Course::take),
            course.block(Kind::Refresh, 4 * shelves, Course::refresh),
            course.block(Kind::Read, 8 * shelves, Course::read),
            course.block(Kind::List, 4 * shelves, Course::list),
            Block { kind: Kind::IsFit, events: vec![Event::Fit; 2 * shelves] },
            Block { kind: Kind::Setup, events: vec![Event::Setup { counts, homes: homes(counts) }; 2 * shelves] },
        ];
        // What there is enough of already still happens, but need not be looked at or set up again.
        round.retain(|block| made[block.kind as usize] < count || !matches!(block.kind, Kind::IsFit | Kind::Setup));
        round.iter().for_each(|block| made[block.kind as usize] += block.events.len());
        blocks.extend(round);
    }
    (start, blocks)
}

/// The lines of the events, damaged, each so that it is a BAD LINE.
pub fn damaged_lines(start: &[u32], events: &[Event]) -> Vec<Vec<u8>> {
    let mut random = Random::new(1);
    let is_bad = |line: &[u8]| {
        let mut out = [0; ANSWER_BYTES];
        Straight.line(&mut start.to_vec(), line, &mut out);
        out.starts_with(b"13\n")
    };
    let mut damaged: Vec<Vec<u8>> = events.iter().map(|event| lines::damaged(&mut random, event)).collect();
    damaged.iter_mut().filter(|line| !is_bad(line)).for_each(|line| line.push(b' '));
    damaged
}
