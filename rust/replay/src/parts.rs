//! The parts of a book, and which of them a call looks at first: the table of `docs/LAYOUT.md`, with a name for every part
//! that a call could look at by mistake. Counts and homes are apart from these: every call but setup looks at them.

use crate::event::Event;
use straight::layout::*;
use straight::Counts;

/// The calls that look at parts.
#[derive(Clone, Copy, Debug, PartialEq, Eq)]
pub enum Call {
    Read,
    Write,
    Tick,
    Take,
    Refresh,
    Move,
    List,
}

pub const CALLS: [Call; 7] = [Call::Read, Call::Write, Call::Tick, Call::Take, Call::Refresh, Call::Move, Call::List];

/// What a piece of the book is to a call on shelf s of depot d, for a list any shelf of d. Each piece is one of these.
#[derive(Clone, Copy, Debug, PartialEq, Eq)]
pub enum Part {
    /// The vector of the crew named, and those of the others.
    CrewVector,
    OtherCrews,
    /// The clock of (d, s), and the others.
    Clock,
    OtherClocks,
    /// The stable vector of (d, s), and the others.
    Stable,
    OtherStables,
    /// The stamp seen at (d, s) from the sender named; the other ones there; those on d's other shelves; those of other depots.
    SeenFrom,
    SeenHere,
    SeenBeside,
    SeenElsewhere,
    /// Of the link from the sender named or, if none is, of all links into (d, s): the heads, the taken copies, and the untaken
    /// messages.
    HeadsIn,
    TakenIn,
    UntakenIn,
    /// Of the links into (d, s) from other depots than the sender named.
    OtherHeadsIn,
    OtherMessagesIn,
    /// Of the links out of (d, s).
    HeadsOut,
    MessagesOut,
    /// Of all other links.
    OtherHeads,
    OtherMessages,
    /// The version stored at d of a bearing named; of the bearings of taken copies on links into (d, s); of those of untaken
    /// ones; of the other bearings.
    StoredNamed,
    StoredTaken,
    StoredUntaken,
    StoredBeside,
    /// What other depots store.
    StoredElsewhere,
}

pub const PARTS: [Part; 24] = [
    Part::CrewVector,
    Part::OtherCrews,
    Part::Clock,
    Part::OtherClocks,
    Part::Stable,
    Part::OtherStables,
    Part::SeenFrom,
    Part::SeenHere,
    Part::SeenBeside,
    Part::SeenElsewhere,
    Part::HeadsIn,
    Part::TakenIn,
    Part::UntakenIn,
    Part::OtherHeadsIn,
    Part::OtherMessagesIn,
    Part::HeadsOut,
    Part::MessagesOut,
    Part::OtherHeads,
    Part::OtherMessages,
    Part::StoredNamed,
    Part::StoredTaken,
    Part::StoredUntaken,
    Part::StoredBeside,
    Part::StoredElsewhere,
];

/// Whether a call looks at a part: the table.
pub fn looks(call: Call, part: Part) -> bool {
    use Part::*;
    let raise_and_show = matches!(part, Stable | HeadsIn | TakenIn | UntakenIn | StoredTaken);
    let read = matches!(part, CrewVector | StoredNamed) || raise_and_show;
    let tick = matches!(part, Clock | HeadsOut);
    match call {
        Call::Tick => tick,
        Call::Take => matches!(part, SeenFrom | HeadsIn | UntakenIn),
        Call::Refresh => matches!(part, SeenHere | SeenBeside) || raise_and_show,
        Call::Move => matches!(part, CrewVector | SeenHere | SeenBeside),
        Call::Read | Call::List => read,
        Call::Write => read || tick,
    }
}

/// Whether a part means anything to a call: a tick names no crew, and to a list all shelves of its depot are here.
pub fn means(call: Call, part: Part) -> bool {
    match part {
        Part::CrewVector => matches!(call, Call::Read | Call::Write | Call::Move | Call::List),
        Part::StoredNamed => matches!(call, Call::Read | Call::Write | Call::List),
        Part::SeenBeside => call != Call::List,
        Part::SeenFrom | Part::OtherHeadsIn | Part::OtherMessagesIn => call == Call::Take,
        _ => true,
    }
}

/// A piece of the book that is fit or not by itself.
#[derive(Clone, Copy, Debug, PartialEq, Eq)]
pub enum Piece {
    CrewVector { crew: usize },
    Clock { depot: usize, shelf: usize },
    Stable { depot: usize, shelf: usize },
    Seen { depot: usize, shelf: usize, from: usize },
    Head { shelf: usize, from: usize, to: usize },
    Taken { shelf: usize, from: usize, to: usize },
    Untaken { shelf: usize, from: usize, to: usize },
    Stored { depot: usize, bearing: usize },
}

/// All pieces of a book with such counts.
pub fn pieces(n: Counts) -> Vec<Piece> {
    let mut all: Vec<Piece> = (0..n.crews).map(|crew| Piece::CrewVector { crew }).collect();
    for depot in 0..n.depots {
        for shelf in 0..n.shelves {
            all.push(Piece::Clock { depot, shelf });
            all.push(Piece::Stable { depot, shelf });
            for other in (0..n.depots).filter(|&other| other != depot) {
                all.push(Piece::Seen { depot, shelf, from: other });
                all.push(Piece::Head { shelf, from: depot, to: other });
                all.push(Piece::Taken { shelf, from: depot, to: other });
                all.push(Piece::Untaken { shelf, from: depot, to: other });
            }
        }
        all.extend((0..n.bearings).map(|bearing| Piece::Stored { depot, bearing }));
    }
    all
}

impl Piece {
    /// The words of it that are in use, in a book whose counts are fit.
    pub fn used(self, book: &[u32], n: Counts) -> Vec<usize> {
        let entries = |at: usize| (at..at + n.depots).collect();
        match self {
            Piece::CrewVector { crew } => entries(crew_vector(crew)),
            Piece::Clock { depot, shelf } => vec![clock(depot, shelf)],
            Piece::Stable { depot, shelf } => entries(stable(depot, shelf)),
            Piece::Seen { depot, shelf, from } => vec![seen(depot, shelf, from)],
            Piece::Head { shelf, from, to } => vec![held(link(shelf, from, to)), taken(link(shelf, from, to))],
            Piece::Taken { shelf, from, to } | Piece::Untaken { shelf, from, to } => {
                let message = |place| message_used(book, n, slot(link(shelf, from, to), place));
                self.places(book, ROOM).flat_map(message).collect()
            }
            Piece::Stored { depot, bearing } => {
                let record = stored(depot, bearing);
                let vector = record + VECTOR;
                if book[vector..vector + n.depots].iter().all(|&entry| entry == 0) {
                    entries(vector)
                } else {
                    record_used(n, record)
                }
            }
        }
    }

    /// All words of it, those included that only travel along: entries past the depots.
    pub fn words(self, book: &[u32], n: Counts) -> Vec<usize> {
        match self {
            Piece::Taken { shelf, from, to } | Piece::Untaken { shelf, from, to } => {
                let places = self.places(book, ROOM);
                (slot(link(shelf, from, to), places.start)..slot(link(shelf, from, to), places.end)).collect()
            }
            Piece::Stored { depot, bearing } => (stored(depot, bearing)..stored(depot, bearing + 1)).collect(),
            _ => self.used(book, n),
        }
    }

    /// The places of the messages that it is made of, of a link with so much room: the taken ones stand first.
    pub fn places(self, book: &[u32], room: u32) -> std::ops::Range<usize> {
        let counts = |link| {
            let held = book[held(link)].min(room);
            (book[taken(link)].min(held) as usize, held as usize)
        };
        match self {
            Piece::Taken { shelf, from, to } => 0..counts(link(shelf, from, to)).0,
            Piece::Untaken { shelf, from, to } => {
                let (taken, held) = counts(link(shelf, from, to));
                taken..held
            }
            _ => 0..0,
        }
    }
}

fn messages_held(book: &[u32], link: usize) -> usize {
    book[held(link)].min(ROOM) as usize
}

fn message_used(book: &[u32], n: Counts, message: usize) -> Vec<usize> {
    let mut words = vec![message];
    match book[message] {
        COPY => words.extend(record_used(n, message + 1)),
        HEARTBEAT => words.push(message + 1),
        _ => {}
    }
    words
}

fn record_used(n: Counts, record: usize) -> Vec<usize> {
    let vector = record + VECTOR..record + VECTOR + n.depots;
    [record + BEARING, record + VALUE, record + DIAMETER, record + WIDTH, record + ORIGIN].into_iter().chain(vector).collect()
}

/// What a call names, its numbers in range.
#[derive(Clone, Debug)]
pub struct Named {
    pub call: Call,
    pub depot: usize,
    /// The shelf; a list is to all of them.
    pub shelf: Option<usize>,
    pub crew: Option<usize>,
    pub bearings: Vec<usize>,
    pub from: Option<usize>,
    /// The bearings of the taken copies on the links into the shelf, or the shelves, and those of the untaken ones.
    pub taken: Vec<usize>,
    pub untaken: Vec<usize>,
}

impl Named {
    /// What an event names in a book whose counts and homes are fit. It names nothing if it is no call that looks at parts, if
    /// a number is out of range, if it is a take from the depot itself, or a list of none or of more than eight.
    pub fn of(book: &[u32], n: Counts, event: &Event) -> Option<Named> {
        let crew_call = |call, crew: u32, bearing: u32| {
            let (crew, bearing) = (crew as usize, bearing as usize);
            let in_range = crew < n.crews && bearing < n.bearings;
            in_range.then(|| (call, book[home(crew)] as usize, Some(bearing % n.shelves), Some(crew), vec![bearing], None))
        };
        let shelf_call = |call, depot: u32, shelf: u32, from: Option<u32>| {
            let (depot, shelf, from) = (depot as usize, shelf as usize, from.map(|from| from as usize));
            let in_range = depot < n.depots && shelf < n.shelves && from.map_or(true, |from| from < n.depots && from != depot);
            in_range.then(|| (call, depot, Some(shelf), None, Vec::new(), from))
        };
        let (call, depot, shelf, crew, bearings, from) = match *event {
            Event::Read { crew, bearing } => crew_call(Call::Read, crew, bearing),
            Event::Write { crew, bearing, .. } => crew_call(Call::Write, crew, bearing),
            Event::Tick { depot, shelf } => shelf_call(Call::Tick, depot, shelf, None),
            Event::Take { depot, shelf, from } => shelf_call(Call::Take, depot, shelf, Some(from)),
            Event::Refresh { depot, shelf } => shelf_call(Call::Refresh, depot, shelf, None),
            // A move is to all shelves of the new home; the first stands for them.
            Event::Move { crew, depot } => shelf_call(Call::Move, depot, 0, None)
                .filter(|_| (crew as usize) < n.crews)
                .map(|(call, depot, shelf, _, bearings, from)| (call, depot, shelf, Some(crew as usize), bearings, from)),
            Event::List { crew, ref bearings } => {
                let (crew, bearings) = (crew as usize, bearings.iter().map(|&bearing| bearing as usize).collect::<Vec<_>>());
                let in_range = crew < n.crews && bearings.iter().all(|&bearing| bearing < n.bearings);
                let named = in_range && (1..=straight::LONGEST_LIST).contains(&bearings.len());
                named.then(|| (Call::List, book[home(crew)] as usize, None, Some(crew), bearings, None))
            }
            _ => None,
        }?;
        let mut named = Named { call, depot, shelf, crew, bearings, from, taken: Vec::new(), untaken: Vec::new() };
        for link in named.links_in(n) {
            for place in 0..messages_held(book, link) {
                let message = slot(link, place);
                let kind = if place < book[taken(link)] as usize { &mut named.taken } else { &mut named.untaken };
                if book[message] == COPY {
                    kind.push(book[message + 1 + BEARING] as usize);
                }
            }
        }
        Some(named)
    }

    /// The shelves of the depot that the call is to.
    pub fn shelves(&self, n: Counts) -> std::ops::Range<usize> {
        self.shelf.map_or(0..n.shelves, |shelf| shelf..shelf + 1)
    }

    /// The links into these, from depot 0 on.
    fn links_in(&self, n: Counts) -> Vec<usize> {
        let from = |shelf| (0..n.depots).filter(|&from| from != self.depot).map(move |from| link(shelf, from, self.depot));
        self.shelves(n).flat_map(from).collect()
    }

    /// What a piece is to this call.
    pub fn part(&self, piece: Piece) -> Part {
        let here = |depot, shelf| depot == self.depot && self.on(shelf);
        let one = |is: bool, this: Part, other: Part| if is { this } else { other };
        match piece {
            Piece::CrewVector { crew } => one(self.crew == Some(crew), Part::CrewVector, Part::OtherCrews),
            Piece::Clock { depot, shelf } => one(here(depot, shelf), Part::Clock, Part::OtherClocks),
            Piece::Stable { depot, shelf } => one(here(depot, shelf), Part::Stable, Part::OtherStables),
            Piece::Seen { depot, shelf, from } if here(depot, shelf) => {
                one(self.from == Some(from), Part::SeenFrom, Part::SeenHere)
            }
            Piece::Seen { depot, .. } => one(depot == self.depot, Part::SeenBeside, Part::SeenElsewhere),
            Piece::Head { shelf, from, to } => {
                self.link(shelf, from, to, [Part::HeadsIn, Part::OtherHeadsIn, Part::HeadsOut, Part::OtherHeads])
            }
            Piece::Taken { shelf, from, to } => {
                self.link(shelf, from, to, [Part::TakenIn, Part::OtherMessagesIn, Part::MessagesOut, Part::OtherMessages])
            }
            Piece::Untaken { shelf, from, to } => {
                self.link(shelf, from, to, [Part::UntakenIn, Part::OtherMessagesIn, Part::MessagesOut, Part::OtherMessages])
            }
            Piece::Stored { depot, .. } if depot != self.depot => Part::StoredElsewhere,
            Piece::Stored { bearing, .. } if self.bearings.contains(&bearing) => Part::StoredNamed,
            Piece::Stored { bearing, .. } if self.taken.contains(&bearing) => Part::StoredTaken,
            Piece::Stored { bearing, .. } => one(self.untaken.contains(&bearing), Part::StoredUntaken, Part::StoredBeside),
        }
    }

    /// Whether the call is to this shelf of its depot.
    fn on(&self, shelf: usize) -> bool {
        self.shelf.map_or(true, |named| named == shelf)
    }

    /// The part that a link has: one in that is named, another in, one out, or any other.
    fn link(&self, shelf: usize, from: usize, to: usize, [named, other, out, any]: [Part; 4]) -> Part {
        match (self.on(shelf), from == self.depot, to == self.depot) {
            (true, _, true) if self.from.map_or(true, |sender| sender == from) => named,
            (true, _, true) => other,
            (true, true, _) => out,
            _ => any,
        }
    }
}
