//! Where everything lies in a book, from `docs/LAYOUT.md`.

/// The words of a book.
pub const WORDS: usize = 16_384;
/// The last number a clock, a stamp or an entry of a vector can have.
pub const END: u32 = 2_147_483_647;
/// The messages a link has room for.
pub const ROOM: u32 = 16;

pub const MOST_DEPOTS: u32 = 4;
pub const MOST_SHELVES: u32 = 4;
pub const MOST_BEARINGS: u32 = 160;
pub const MOST_CREWS: u32 = 16;

/// The words of a version record, and where its parts lie in it.
pub const RECORD: usize = 9;
pub const BEARING: usize = 0;
pub const VALUE: usize = 1;
pub const DIAMETER: usize = 2;
pub const WIDTH: usize = 3;
pub const ORIGIN: usize = 4;
pub const VECTOR: usize = 5;

/// The words of a slot: the kind, then a record or a stamp.
pub const SLOT: usize = 10;
pub const COPY: u32 = 1;
pub const HEARTBEAT: u32 = 2;

/// How many depots, shelves, bearings and crews a book has.
#[derive(Clone, Copy, Debug, PartialEq, Eq)]
pub struct Counts {
    pub depots: usize,
    pub shelves: usize,
    pub bearings: usize,
    pub crews: usize,
}

impl Counts {
    /// The counts a book holds, fit or not.
    pub fn of(book: &[u32]) -> Counts {
        Counts { depots: book[0] as usize, shelves: book[1] as usize, bearings: book[2] as usize, crews: book[3] as usize }
    }
}

pub fn home(crew: usize) -> usize {
    4 + crew
}

/// The first entry of a crew's vector.
pub fn crew_vector(crew: usize) -> usize {
    20 + 4 * crew
}

pub fn clock(depot: usize, shelf: usize) -> usize {
    84 + 4 * depot + shelf
}

/// The first entry of a shelf's stable vector.
pub fn stable(depot: usize, shelf: usize) -> usize {
    100 + 16 * depot + 4 * shelf
}

/// The last stamp that a shelf has seen from another depot.
pub fn seen(depot: usize, shelf: usize, from: usize) -> usize {
    164 + 16 * depot + 4 * shelf + from
}

/// The number of a link.
pub fn link(shelf: usize, from: usize, to: usize) -> usize {
    16 * shelf + 4 * from + to
}

/// The head word of a link that says how many messages it holds.
pub fn held(link: usize) -> usize {
    228 + 2 * link
}

/// The head word of a link that says how many of its messages are taken.
pub fn taken(link: usize) -> usize {
    229 + 2 * link
}

pub fn slot(link: usize, place: usize) -> usize {
    356 + 160 * link + SLOT * place
}

/// The record of the version of a bearing that a depot stores.
pub fn stored(depot: usize, bearing: usize) -> usize {
    10_596 + 1_440 * depot + RECORD * bearing
}
