//! What the picture looks at in a book. `docs/LAYOUT.md` says where it stands.

use depot_register::{Bearing, Counts, Crew, Depot, Shelf, RECORD};

/// A message on a link, as its slot has it. On one link no two have the same stamp.
#[derive(Clone, Copy, Debug, PartialEq, Eq)]
pub struct Slot {
    pub stamp: u32,
    /// The bearing and its value, if it is a copy; else it is a heartbeat.
    pub copy: Option<(Bearing, u32)>,
    pub taken: bool,
}

/// A link: from a depot's shelf to the same shelf of another.
#[derive(Clone, Copy, Debug, PartialEq, Eq)]
pub struct Link {
    pub shelf: Shelf,
    pub from: Depot,
    pub to: Depot,
}

impl Link {
    /// All links of a register.
    pub fn all(counts: Counts) -> impl Iterator<Item = Link> {
        let ends = move |shelf| {
            (0..counts.depots).flat_map(move |from| {
                (0..counts.depots).filter(move |&to| to != from).map(move |to| Link {
                    shelf: Shelf(shelf),
                    from: Depot(from),
                    to: Depot(to),
                })
            })
        };
        (0..counts.shelves).flat_map(ends)
    }

    /// Its number, below 64.
    pub fn number(self) -> usize {
        (16 * self.shelf.0 + 4 * self.from.0 + self.to.0) as usize
    }

    /// Its messages, the oldest first.
    pub fn slots(self, book: &[u32]) -> Vec<Slot> {
        let head = 228 + 2 * self.number();
        let (held, taken) = (book[head] as usize, book[head + 1] as usize);
        (0..held)
            .map(|i| {
                let words = &book[356 + 160 * self.number() + 10 * i..][..10];
                let record = &words[1..];
                let copy = (words[0] == 1).then(|| (Bearing(record[0]), record[1]));
                let stamp = if copy.is_some() { record[5 + self.from.0 as usize] } else { words[1] };
                Slot { stamp, copy, taken: i < taken }
            })
            .collect()
    }
}

pub fn home(book: &[u32], crew: Crew) -> Depot {
    Depot(book[4 + crew.0 as usize])
}

/// The version of a bearing that a depot stores.
#[derive(Clone, Copy, Debug, PartialEq, Eq)]
pub struct Stored {
    pub value: u32,
    pub diameter: u32,
    pub width: u32,
    pub origin: Depot,
    pub stamp: u32,
}

/// The stored version, or nothing if the bearing is unwritten there.
pub fn stored(book: &[u32], depot: Depot, bearing: Bearing) -> Option<Stored> {
    let record = &book[10_596 + 1_440 * depot.0 as usize + RECORD * bearing.0 as usize..][..RECORD];
    let entries = &record[5..5 + book[0] as usize];
    entries.iter().any(|&entry| entry != 0).then(|| Stored {
        value: record[1],
        diameter: record[2],
        width: record[3],
        origin: Depot(record[4]),
        stamp: entries[record[4] as usize],
    })
}
