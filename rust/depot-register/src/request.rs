//! A call as a value: what is asked, to be made with its record.

use crate::{Bearing, Card, Counts, Crew, Depot, Shelf};

/// The calls that may change a book, by the numbers that records have for them.
#[derive(Clone, Copy, Debug, PartialEq, Eq, Hash)]
pub enum Kind {
    Setup = 1,
    Read = 2,
    Write = 3,
    Tick = 4,
    Take = 5,
    Refresh = 6,
    Move = 7,
    List = 8,
}

impl Kind {
    /// The kind's number.
    pub fn number(self) -> u32 {
        self as u32
    }
}

/// A call and what it is told, as the method of [`Register`](crate::Register) with its name takes it.
#[derive(Clone, Debug, PartialEq)]
pub enum Request {
    /// A fresh register in place of the one there is.
    Setup {
        counts: Counts,
        homes: Vec<Depot>,
    },
    Read {
        crew: Crew,
        bearing: Bearing,
    },
    Write {
        crew: Crew,
        bearing: Bearing,
        value: u32,
        card: Card,
    },
    Tick {
        depot: Depot,
        shelf: Shelf,
    },
    Take {
        at: Depot,
        shelf: Shelf,
        from: Depot,
    },
    Refresh {
        depot: Depot,
        shelf: Shelf,
    },
    Move {
        crew: Crew,
        depot: Depot,
    },
    List {
        crew: Crew,
        bearings: Vec<Bearing>,
    },
}

impl Request {
    pub fn kind(&self) -> Kind {
        match self {
            Request::Setup { .. } => Kind::Setup,
            Request::Read { .. } => Kind::Read,
            Request::Write { .. } => Kind::Write,
            Request::Tick { .. } => Kind::Tick,
            Request::Take { .. } => Kind::Take,
            Request::Refresh { .. } => Kind::Refresh,
            Request::Move { .. } => Kind::Move,
            Request::List { .. } => Kind::List,
        }
    }

    /// The numbers of the call, in the order of its record; of a card the bits.
    ///
    /// ```
    /// # use depot_register::{Bearing, Card, Crew, Kind, Request};
    /// let card = Card { diameter: 52.0, width: 15.0 };
    /// let write = Request::Write { crew: Crew(3), bearing: Bearing(2), value: 9_131, card };
    /// assert_eq!(write.numbers(), [3, 2, 9_131, 1112539136, 1097859072]);
    /// assert_eq!((write.kind().number(), write.bytes()), (3, 21));
    /// let list = Request::List { crew: Crew(3), bearings: vec![Bearing(2), Bearing(0)] };
    /// assert_eq!((list.numbers(), list.bytes()), (vec![3, 2, 0], 14));
    /// ```
    pub fn numbers(&self) -> Vec<u32> {
        match self {
            Request::Setup { counts, homes } => {
                let counts = [counts.depots, counts.shelves, counts.bearings, counts.crews];
                counts.into_iter().chain(homes.iter().map(|home| home.0)).collect()
            }
            Request::Read { crew, bearing } => vec![crew.0, bearing.0],
            Request::Write { crew, bearing, value, card } => {
                vec![crew.0, bearing.0, *value, card.diameter.to_bits(), card.width.to_bits()]
            }
            Request::Tick { depot, shelf } | Request::Refresh { depot, shelf } => vec![depot.0, shelf.0],
            Request::Take { at, shelf, from } => vec![at.0, shelf.0, from.0],
            Request::Move { crew, depot } => vec![crew.0, depot.0],
            Request::List { crew, bearings } => std::iter::once(crew.0).chain(bearings.iter().map(|bearing| bearing.0)).collect(),
        }
    }

    /// How many bytes the call's record has.
    pub fn bytes(&self) -> usize {
        match self {
            Request::Setup { homes, .. } => 18 + 4 * homes.len(),
            Request::Write { .. } => 21,
            Request::Take { .. } => 13,
            Request::Read { .. } | Request::Tick { .. } | Request::Refresh { .. } | Request::Move { .. } => 9,
            Request::List { bearings, .. } => 6 + 4 * bearings.len(),
        }
    }
}
