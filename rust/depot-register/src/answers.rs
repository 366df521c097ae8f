//! What the calls answer.

use std::error::Error;
use std::fmt;

use crate::Card;

/// Why a call was refused. A refused call changed no word of the book.
#[derive(Clone, Copy, Debug, PartialEq, Eq, Hash)]
pub enum Refusal {
    /// The length, a count, a home or a part that the call looks at is not fit.
    BadBook = 1,
    /// A depot or a home is not below the count of depots.
    BadDepot = 2,
    /// A shelf is not below the count of shelves.
    BadShelf = 3,
    /// A bearing is not below the count of bearings.
    BadKey = 4,
    /// A crew is not below the count of crews.
    BadCrew = 5,
    /// A take from the depot itself.
    SameDepot = 6,
    /// No untaken message stands on the link.
    EmptyLink = 7,
    /// The crew's home entry is above the shelf's clock: tick that shelf, then write again.
    Wait = 8,
    /// Some link out has no room: its far end has to take, and to show what it took.
    LinkFull = 9,
    /// The clock is 2,147,483,647 and cannot move on.
    ClockAtEnd = 10,
    /// A count is out of range, or the homes are not as many as the crews.
    BadCounts = 11,
    /// A move, and some shelf of the new home has not seen all that the crew has: move again after some rounds.
    NotHereYet = 12,
    /// A length of the card is not finite, above 0 and at most 2,000.
    BadCard = 14,
    /// A list names no bearing, or more than 8.
    BadList = 15,
    /// The value to write is over [`LAST_DAY`](crate::calendar::LAST_DAY), 146,096.
    BadDate = 16,
}

impl Refusal {
    const ALL: [Refusal; 15] = [
        Refusal::BadBook,
        Refusal::BadDepot,
        Refusal::BadShelf,
        Refusal::BadKey,
        Refusal::BadCrew,
        Refusal::SameDepot,
        Refusal::EmptyLink,
        Refusal::Wait,
        Refusal::LinkFull,
        Refusal::ClockAtEnd,
        Refusal::BadCounts,
        Refusal::NotHereYet,
        Refusal::BadCard,
        Refusal::BadList,
        Refusal::BadDate,
    ];

    /// The refusal's number.
    pub fn number(self) -> u32 {
        self as u32
    }

    /// The refusal of a number, as an answer line of the desk has it. 13, BAD LINE, is of no call.
    ///
    /// ```
    /// # use depot_register::Refusal;
    /// assert_eq!(Refusal::of_number(8), Some(Refusal::Wait));
    /// assert_eq!(Refusal::of_number(13), None);
    /// ```
    pub fn of_number(number: u32) -> Option<Refusal> {
        Refusal::ALL.into_iter().find(|refusal| refusal.number() == number)
    }

    /// The refusal's name in the register's table.
    ///
    /// ```
    /// # use depot_register::Refusal;
    /// assert_eq!(Refusal::LinkFull.name(), "LINK FULL");
    /// ```
    pub fn name(self) -> &'static str {
        match self {
            Refusal::BadBook => "BAD BOOK",
            Refusal::BadDepot => "BAD DEPOT",
            Refusal::BadShelf => "BAD SHELF",
            Refusal::BadKey => "BAD KEY",
            Refusal::BadCrew => "BAD CREW",
            Refusal::SameDepot => "SAME DEPOT",
            Refusal::EmptyLink => "EMPTY LINK",
            Refusal::Wait => "WAIT",
            Refusal::LinkFull => "LINK FULL",
            Refusal::ClockAtEnd => "CLOCK AT END",
            Refusal::BadCounts => "BAD COUNTS",
            Refusal::NotHereYet => "NOT HERE YET",
            Refusal::BadCard => "BAD CARD",
            Refusal::BadList => "BAD LIST",
            Refusal::BadDate => "BAD DATE",
        }
    }

    /// `Ok` for the number of "done", else the refusal.
    pub(crate) fn check(number: u32) -> Result<(), Refusal> {
        if number == 0 {
            return Ok(());
        }
        let refusal = Refusal::of_number(number);
        Err(refusal.unwrap_or_else(|| panic!("the library answered {}, which is no number of a call", number)))
    }
}

impl fmt::Display for Refusal {
    fn fmt(&self, f: &mut fmt::Formatter<'_>) -> fmt::Result {
        f.write_str(match self {
            Refusal::BadBook => "the book is not fit",
            Refusal::BadDepot => "no such depot",
            Refusal::BadShelf => "no such shelf",
            Refusal::BadKey => "no such bearing",
            Refusal::BadCrew => "no such crew",
            Refusal::SameDepot => "a depot takes nothing from itself",
            Refusal::EmptyLink => "no message is left to take",
            Refusal::Wait => "the crew is ahead of the shelf's clock",
            Refusal::LinkFull => "a link out has no room",
            Refusal::ClockAtEnd => "the clock is at its end",
            Refusal::BadCounts => "a count is out of range, or the homes are not as many as the crews",
            Refusal::NotHereYet => "the new home has not seen all that the crew has",
            Refusal::BadCard => "a length of the card is out of range, or no number",
            Refusal::BadList => "the list names no bearing, or more than eight",
            Refusal::BadDate => "the day is beyond the calendar",
        })
    }
}

impl Error for Refusal {}

/// What a read found at the crew's home.
#[derive(Clone, Copy, Debug, PartialEq)]
pub enum Reading {
    /// Nobody wrote the bearing, as far as this depot shows.
    Unwritten,
    /// The value, its card, and the vector of its version: one entry a depot, 0 past the last.
    Written { value: u32, card: Card, vector: [u32; 4] },
}

impl Reading {
    /// The value, if there is one.
    pub fn value(self) -> Option<u32> {
        match self {
            Reading::Unwritten => None,
            Reading::Written { value, .. } => Some(value),
        }
    }

    /// The card, if there is one.
    pub fn card(self) -> Option<Card> {
        match self {
            Reading::Unwritten => None,
            Reading::Written { card, .. } => Some(card),
        }
    }
}

/// What became of a write. Either way a copy goes to every other depot.
#[derive(Clone, Copy, Debug, PartialEq, Eq, Hash)]
pub enum Written {
    /// It is now the version that the depot stores.
    Current { stamp: u32 },
    /// The depot stores a greater one, which stays.
    Superseded { stamp: u32 },
}

impl Written {
    /// The stamp of the write.
    pub fn stamp(self) -> u32 {
        match self {
            Written::Current { stamp } | Written::Superseded { stamp } => stamp,
        }
    }
}

/// What a call that is done answers, whichever it is.
#[derive(Clone, Debug, PartialEq)]
pub enum Answer {
    /// That it is done, and no more: a setup, a tick, a take, a refresh or a move.
    Done,
    Read(Reading),
    Written(Written),
    /// Of each bearing, in list order.
    List(Vec<Reading>),
}

/// Which depots store a depot's present version of a bearing or a greater one.
#[derive(Clone, Copy, Debug, PartialEq, Eq, Hash)]
pub struct Holders {
    /// Bit d for depot d.
    pub mask: u32,
    /// How many bits are set.
    pub count: u32,
}

impl Holders {
    /// Whether this depot has it.
    pub fn includes(self, depot: crate::Depot) -> bool {
        self.mask.checked_shr(depot.0).unwrap_or(0) & 1 == 1
    }
}
