//! A call as a value: what a line of the desk asks for, and what a record of a journal holds. These are the calls that may
//! change a book, and no others.

use crate::calls::{self, Reading, Written};
use crate::Refusal;

/// A call and its numbers, in the order in which the call takes them.
#[derive(Clone, Debug, PartialEq, Eq)]
pub enum Request {
    Setup { depots: u32, shelves: u32, bearings: u32, crews: u32, homes: Vec<u32> },
    Read { crew: u32, bearing: u32 },
    Write { crew: u32, bearing: u32, value: u32, diameter: u32, width: u32 },
    Tick { depot: u32, shelf: u32 },
    Take { depot: u32, shelf: u32, from: u32 },
    Refresh { depot: u32, shelf: u32 },
    Move { crew: u32, depot: u32 },
    List { crew: u32, bearings: Vec<u32> },
}

/// What a call that is done answers.
#[derive(Clone, Debug, PartialEq, Eq)]
pub enum Answer {
    /// That it is done, and no more.
    Done,
    Read(Reading),
    Written(Written),
    List(Vec<Reading>),
}

/// Makes the call on a book.
pub fn call(book: &mut [u32], request: &Request) -> Result<Answer, Refusal> {
    match request {
        Request::Setup { depots, shelves, bearings, crews, homes } => {
            calls::setup(book, *depots, *shelves, *bearings, *crews, homes).map(|()| Answer::Done)
        }
        Request::Read { crew, bearing } => calls::read(book, *crew, *bearing).map(Answer::Read),
        Request::Write { crew, bearing, value, diameter, width } => {
            calls::write(book, *crew, *bearing, *value, *diameter, *width).map(Answer::Written)
        }
        Request::Tick { depot, shelf } => calls::tick(book, *depot, *shelf).map(|()| Answer::Done),
        Request::Take { depot, shelf, from } => calls::take(book, *depot, *shelf, *from).map(|()| Answer::Done),
        Request::Refresh { depot, shelf } => calls::refresh(book, *depot, *shelf).map(|()| Answer::Done),
        Request::Move { crew, depot } => calls::move_crew(book, *crew, *depot).map(|()| Answer::Done),
        Request::List { crew, bearings } => calls::list(book, *crew, bearings).map(Answer::List),
    }
}
