//! What a call looks at first, with the places where a mistake can be switched on.

use super::{Slip, Slipped};
use crate::event::Event;
use crate::parts::{looks, pieces, Call, Named, Part, Piece};
use straight::layout::*;
use straight::{Counts, Refusal};

impl Slipped {
    /// The counts, after a look at the length, the counts and the homes.
    pub(super) fn counts(&self, book: &[u32], event: &Event) -> Result<Counts, Refusal> {
        let counts = if self.has(Slip::TickOwnCounts) && matches!(event, Event::Tick { .. }) { 2 } else { 4 };
        if book.len() != WORDS || !self.counts_fit(book, counts) {
            return Err(Refusal::BadBook);
        }
        let mut n = Counts::of(book);
        // A slip may meet counts that are not fit.
        n.bearings = n.bearings.clamp(1, MOST_BEARINGS as usize);
        n.crews = n.crews.min(MOST_CREWS as usize);
        let fit = match (self.0, event) {
            (Slip::HomesLate, _) => true,
            (
                Slip::OwnHomeOnly,
                Event::Read { crew, .. } | Event::Write { crew, .. } | Event::Move { crew, .. } | Event::List { crew, .. },
            ) => *crew as usize >= n.crews || (book[home(*crew as usize)] as usize) < n.depots,
            (Slip::OwnHomeOnly, _) => true,
            _ => self.homes_fit(book),
        };
        let wrong = || !self.homes_fit(book) || Named::of(book, n, event).is_none();
        if !fit || (self.has(Slip::WrongNumberWhole) && wrong() && !self.fit(book)) {
            return Err(Refusal::BadBook);
        }
        Ok(n)
    }

    /// BAD BOOK, unless the parts that a call looks at are fit. Its numbers are in range.
    pub(super) fn look(&self, book: &[u32], n: Counts, event: &Event) -> Result<(), Refusal> {
        if self.has(Slip::HomesLate) && !self.homes_fit(book) {
            return Err(Refusal::BadBook);
        }
        let mut named = Named::of(book, n, event).expect("the numbers are in range");
        if self.has(Slip::CoveredOnly) {
            named.taken = self.covered_bearings(book, n, &named);
        }
        let fit = if self.has(Slip::Whole(named.call)) {
            self.fit(book)
        } else {
            pieces(n).into_iter().all(|piece| !self.looks_at(&named, n, piece) || self.seems_fit(book, n, &named, piece))
        };
        if fit {
            Ok(())
        } else {
            Err(Refusal::BadBook)
        }
    }

    /// Whether a call looks at a piece.
    fn looks_at(&self, named: &Named, n: Counts, piece: Piece) -> bool {
        let (call, part) = (named.call, named.part(piece));
        let shows = matches!(call, Call::Read | Call::Write | Call::Refresh | Call::List);
        match (self.0, part) {
            (Slip::Without(slipped, without), _) if call == slipped && part == without => false,
            (Slip::With(slipped, with), _) if call == slipped && part == with => true,
            (Slip::ListedParts, Part::Stable | Part::HeadsIn | Part::TakenIn | Part::UntakenIn) if call == Call::List => {
                let (Piece::Stable { shelf, .. } | Piece::Head { shelf, .. } | Piece::Taken { shelf, .. }
                | Piece::Untaken { shelf, .. }) = piece
                else {
                    return false;
                };
                named.bearings.iter().any(|bearing| bearing % n.shelves == shelf)
            }
            (Slip::FirstStored, Part::StoredNamed) if call == Call::List => {
                matches!(piece, Piece::Stored { bearing, .. } if named.bearings[0] == bearing)
            }
            (Slip::HeadsOfOtherWay, Part::HeadsOut) => false,
            (Slip::HeadsOfOtherWay, Part::HeadsIn) if call == Call::Tick => true,
            (Slip::TakeOtherWay, Part::HeadsIn | Part::UntakenIn) if call == Call::Take => false,
            (Slip::TakeOtherWay, Part::HeadsOut | Part::MessagesOut) if call == Call::Take => match piece {
                Piece::Head { to, .. } | Piece::Untaken { to, .. } => named.from == Some(to),
                _ => false,
            },
            (Slip::ShowOtherWay, Part::HeadsIn | Part::TakenIn | Part::UntakenIn) if shows => false,
            (Slip::ShowOtherWay, Part::HeadsOut | Part::MessagesOut) if shows => true,
            (Slip::SeenOfShelfZero, Part::SeenHere | Part::SeenBeside) if call == Call::Refresh => {
                matches!(piece, Piece::Seen { shelf: 0, .. })
            }
            _ => looks(call, part),
        }
    }

    /// Whether a piece that a call looks at seems fit to it.
    fn seems_fit(&self, book: &[u32], n: Counts, named: &Named, piece: Piece) -> bool {
        match (self.0, piece) {
            (Slip::OneMessage, Piece::Untaken { shelf, from, to }) if named.call == Call::Take => {
                let (held, place) = self.head(book, link(shelf, from, to));
                place >= held || self.message_fit(book, n, shelf, from, to, place)
            }
            (Slip::TakenOnly, Piece::Untaken { .. }) if named.call != Call::Take => true,
            (Slip::SeenOwnToo, Piece::Seen { depot, shelf, .. }) if named.call == Call::Refresh => {
                self.piece_fit(book, n, piece) && book[seen(depot, shelf, depot)] <= END
            }
            _ => self.piece_fit(book, n, piece),
        }
    }

    /// The bearings of the taken copies into the call's shelf that its stable vector covers.
    fn covered_bearings(&self, book: &[u32], n: Counts, named: &Named) -> Vec<usize> {
        let mut bearings = Vec::new();
        for shelf in named.shelves(n) {
            for from in (0..n.depots).filter(|&from| from != named.depot) {
                let link = link(shelf, from, named.depot);
                for place in 0..self.head(book, link).1 {
                    let copy = slot(link, place) + 1;
                    let stable = stable(named.depot, shelf);
                    if (0..n.depots).all(|x| x == named.depot || book[copy + VECTOR + x] <= book[stable + x]) {
                        bearings.push(book[copy + BEARING] as usize);
                    }
                }
            }
        }
        bearings
    }

    /// The counts of a link's head, held and taken, brought into range: a slip may meet any.
    pub(super) fn head(&self, book: &[u32], link: usize) -> (usize, usize) {
        let most = ROOM + u32::from(self.has(Slip::FitSeventeen));
        let held = book[held(link)].min(most);
        (held as usize, book[taken(link)].min(held) as usize)
    }
}
