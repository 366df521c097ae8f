//! Fitness, piece by piece, with the places where a mistake can be switched on.

use super::{Slip, Slipped};
use crate::parts::{pieces, Piece};
use straight::calendar::LAST_DAY;
use straight::layout::*;
use straight::Counts;

const LIMITS: [u32; 4] = [MOST_DEPOTS, MOST_SHELVES, MOST_BEARINGS, MOST_CREWS];

impl Slipped {
    /// Whether the whole book is fit.
    pub(super) fn fit(&self, book: &[u32]) -> bool {
        if book.len() != WORDS || !self.counts_fit(book, 4) || !self.homes_fit(book) {
            return false;
        }
        let n = Counts::of(book);
        let diagonal = |depot: usize, shelf: usize| book[held(link(shelf, depot, depot))] <= ROOM;
        let diagonals = || (0..n.depots).all(|depot| (0..n.shelves).all(|shelf| diagonal(depot, shelf)));
        pieces(n).into_iter().all(|piece| self.piece_fit(book, n, piece)) && (!self.has(Slip::FitDiagonal) || diagonals())
    }

    /// Whether the first so many counts are fit.
    pub(super) fn counts_fit(&self, book: &[u32], counts: usize) -> bool {
        (0..counts).all(|at| 1 <= book[at] && book[at] <= LIMITS[at])
    }

    pub(super) fn homes_fit(&self, book: &[u32]) -> bool {
        let crews = if self.has(Slip::FitAllHomes) { MOST_CREWS } else { book[3].min(MOST_CREWS) };
        (0..crews as usize).all(|crew| book[home(crew)] < book[0])
    }

    pub(super) fn piece_fit(&self, book: &[u32], n: Counts, piece: Piece) -> bool {
        match piece {
            Piece::CrewVector { crew } => self.entries(&book[crew_vector(crew)..], n),
            Piece::Clock { depot, shelf } => book[clock(depot, shelf)] <= END,
            Piece::Stable { depot, shelf } => {
                let vector = &book[stable(depot, shelf)..];
                self.entries(vector, n) && (vector[depot] == 0 || self.has(Slip::FitOwnStable))
            }
            Piece::Seen { depot, shelf, from } => {
                let own = !self.has(Slip::FitOwnSeen) || self.stamp(book[seen(depot, shelf, depot)]);
                self.stamp(book[seen(depot, shelf, from)]) && own
            }
            Piece::Head { shelf, from, to } => {
                let (held, taken) = (book[held(link(shelf, from, to))], book[taken(link(shelf, from, to))]);
                let most = if self.has(Slip::FitSeventeen) { ROOM + 1 } else { ROOM };
                held <= most && (taken <= held || self.has(Slip::HeldOnly))
            }
            Piece::Taken { shelf, from, to } | Piece::Untaken { shelf, from, to } => {
                let mut places = piece.places(book, ROOM + u32::from(self.has(Slip::FitSeventeen)));
                places.all(|place| self.message_fit(book, n, shelf, from, to, place))
            }
            Piece::Stored { depot, bearing } => self.stored(book, n, depot, bearing),
        }
    }

    pub(super) fn message_fit(&self, book: &[u32], n: Counts, shelf: usize, from: usize, to: usize, place: usize) -> bool {
        let link = link(shelf, from, to);
        let message = &book[slot(link, place)..][..SLOT];
        let untaken = place >= book[taken(link)] as usize;
        match message[0] {
            COPY => self.copy(&message[1..], n, shelf, from),
            HEARTBEAT => (untaken || self.has(Slip::FitTakenBeat)) && self.stamp(message[1]),
            _ => false,
        }
    }

    fn stamp(&self, stamp: u32) -> bool {
        match self.0 {
            Slip::FitPastEnd => stamp <= END + 1,
            Slip::FitBelowEnd => stamp < END,
            _ => stamp <= END,
        }
    }

    fn entries(&self, vector: &[u32], n: Counts) -> bool {
        vector[..n.depots].iter().all(|&entry| self.stamp(entry))
    }

    fn copy(&self, record: &[u32], n: Counts, shelf: usize, from: usize) -> bool {
        let bearing = record[BEARING] as usize;
        let origin = record[ORIGIN] as usize;
        let late = self.has(Slip::FitCopyDate) && record[VALUE] > LAST_DAY;
        !late
            && (origin == from || (self.has(Slip::FitAnyOrigin) && origin < n.depots))
            && bearing < n.bearings
            && (bearing % n.shelves == shelf || self.has(Slip::FitAnyShelf))
            && self.entries(&record[VECTOR..], n)
            && (record[VECTOR + from] > 0 || self.has(Slip::FitNoStamp))
            && (straight::is_card(record[DIAMETER], record[WIDTH]) || self.has(Slip::FitCopyCard))
    }

    fn stored(&self, book: &[u32], n: Counts, depot: usize, bearing: usize) -> bool {
        let record = &book[stored(depot, bearing)..][..RECORD];
        let unwritten = record[VECTOR..][..n.depots].iter().all(|&entry| entry == 0);
        let origin = record[ORIGIN] as usize;
        let place = record[BEARING] as usize == bearing;
        let card = straight::is_card(record[DIAMETER], record[WIDTH]);
        if unwritten && self.has(Slip::FitUnwrittenCard) {
            return card || record[DIAMETER..ORIGIN] == [0, 0];
        }
        if unwritten {
            return place || record[BEARING] == 0 || !self.has(Slip::FitUnwritten);
        }
        let late = self.has(Slip::FitStoredDate) && record[VALUE] > LAST_DAY;
        !late
            && place
            && origin < n.depots
            && self.entries(&record[VECTOR..], n)
            && (record[VECTOR + origin] > 0 || self.has(Slip::FitNoStamp))
            && (card || self.has(Slip::FitStoredCard))
    }
}
