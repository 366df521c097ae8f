//! What is fit, part by part, as `docs/LAYOUT.md` lists the parts. The whole book is fit if every part is.

use crate::card::is_card;
use crate::layout::*;

/// Whether a book is fit. One of all zeros is not.
pub fn is_fit(book: &[u32]) -> bool {
    if !counts_and_homes(book) {
        return false;
    }
    let n = Counts::of(book);
    (0..n.crews).all(|crew| crew_vector_is_fit(book, n, crew))
        && (0..n.depots).all(|depot| (0..n.shelves).all(|shelf| shelf_is_fit(book, n, depot, shelf)))
        && (0..n.shelves).all(|shelf| links_are_fit(book, n, shelf))
        && (0..n.depots).all(|depot| (0..n.bearings).all(|bearing| stored_is_fit(book, n, depot, bearing)))
}

/// Whether that is fit which every call but setup asks for: the length, the counts and the homes of all crews.
pub fn counts_and_homes(book: &[u32]) -> bool {
    if book.len() != WORDS || !counts_are_fit([book[0], book[1], book[2], book[3]]) {
        return false;
    }
    let n = Counts::of(book);
    (0..n.crews).all(|crew| (book[home(crew)] as usize) < n.depots)
}

/// Whether each count is from 1 to its limit.
pub(crate) fn counts_are_fit(counts: [u32; 4]) -> bool {
    let most = [MOST_DEPOTS, MOST_SHELVES, MOST_BEARINGS, MOST_CREWS];
    (0..4).all(|which| 1 <= counts[which] && counts[which] <= most[which])
}

pub(crate) fn crew_vector_is_fit(book: &[u32], n: Counts, crew: usize) -> bool {
    entries_are_fit(book, n, crew_vector(crew))
}

fn shelf_is_fit(book: &[u32], n: Counts, depot: usize, shelf: usize) -> bool {
    clock_is_fit(book, depot, shelf) && stable_is_fit(book, n, depot, shelf) && seen_are_fit(book, n, depot, shelf)
}

pub(crate) fn clock_is_fit(book: &[u32], depot: usize, shelf: usize) -> bool {
    book[clock(depot, shelf)] <= END
}

pub(crate) fn stable_is_fit(book: &[u32], n: Counts, depot: usize, shelf: usize) -> bool {
    entries_are_fit(book, n, stable(depot, shelf)) && book[stable(depot, shelf) + depot] == 0
}

/// The stamps that a shelf has seen from all other depots.
pub(crate) fn seen_are_fit(book: &[u32], n: Counts, depot: usize, shelf: usize) -> bool {
    (0..n.depots).all(|from| from == depot || seen_is_fit(book, depot, shelf, from))
}

pub(crate) fn seen_is_fit(book: &[u32], depot: usize, shelf: usize, from: usize) -> bool {
    book[seen(depot, shelf, from)] <= END
}

fn links_are_fit(book: &[u32], n: Counts, shelf: usize) -> bool {
    (0..n.depots).all(|from| (0..n.depots).all(|to| from == to || link_is_fit(book, n, shelf, from, to)))
}

/// A link's head and its messages.
pub(crate) fn link_is_fit(book: &[u32], n: Counts, shelf: usize, from: usize, to: usize) -> bool {
    head_is_fit(book, shelf, from, to) && messages_are_fit(book, n, shelf, from, to, 0)
}

/// The messages, from place `first` on, of a link whose head is fit.
pub(crate) fn messages_are_fit(book: &[u32], n: Counts, shelf: usize, from: usize, to: usize, first: usize) -> bool {
    let link = link(shelf, from, to);
    let (held, taken) = (book[held(link)] as usize, book[taken(link)] as usize);
    (first..held).all(|place| {
        let message = &book[slot(link, place)..][..SLOT];
        message_is_fit(message, n, shelf, from) && (place >= taken || message[0] == COPY)
    })
}

/// A message on a link that is not taken.
pub(crate) fn message_is_fit(message: &[u32], n: Counts, shelf: usize, from: usize) -> bool {
    match message[0] {
        COPY => copy_is_fit(&message[1..], n, shelf, from),
        HEARTBEAT => message[1] <= END,
        _ => false,
    }
}

/// A link's two counts: at most 16 messages held, no more taken than held.
pub(crate) fn head_is_fit(book: &[u32], shelf: usize, from: usize, to: usize) -> bool {
    let link = link(shelf, from, to);
    book[held(link)] <= ROOM && book[taken(link)] <= book[held(link)]
}

/// Whether the record of a copy fits the link's shelf and sender.
fn copy_is_fit(record: &[u32], n: Counts, shelf: usize, from: usize) -> bool {
    let bearing = record[BEARING] as usize;
    record[ORIGIN] as usize == from
        && bearing < n.bearings
        && bearing % n.shelves == shelf
        && entries_are_fit(record, n, VECTOR)
        && record[VECTOR + from] > 0
        && is_card(record[DIAMETER], record[WIDTH])
}

pub(crate) fn stored_is_fit(book: &[u32], n: Counts, depot: usize, bearing: usize) -> bool {
    let record = &book[stored(depot, bearing)..][..RECORD];
    let unwritten = record[VECTOR..][..n.depots].iter().all(|&entry| entry == 0);
    let origin = record[ORIGIN] as usize;
    unwritten
        || (record[BEARING] as usize == bearing
            && origin < n.depots
            && entries_are_fit(record, n, VECTOR)
            && record[VECTOR + origin] > 0
            && is_card(record[DIAMETER], record[WIDTH]))
}

/// Whether the vector that starts at `at` is in range.
fn entries_are_fit(words: &[u32], n: Counts, at: usize) -> bool {
    words[at..at + n.depots].iter().all(|&entry| entry <= END)
}
