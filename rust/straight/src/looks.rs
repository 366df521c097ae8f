//! What a call looks at first, from the section of that name in `docs/LAYOUT.md`: for each call its parts, all of which have
//! to be fit. The counts and the homes are, and the numbers are in range.

use crate::fit::*;
use crate::layout::*;

/// The clock; the heads of the links out.
pub fn tick(book: &[u32], n: Counts, depot: usize, shelf: usize) -> bool {
    clock_is_fit(book, depot, shelf) && (0..n.depots).all(|to| to == depot || head_is_fit(book, shelf, depot, to))
}

/// The stamp seen from the sender; the link from there, as for a frame.
pub fn take(book: &[u32], n: Counts, depot: usize, shelf: usize, from: usize) -> bool {
    seen_is_fit(book, depot, shelf, from) && frame(book, n, depot, shelf, from)
}

/// The head of the link from the sender, and of its messages the untaken ones.
pub fn frame(book: &[u32], n: Counts, depot: usize, shelf: usize, from: usize) -> bool {
    head_is_fit(book, shelf, from, depot)
        && messages_are_fit(book, n, shelf, from, depot, book[taken(link(shelf, from, depot))] as usize)
}

/// The stamps seen on all shelves of the depot; what raise and show touches.
pub fn refresh(book: &[u32], n: Counts, depot: usize, shelf: usize) -> bool {
    (0..n.shelves).all(|any| seen_are_fit(book, n, depot, any)) && raise_and_show(book, n, depot, shelf)
}

/// The crew's vector; the stored version of the bearing at its home; what raise and show touches there.
pub fn read(book: &[u32], n: Counts, crew: usize, bearing: usize) -> bool {
    let depot = book[home(crew)] as usize;
    crew_vector_is_fit(book, n, crew)
        && stored_is_fit(book, n, depot, bearing)
        && raise_and_show(book, n, depot, bearing % n.shelves)
}

/// The crew's vector; the stored versions of the listed bearings at its home; what raise and show touches at every shelf there.
pub fn list(book: &[u32], n: Counts, crew: usize, bearings: &[usize]) -> bool {
    let depot = book[home(crew)] as usize;
    crew_vector_is_fit(book, n, crew)
        && bearings.iter().all(|&bearing| stored_is_fit(book, n, depot, bearing))
        && (0..n.shelves).all(|shelf| raise_and_show(book, n, depot, shelf))
}

/// As a read, and as a tick of the bearing's shelf at the crew's home.
pub fn write(book: &[u32], n: Counts, crew: usize, bearing: usize) -> bool {
    let depot = book[home(crew)] as usize;
    read(book, n, crew, bearing) && tick(book, n, depot, bearing % n.shelves)
}

/// The stored versions of the bearing at every depot.
pub fn who_has(book: &[u32], n: Counts, bearing: usize) -> bool {
    (0..n.depots).all(|depot| stored_is_fit(book, n, depot, bearing))
}

/// The crew's vector; the stamps seen on all shelves of the new home.
pub fn move_crew(book: &[u32], n: Counts, crew: usize, depot: usize) -> bool {
    crew_vector_is_fit(book, n, crew) && (0..n.shelves).all(|shelf| seen_are_fit(book, n, depot, shelf))
}

/// The stable vector; each link in, head and messages; the stored version of the bearing of each taken copy on them.
fn raise_and_show(book: &[u32], n: Counts, depot: usize, shelf: usize) -> bool {
    stable_is_fit(book, n, depot, shelf)
        && (0..n.depots).all(|from| {
            from == depot || (link_is_fit(book, n, shelf, from, depot) && taken_are_fit(book, n, depot, link(shelf, from, depot)))
        })
}

/// The stored version of the bearing of each taken copy of a fit link, covered or not.
fn taken_are_fit(book: &[u32], n: Counts, depot: usize, link: usize) -> bool {
    (0..book[taken(link)] as usize).all(|place| {
        let bearing = book[slot(link, place) + 1 + BEARING] as usize;
        stored_is_fit(book, n, depot, bearing)
    })
}
