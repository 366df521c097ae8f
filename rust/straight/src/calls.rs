//! The calls. Each checks in the order of the specification's table, then acts; a refusal moves no word.
//!
//! BAD BOOK comes first in that table, for the length, the counts, the homes and the parts that the call names. A number out
//! of range names no part, so each call checks its numbers between the two.

use crate::calendar::LAST_DAY;
use crate::card::is_card;
use crate::fit::{counts_and_homes, counts_are_fit};
use crate::layout::*;
use crate::looks;
use crate::order::above;
use crate::Refusal;

/// The most bearings that a list has.
pub const LONGEST_LIST: usize = 8;

/// The answer to a read: the value, if the bearing is written, the bits of its card's two lengths, 0 if it is not, and its
/// vector; entries past the depots are 0.
#[derive(Clone, Copy, Debug, PartialEq, Eq)]
pub struct Reading {
    pub value: Option<u32>,
    pub diameter: u32,
    pub width: u32,
    pub vector: [u32; 4],
}

/// The answer to a write: its stamp, and whether it is stored where it was written.
#[derive(Clone, Copy, Debug, PartialEq, Eq)]
pub struct Written {
    pub stamp: u32,
    pub current: bool,
}

/// Makes a fresh register in the book.
pub fn setup(book: &mut [u32], depots: u32, shelves: u32, bearings: u32, crews: u32, homes: &[u32]) -> Result<(), Refusal> {
    if book.len() != WORDS {
        return Err(Refusal::BadBook);
    }
    if !counts_are_fit([depots, shelves, bearings, crews]) || homes.len() != crews as usize {
        return Err(Refusal::BadCounts);
    }
    if homes.iter().any(|&home| home >= depots) {
        return Err(Refusal::BadDepot);
    }
    book.fill(0);
    book[..4].copy_from_slice(&[depots, shelves, bearings, crews]);
    book[home(0)..home(homes.len())].copy_from_slice(homes);
    Ok(())
}

/// A crew reads a bearing at its home depot.
pub fn read(book: &mut [u32], crew: u32, bearing: u32) -> Result<Reading, Refusal> {
    let n = counts(book)?;
    let crew = below(crew, n.crews, Refusal::BadCrew)?;
    let bearing = below(bearing, n.bearings, Refusal::BadKey)?;
    fit(looks::read(book, n, crew, bearing))?;

    let depot = book[home(crew)] as usize;
    let offered = vector(book, n, crew_vector(crew));
    raise_and_show(book, n, depot, bearing % n.shelves, offered);

    let reading = reading(book, n, depot, bearing);
    merge(book, n, crew, reading.vector);
    Ok(reading)
}

/// A crew reads 1 to 8 bearings at its home depot, all at one moment. What all shelves there know is put together with what
/// the crew knows, and every shelf is raised and shown with it; then the bearings are read, in the order of the list.
pub fn list(book: &mut [u32], crew: u32, bearings: &[u32]) -> Result<Vec<Reading>, Refusal> {
    let n = counts(book)?;
    let crew = below(crew, n.crews, Refusal::BadCrew)?;
    if bearings.is_empty() || bearings.len() > LONGEST_LIST {
        return Err(Refusal::BadList);
    }
    let mut listed = Vec::new();
    for &bearing in bearings {
        listed.push(below(bearing, n.bearings, Refusal::BadKey)?);
    }
    fit(looks::list(book, n, crew, &listed))?;

    let depot = book[home(crew)] as usize;
    let mut offered = vector(book, n, crew_vector(crew));
    for shelf in 0..n.shelves {
        for x in (0..n.depots).filter(|&x| x != depot) {
            offered[x] = offered[x].max(book[stable(depot, shelf) + x]);
        }
    }
    for shelf in 0..n.shelves {
        raise_and_show(book, n, depot, shelf, offered);
    }

    let mut readings = Vec::new();
    for bearing in listed {
        let reading = reading(book, n, depot, bearing);
        merge(book, n, crew, reading.vector);
        readings.push(reading);
    }
    Ok(readings)
}

/// A crew writes a bearing's value, a day of the calendar, and its card, as the bits of two lengths, at its home depot.
pub fn write(book: &mut [u32], crew: u32, bearing: u32, value: u32, diameter: u32, width: u32) -> Result<Written, Refusal> {
    let n = counts(book)?;
    let crew = below(crew, n.crews, Refusal::BadCrew)?;
    let bearing = below(bearing, n.bearings, Refusal::BadKey)?;
    fit(looks::write(book, n, crew, bearing))?;
    if value > LAST_DAY {
        return Err(Refusal::BadDate);
    }
    if !is_card(diameter, width) {
        return Err(Refusal::BadCard);
    }
    let depot = book[home(crew)] as usize;
    let shelf = bearing % n.shelves;
    let mine = vector(book, n, crew_vector(crew));
    if mine[depot] > book[clock(depot, shelf)] {
        return Err(Refusal::Wait);
    }
    can_send(book, n, depot, shelf)?;

    raise_and_show(book, n, depot, shelf, mine);
    let stamp = book[clock(depot, shelf)] + 1;
    let mut version = [0; RECORD];
    version[BEARING] = bearing as u32;
    version[VALUE] = value;
    version[DIAMETER] = diameter;
    version[WIDTH] = width;
    version[ORIGIN] = depot as u32;
    version[VECTOR..].copy_from_slice(&mine);
    version[VECTOR + depot] = stamp;

    book[crew_vector(crew)..][..n.depots].copy_from_slice(&version[VECTOR..][..n.depots]);
    let place = &mut book[stored(depot, bearing)..][..RECORD];
    let current = above(&version, place, n.depots);
    if current {
        place.copy_from_slice(&version);
    }
    let mut message = [0; SLOT];
    message[0] = COPY;
    message[1..].copy_from_slice(&version);
    send(book, n, depot, shelf, stamp, message);
    Ok(Written { stamp, current })
}

/// A shelf's clock moves on, and a heartbeat tells the other depots.
pub fn tick(book: &mut [u32], depot: u32, shelf: u32) -> Result<(), Refusal> {
    let n = counts(book)?;
    let depot = below(depot, n.depots, Refusal::BadDepot)?;
    let shelf = below(shelf, n.shelves, Refusal::BadShelf)?;
    fit(looks::tick(book, n, depot, shelf))?;
    can_send(book, n, depot, shelf)?;

    let stamp = book[clock(depot, shelf)] + 1;
    let mut message = [0; SLOT];
    message[0] = HEARTBEAT;
    message[1] = stamp;
    send(book, n, depot, shelf, stamp, message);
    Ok(())
}

/// A shelf takes the first untaken message that another depot sent it.
pub fn take(book: &mut [u32], depot: u32, shelf: u32, from: u32) -> Result<(), Refusal> {
    let n = counts(book)?;
    let depot = below(depot, n.depots, Refusal::BadDepot)?;
    let from = below(from, n.depots, Refusal::BadDepot)?;
    let shelf = below(shelf, n.shelves, Refusal::BadShelf)?;
    if depot == from {
        return Err(Refusal::SameDepot);
    }
    fit(looks::take(book, n, depot, shelf, from))?;
    let link = link(shelf, from, depot);
    let (held_now, taken_now) = (book[held(link)] as usize, book[taken(link)] as usize);
    if taken_now == held_now {
        return Err(Refusal::EmptyLink);
    }

    let message = slot(link, taken_now);
    if book[message] == COPY {
        book[seen(depot, shelf, from)] = book[message + 1 + VECTOR + from];
        book[taken(link)] += 1;
    } else {
        book[seen(depot, shelf, from)] = book[message + 1];
        let end = slot(link, held_now);
        book.copy_within(message + SLOT..end, message);
        book[end - SLOT..end].fill(0);
        book[held(link)] -= 1;
    }
    Ok(())
}

/// A shelf shows what all shelves of its depot have seen the other depots pass.
pub fn refresh(book: &mut [u32], depot: u32, shelf: u32) -> Result<(), Refusal> {
    let n = counts(book)?;
    let depot = below(depot, n.depots, Refusal::BadDepot)?;
    let shelf = below(shelf, n.shelves, Refusal::BadShelf)?;
    fit(looks::refresh(book, n, depot, shelf))?;

    let lowest = lowest_seen(book, n, depot);
    raise_and_show(book, n, depot, shelf, lowest);
    Ok(())
}

/// A crew gets a new home. NOT HERE YET if that is another depot and some shelf there has not yet seen all that the crew has
/// heard of the depots other than it.
pub fn move_crew(book: &mut [u32], crew: u32, depot: u32) -> Result<(), Refusal> {
    let n = counts(book)?;
    let crew = below(crew, n.crews, Refusal::BadCrew)?;
    let depot = below(depot, n.depots, Refusal::BadDepot)?;
    fit(looks::move_crew(book, n, crew, depot))?;
    if book[home(crew)] as usize == depot {
        return Ok(());
    }
    let lowest = lowest_seen(book, n, depot);
    for x in (0..n.depots).filter(|&x| x != depot) {
        if book[crew_vector(crew) + x] > lowest[x] {
            return Err(Refusal::NotHereYet);
        }
    }
    book[home(crew)] = depot as u32;
    Ok(())
}

/// Which depots now store a depot's present version of a bearing or a greater one: a bit for each depot, and how many bits
/// are set. One with the same vector and origin is neither below nor above, and counts as that version. If the asked depot's
/// is unwritten, all depots have it.
pub fn who_has(book: &[u32], depot: u32, bearing: u32) -> Result<(u32, u32), Refusal> {
    let n = counts(book)?;
    let depot = below(depot, n.depots, Refusal::BadDepot)?;
    let bearing = below(bearing, n.bearings, Refusal::BadKey)?;
    fit(looks::who_has(book, n, bearing))?;

    let asked = &book[stored(depot, bearing)..][..RECORD];
    let mut mask = 0;
    let mut count = 0;
    for any in 0..n.depots {
        let there = &book[stored(any, bearing)..][..RECORD];
        if !above(asked, there, n.depots) {
            mask |= 1 << any;
            count += 1;
        }
    }
    Ok((mask, count))
}

/// The counts of a book whose length, counts and homes are fit.
pub(crate) fn counts(book: &[u32]) -> Result<Counts, Refusal> {
    fit(counts_and_homes(book))?;
    Ok(Counts::of(book))
}

/// BAD BOOK, unless it is fit.
pub(crate) fn fit(is: bool) -> Result<(), Refusal> {
    if is {
        Ok(())
    } else {
        Err(Refusal::BadBook)
    }
}

/// A number below its count, or the refusal that names it.
pub fn below(number: u32, count: usize, refusal: Refusal) -> Result<usize, Refusal> {
    if (number as usize) < count {
        Ok(number as usize)
    } else {
        Err(refusal)
    }
}

/// The D entries of the vector that starts at `at`, and 0 past them.
pub fn vector(book: &[u32], n: Counts, at: usize) -> [u32; 4] {
    let mut entries = [0; 4];
    entries[..n.depots].copy_from_slice(&book[at..at + n.depots]);
    entries
}

/// What a depot stores of a bearing, as the answer to a read.
fn reading(book: &[u32], n: Counts, depot: usize, bearing: usize) -> Reading {
    let record = stored(depot, bearing);
    let vector = vector(book, n, record + VECTOR);
    if vector == [0; 4] {
        return Reading { value: None, diameter: 0, width: 0, vector };
    }
    Reading { value: Some(book[record + VALUE]), diameter: book[record + DIAMETER], width: book[record + WIDTH], vector }
}

/// A crew's vector becomes the entrywise maximum with what it read.
fn merge(book: &mut [u32], n: Counts, crew: usize, read: [u32; 4]) {
    for x in 0..n.depots {
        let entry = &mut book[crew_vector(crew) + x];
        *entry = read[x].max(*entry);
    }
}

/// The lowest stamp that any shelf of a depot has seen from each depot; what it says of the depot itself means nothing.
fn lowest_seen(book: &[u32], n: Counts, depot: usize) -> [u32; 4] {
    let mut lowest = [END; 4];
    for from in 0..n.depots {
        for shelf in 0..n.shelves {
            lowest[from] = lowest[from].min(book[seen(depot, shelf, from)]);
        }
    }
    lowest
}

/// The other depots' entries of the stable vector rise to what is offered; then each incoming link is shown, from depot 0 on.
fn raise_and_show(book: &mut [u32], n: Counts, depot: usize, shelf: usize, offered: [u32; 4]) {
    for x in (0..n.depots).filter(|&x| x != depot) {
        let entry = &mut book[stable(depot, shelf) + x];
        *entry = offered[x].max(*entry);
    }
    for from in (0..n.depots).filter(|&from| from != depot) {
        show(book, n, depot, shelf, link(shelf, from, depot));
    }
}

/// Each taken copy that is covered goes to the store, if greater, and leaves the link; the others close up.
fn show(book: &mut [u32], n: Counts, depot: usize, shelf: usize, link: usize) {
    let (held_now, taken_now) = (book[held(link)] as usize, book[taken(link)] as usize);
    let mut kept = 0;
    let mut kept_taken = 0;
    for place in 0..held_now {
        let message = slot(link, place);
        if place < taken_now && covered(book, n, depot, shelf, message + 1 + VECTOR) {
            let copy = message + 1;
            let there = stored(depot, book[copy + BEARING] as usize);
            if above(&book[copy..][..RECORD], &book[there..][..RECORD], n.depots) {
                book.copy_within(copy..copy + RECORD, there);
            }
        } else {
            book.copy_within(message..message + SLOT, slot(link, kept));
            kept += 1;
            if place < taken_now {
                kept_taken += 1;
            }
        }
    }
    book[slot(link, kept)..slot(link, held_now)].fill(0);
    book[held(link)] = kept as u32;
    book[taken(link)] = kept_taken;
}

/// Whether the vector at `at` is at most the stable vector in all entries but the depot's own.
fn covered(book: &[u32], n: Counts, depot: usize, shelf: usize, at: usize) -> bool {
    (0..n.depots).all(|x| x == depot || book[at + x] <= book[stable(depot, shelf) + x])
}

/// Whether the clock can move on and every link out has room.
fn can_send(book: &[u32], n: Counts, depot: usize, shelf: usize) -> Result<(), Refusal> {
    if book[clock(depot, shelf)] == END {
        return Err(Refusal::ClockAtEnd);
    }
    if (0..n.depots).any(|to| to != depot && book[held(link(shelf, depot, to))] == ROOM) {
        return Err(Refusal::LinkFull);
    }
    Ok(())
}

/// The clock moves on to the stamp, and the message goes on every link out.
fn send(book: &mut [u32], n: Counts, depot: usize, shelf: usize, stamp: u32, message: [u32; SLOT]) {
    book[clock(depot, shelf)] = stamp;
    for to in (0..n.depots).filter(|&to| to != depot) {
        let link = link(shelf, depot, to);
        let free = slot(link, book[held(link)] as usize);
        book[free..free + SLOT].copy_from_slice(&message);
        book[held(link)] += 1;
    }
}
