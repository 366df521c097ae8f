//! Fresh books and fit ones of any kind.

use crate::event::Event;
use crate::random::Random;
use crate::values;
use straight::layout::*;
use straight::{is_fit, Counts};

/// Counts in range, small ones and the limits more often.
pub fn counts(random: &mut Random) -> [u32; 4] {
    let one = |random: &mut Random, most: u32| match random.below(4) {
        0 => random.between(1, most as usize) as u32,
        1 => most,
        _ => random.between(1, most.min(4) as usize) as u32,
    };
    let depots = if random.percent(90) { random.between(2, 4) as u32 } else { 1 };
    [depots, one(random, MOST_SHELVES), one(random, MOST_BEARINGS), one(random, MOST_CREWS)]
}

/// A setup that can be done.
pub fn setup(random: &mut Random) -> Event {
    let counts = counts(random);
    let homes = (0..counts[3]).map(|_| random.below(counts[0] as usize) as u32).collect();
    Event::Setup { counts, homes }
}

/// A setup with something wrong in it: a count, a home, or how many homes.
pub fn wrong_setup(random: &mut Random) -> Event {
    let (mut counts, mut homes) = match setup(random) {
        Event::Setup { counts, homes } => (counts, homes),
        _ => unreachable!(),
    };
    if random.percent(40) {
        let any = random.word();
        counts[random.below(4)] = random.choose(&[0, 5, 17, 161, 16, 160, 1 << 31, u32::MAX, any]);
    }
    if random.percent(40) {
        homes.resize(random.choose(&[0, 1, 15, 16, 17, 20, 40, 1000]), 0);
    }
    if random.percent(40) && !homes.is_empty() {
        let at = random.below(homes.len());
        homes[at] = random.choose(&[counts[0], counts[0].wrapping_sub(1), 4, u32::MAX]);
    }
    Event::Setup { counts, homes }
}

/// A fit book of any kind, reachable or not. Its numbers are small or near the end, so that they meet; the unused words hold
/// zeros or anything.
pub fn lay(random: &mut Random, counts: [u32; 4]) -> Event {
    let mut book = vec![0; WORDS];
    if random.percent(50) {
        book.iter_mut().for_each(|word| *word = random.word());
    }
    book[..4].copy_from_slice(&counts);
    let n = Counts::of(&book);
    let span = random.between(1, 8);
    let at_end = random.percent(30);
    let entry = |random: &mut Random| -> u32 {
        if at_end && random.percent(40) {
            END - random.below(span) as u32
        } else {
            random.below(span + 1) as u32
        }
    };
    for crew in 0..n.crews {
        book[home(crew)] = random.below(n.depots) as u32;
        (0..n.depots).for_each(|x| book[crew_vector(crew) + x] = entry(random));
    }
    for depot in 0..n.depots {
        for shelf in 0..n.shelves {
            book[clock(depot, shelf)] = entry(random);
            (0..n.depots).for_each(|x| book[stable(depot, shelf) + x] = if x == depot { 0 } else { entry(random) });
            (0..n.depots).filter(|&x| x != depot).for_each(|x| book[seen(depot, shelf, x)] = entry(random));
        }
        for bearing in 0..n.bearings {
            let (origin, written) = (random.below(n.depots), random.percent(70));
            let record = &mut book[stored(depot, bearing)..][..RECORD];
            if written {
                version(random, record, n, bearing, origin, &entry);
            } else {
                record[VECTOR..][..n.depots].fill(0);
            }
        }
    }
    for shelf in 0..n.shelves {
        for from in 0..n.depots {
            for to in (0..n.depots).filter(|&to| to != from) {
                lay_link(random, &mut book, n, shelf, from, to, &entry);
            }
        }
    }
    debug_assert!(is_fit(&book));
    Event::Lay((0..WORDS).filter(|&at| book[at] != 0).map(|at| (at as u16, book[at])).collect())
}

fn lay_link(
    random: &mut Random,
    book: &mut [u32],
    n: Counts,
    shelf: usize,
    from: usize,
    to: usize,
    entry: &dyn Fn(&mut Random) -> u32,
) {
    let link = link(shelf, from, to);
    let on_shelf = (0..n.bearings).filter(|bearing| bearing % n.shelves == shelf).count();
    let count = if random.percent(30) { ROOM as usize } else { random.below(ROOM as usize + 1) };
    let copies = if on_shelf == 0 { 0 } else { random.below(count + 1) };
    book[held(link)] = count as u32;
    book[taken(link)] = copies as u32;
    // Behind the last slot the next link begins. If that one is unused, a message stands there that no call may see.
    let past = usize::from(count == ROOM as usize);
    for place in 0..count + past {
        let message = &mut book[slot(link, place)..][..SLOT];
        if place < copies || (on_shelf > 0 && random.percent(60)) {
            message[0] = COPY;
            let bearing = shelf + n.shelves * random.below(on_shelf);
            version(random, &mut message[1..], n, bearing, from, entry);
        } else {
            message[0] = HEARTBEAT;
            message[1] = entry(random);
        }
    }
}

/// A version record; the words past the depots stay as they are.
fn version(
    random: &mut Random,
    record: &mut [u32],
    n: Counts,
    bearing: usize,
    origin: usize,
    entry: &dyn Fn(&mut Random) -> u32,
) {
    record[BEARING] = bearing as u32;
    record[VALUE] = values::in_book(random);
    record[DIAMETER..ORIGIN].copy_from_slice(&values::card(random));
    record[ORIGIN] = origin as u32;
    (0..n.depots).for_each(|x| record[VECTOR + x] = entry(random));
    record[VECTOR + origin] = record[VECTOR + origin].max(1);
}
