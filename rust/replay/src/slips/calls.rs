//! The calls, each with the places where a mistake can be switched on.

use std::cmp::Ordering;

use super::{Slip, Slipped};
use crate::event::Event;
use straight::calendar::LAST_DAY;
use straight::layout::*;
use straight::{below, vector, Counts, Reading, Refusal, Written};

type Answer<T> = Result<T, Refusal>;

impl Slipped {
    pub(super) fn call_setup(&self, book: &mut [u32], counts: [u32; 4], homes: &[u32]) -> Answer<()> {
        let [depots, shelves, bearings, crews] = counts;
        if self.has(Slip::SetupNeedsFit) && !self.fit(book) && book.iter().any(|&word| word != 0) {
            return Err(Refusal::BadBook);
        }
        if self.has(Slip::SetupHomesFirst) && book.len() == WORDS && homes.iter().any(|&home| home >= depots) {
            return Err(Refusal::BadDepot);
        }
        let old = book.to_vec();
        straight::setup(book, depots, shelves, bearings, crews, homes)?;
        if self.has(Slip::SetupKeepsOld) {
            book[16_356..].copy_from_slice(&old[16_356..]);
        }
        Ok(())
    }

    pub(super) fn call_read(&self, book: &mut [u32], crew: u32, bearing: u32) -> Answer<Reading> {
        let event = Event::Read { crew, bearing };
        let n = self.counts(book, &event)?;
        let (crew, bearing) = self.crew_and_bearing(book, n, crew, bearing)?;
        self.look(book, n, &event)?;
        let depot = book[home(crew)] as usize;
        let record = stored(depot, bearing);
        let early = vector(book, n, record + VECTOR);
        let offered = vector(book, n, crew_vector(crew));
        self.raise_and_show(book, n, depot, bearing % n.shelves, offered);

        let vector = if self.has(Slip::ReadBeforeShow) { early } else { vector(book, n, record + VECTOR) };
        if !self.has(Slip::CrewNotRaised) {
            for x in 0..n.depots {
                let entry = &mut book[crew_vector(crew) + x];
                *entry = if self.has(Slip::CrewTakesAnswer) { vector[x] } else { vector[x].max(*entry) };
            }
        }
        let value = book[record + VALUE];
        let hidden = (self.has(Slip::ZeroUnwritten) && value == 0) || (self.has(Slip::LateUnwritten) && value > LAST_DAY);
        let written = vector != [0; 4] && !hidden;
        let told = written || self.has(Slip::UnwrittenCard);
        let (diameter, width) = if told { (book[record + DIAMETER], book[record + WIDTH]) } else { (0, 0) };
        Ok(Reading { value: if written { Some(value) } else { None }, diameter, width, vector })
    }

    pub(super) fn call_list(&self, book: &mut [u32], crew: u32, bearings: &[u32]) -> Answer<Vec<Reading>> {
        let event = Event::List { crew, bearings: bearings.to_vec() };
        let n = self.counts(book, &event)?;
        let bad_list = match self.0 {
            Slip::ListOfNone => bearings.len() > 8,
            Slip::ListOfSeven => bearings.is_empty() || bearings.len() > 7,
            _ => bearings.is_empty() || bearings.len() > 8,
        };
        if bad_list && self.has(Slip::ListBeforeCrew) {
            return Err(Refusal::BadList);
        }
        let crew = below(crew, n.crews, Refusal::BadCrew)?;
        let key = |&bearing: &u32| below(bearing, n.bearings, Refusal::BadKey);
        if self.has(Slip::KeyBeforeList) {
            bearings.iter().try_for_each(|bearing| key(bearing).map(|_| ()))?;
        }
        if bad_list {
            return Err(if self.has(Slip::ListNineKeys) && bearings.len() == 9 { Refusal::BadKey } else { Refusal::BadList });
        }
        let mut listed = Vec::new();
        for bearing in bearings {
            let late = self.has(Slip::FirstKeyOnly) && !listed.is_empty();
            listed.push(if late { key(bearing).unwrap_or(n.bearings - 1) } else { key(bearing)? });
        }
        if listed.is_empty() {
            return Ok(Vec::new());
        }
        let named = listed.iter().map(|&bearing| bearing as u32).collect();
        self.look(book, n, &Event::List { crew: crew as u32, bearings: named })?;
        if self.has(Slip::OneByOne) {
            return listed.iter().map(|&bearing| self.call_read(book, crew as u32, bearing as u32)).collect();
        }
        let depot = book[home(crew)] as usize;
        let of_listed = |shelf: usize| listed.iter().any(|bearing| bearing % n.shelves == shelf);
        let offered = self.gathered(book, n, crew, depot, &of_listed);
        for shelf in (0..n.shelves).filter(|&shelf| of_listed(shelf) || !self.has(Slip::ListedRaised)) {
            self.raise_and_show(book, n, depot, shelf, offered);
        }

        if self.has(Slip::ListSorted) {
            listed.sort();
        }
        let mut readings = Vec::new();
        for (at, &bearing) in listed.iter().enumerate() {
            if self.has(Slip::OnceEach) && listed[..at].contains(&bearing) {
                continue;
            }
            let reading = self.reading(book, n, depot, bearing);
            let merges = match self.0 {
                Slip::LastMerged => at + 1 == listed.len(),
                Slip::NoneMerged => false,
                _ => true,
            };
            for x in (0..n.depots).filter(|_| merges) {
                let entry = &mut book[crew_vector(crew) + x];
                *entry = reading.vector[x].max(*entry);
            }
            if self.has(Slip::RaisedBetween) {
                (0..n.shelves).for_each(|shelf| self.raise_and_show(book, n, depot, shelf, reading.vector));
            }
            readings.push(reading);
        }
        Ok(readings)
    }

    /// What a list raises every shelf of its depot with.
    fn gathered(&self, book: &[u32], n: Counts, crew: usize, depot: usize, of_listed: &dyn Fn(usize) -> bool) -> [u32; 4] {
        let mine = vector(book, n, crew_vector(crew));
        let mut offered = if self.has(Slip::CrewNotGathered) { [0; 4] } else { mine };
        for x in (0..n.depots).filter(|&x| x != depot && !self.has(Slip::NotGathered)) {
            let shelves = (0..n.shelves).filter(|&shelf| of_listed(shelf) || !self.has(Slip::ListedGathered));
            let known = shelves.map(|shelf| book[stable(depot, shelf) + x]);
            let known = if self.has(Slip::LowestGathered) { known.min() } else { known.max() };
            offered[x] = offered[x].max(known.unwrap_or(0));
        }
        offered
    }

    /// What a depot stores of a bearing.
    fn reading(&self, book: &[u32], n: Counts, depot: usize, bearing: usize) -> Reading {
        let record = stored(depot, bearing);
        let vector = vector(book, n, record + VECTOR);
        if vector == [0; 4] {
            return Reading { value: None, diameter: 0, width: 0, vector };
        }
        Reading { value: Some(book[record + VALUE]), diameter: book[record + DIAMETER], width: book[record + WIDTH], vector }
    }

    pub(super) fn call_write(&self, book: &mut [u32], crew: u32, bearing: u32, value: u32, card: [u32; 2]) -> Answer<Written> {
        let event = Event::Write { crew, bearing, value, card };
        let late = self.late(value);
        let none = !self.card(card);
        // BAD DATE in place of another refusal.
        let sooner = |slip: Slip, refusal: Refusal| match self.0 {
            Slip::CardBeforeKey if none && matches!(refusal, Refusal::BadCrew | Refusal::BadKey) => Refusal::BadCard,
            Slip::CardBeforeParts if none && slip == Slip::DateBeforeParts => Refusal::BadCard,
            _ if late && self.has(slip) => Refusal::BadDate,
            _ => refusal,
        };
        let n = self.counts(book, &event).map_err(|refusal| sooner(Slip::DateBeforeBook, refusal))?;
        let (crew, bearing) = self.crew_and_bearing(book, n, crew, bearing).map_err(|refusal| match refusal {
            Refusal::BadCrew => sooner(Slip::DateBeforeCrew, refusal),
            Refusal::BadKey => sooner(Slip::DateBeforeKey, refusal),
            _ => refusal,
        })?;
        let look = |book: &[u32]| self.look(book, n, &event).map_err(|refusal| sooner(Slip::DateBeforeParts, refusal));
        if !self.has(Slip::WaitFirst) {
            look(book)?;
        }
        let depot = book[home(crew)] as usize;
        let shelf = bearing % n.shelves;
        let mine = vector(book, n, crew_vector(crew));
        let now = book[clock(depot, shelf)];
        let waits = mine[depot] > now || (self.has(Slip::WaitAtEqual) && mine[depot] == now && now > 0);
        if self.has(Slip::WaitFirst) {
            if waits && !late && !none {
                return Err(Refusal::Wait);
            }
            look(book)?;
        }
        if late && self.has(Slip::DateAfterShow) {
            self.raise_and_show(book, n, depot, shelf, mine);
        }
        if none && self.has(Slip::CardBeforeDate) {
            return Err(Refusal::BadCard);
        }
        if late && !(waits && self.has(Slip::DateAfterWait)) && !self.has(Slip::DateAfterRoom) {
            return Err(Refusal::BadDate);
        }
        if none && !late && !(waits && self.has(Slip::CardAfterWait)) {
            return Err(Refusal::BadCard);
        }
        if waits && !self.has(Slip::WaitAfterEnd) {
            return Err(if late && self.has(Slip::DateAfterRoom) { Refusal::BadDate } else { Refusal::Wait });
        }
        self.can_send(book, n, depot, shelf, !self.has(Slip::WriteFindsFull))?;
        if waits {
            return Err(Refusal::Wait);
        }
        if late {
            return Err(Refusal::BadDate);
        }
        if none {
            return Err(Refusal::BadCard);
        }

        self.raise_and_show(book, n, depot, shelf, mine);
        let stamp = if self.has(Slip::StampAsItStands) { now.max(1) } else { now.wrapping_add(1) };
        let mut version = [0; RECORD];
        version[BEARING] = bearing as u32;
        version[VALUE] = value;
        let swapped = self.has(Slip::CardSwapped) as usize;
        version[DIAMETER] = card[swapped];
        version[WIDTH] = card[1 - swapped];
        version[ORIGIN] = depot as u32;
        version[VECTOR..].copy_from_slice(&mine);
        version[VECTOR + depot] = stamp;
        if !self.has(Slip::CrewKeepsVector) {
            book[crew_vector(crew)..][..n.depots].copy_from_slice(&version[VECTOR..][..n.depots]);
        }
        let place = &mut book[stored(depot, bearing)..][..RECORD];
        let current = self.above(&version, place, n.depots) || self.has(Slip::LatestWriteKept);
        if current {
            let other = [place[DIAMETER], place[WIDTH]];
            place.copy_from_slice(&version);
            if self.has(Slip::CardOfOther) && straight::is_card(other[0], other[1]) {
                place[DIAMETER..ORIGIN].copy_from_slice(&other);
            }
        }
        let mut message = [0; SLOT];
        message[0] = COPY;
        message[1..].copy_from_slice(&version);
        if self.has(Slip::LinkWithoutWidth) {
            message[1 + WIDTH] = 1;
        }
        if current || !self.has(Slip::SupersededNotSent) {
            self.send(book, n, depot, shelf, stamp, message)?;
        } else {
            book[clock(depot, shelf)] = stamp;
        }
        Ok(Written { stamp, current })
    }

    pub(super) fn call_tick(&self, book: &mut [u32], depot: u32, shelf: u32) -> Answer<()> {
        let event = Event::Tick { depot, shelf };
        let n = self.counts(book, &event)?;
        let depot = below(depot, n.depots, Refusal::BadDepot)?;
        let shelf = below(shelf, n.shelves, Refusal::BadShelf)?;
        if self.has(Slip::EndFirst) && book[clock(depot, shelf)] == END {
            return Err(Refusal::ClockAtEnd);
        }
        let full = |to: usize| to != depot && book[held(link(shelf, depot, to))] == ROOM;
        if self.has(Slip::FullFirst) && book[clock(depot, shelf)] < END && (0..n.depots).any(full) {
            return Err(Refusal::LinkFull);
        }
        self.look(book, n, &event)?;
        self.can_send(book, n, depot, shelf, !self.has(Slip::TickFindsFull))?;
        if self.has(Slip::MendsMessages) {
            self.mend_messages(book, n, depot, shelf);
        }
        let stamp = book[clock(depot, shelf)].wrapping_add(1);
        let mut message = [0; SLOT];
        message[0] = HEARTBEAT;
        message[1] = stamp;
        self.send(book, n, depot, shelf, stamp, message)
    }

    pub(super) fn call_take(&self, book: &mut [u32], depot: u32, shelf: u32, from: u32) -> Answer<()> {
        let event = Event::Take { depot, shelf, from };
        let n = self.counts(book, &event)?;
        if self.has(Slip::TakeShelfFirst) {
            below(shelf, n.shelves, Refusal::BadShelf)?;
        }
        let depot = below(depot, n.depots, Refusal::BadDepot)?;
        if self.has(Slip::TakeFromLate) {
            below(shelf, n.shelves, Refusal::BadShelf)?;
        }
        let from = below(from, n.depots, Refusal::BadDepot)?;
        if self.has(Slip::TakeSameFirst) && depot == from {
            return Err(Refusal::SameDepot);
        }
        let shelf = below(shelf, n.shelves, Refusal::BadShelf)?;
        let link = link(shelf, from, depot);
        let (held_now, taken_now) = self.head(book, link);
        if depot == from {
            let unfit = book[held(link)] > ROOM || book[seen(depot, shelf, depot)] > END;
            return Err(match self.0 {
                Slip::TakeEmptyFirst => Refusal::EmptyLink,
                Slip::SameDepotNames if unfit => Refusal::BadBook,
                _ => Refusal::SameDepot,
            });
        }
        if self.has(Slip::EmptyFirst) && held_now == taken_now {
            return Err(Refusal::EmptyLink);
        }
        self.look(book, n, &event)?;
        if taken_now >= held_now {
            return Err(Refusal::EmptyLink);
        }

        let message = slot(link, taken_now);
        let copy = book[message] == COPY;
        let stamp = if copy { book[message + 1 + VECTOR + from] } else { book[message + 1] };
        let there = &mut book[seen(depot, shelf, from)];
        *there = if self.has(Slip::SeenMaximum) { stamp.max(*there) } else { stamp };
        if copy && self.has(Slip::AppliedOnArrival) {
            self.store(book, n, depot, message + 1);
        }
        if (copy && !self.has(Slip::AppliedOnArrival)) || (!copy && self.has(Slip::BeatStays)) {
            book[taken(link)] = taken_now as u32 + 1;
        } else {
            let end = slot(link, held_now);
            book.copy_within(message + SLOT..end, message);
            book[end - SLOT..end].fill(0);
            book[held(link)] = held_now as u32 - 1;
        }
        Ok(())
    }

    pub(super) fn call_refresh(&self, book: &mut [u32], depot: u32, shelf: u32) -> Answer<()> {
        let event = Event::Refresh { depot, shelf };
        let n = self.counts(book, &event)?;
        let depot = below(depot, n.depots, Refusal::BadDepot)?;
        let shelf = below(shelf, n.shelves, Refusal::BadShelf)?;
        self.look(book, n, &event)?;
        if self.has(Slip::MendsClocks) {
            book[clock(0, 0)..][..16].iter_mut().for_each(|clock| *clock = END.min(*clock));
        }
        let mut lowest = [END; 4];
        for from in (0..n.depots).filter(|&from| from != depot) {
            for any in (0..n.shelves).filter(|&any| any == shelf || !self.has(Slip::OwnShelfOnly)) {
                lowest[from] = lowest[from].min(book[seen(depot, any, from)]);
                if self.has(Slip::OwnSeen) {
                    lowest[from] = lowest[from].min(book[seen(depot, any, depot)]);
                }
            }
            if self.has(Slip::RefreshLowers) {
                book[stable(depot, shelf) + from] = lowest[from];
            }
        }
        self.raise_and_show(book, n, depot, shelf, lowest);
        Ok(())
    }

    pub(super) fn call_move(&self, book: &mut [u32], crew: u32, depot: u32) -> Answer<()> {
        let event = Event::Move { crew, depot };
        let n = self.counts(book, &event)?;
        if self.has(Slip::MoveDepotFirst) {
            below(depot, n.depots, Refusal::BadDepot)?;
        }
        let crew = below(crew, n.crews, Refusal::BadCrew)?;
        let depot = below(depot, n.depots, Refusal::BadDepot)?;
        let present = book[home(crew)] as usize;
        let at = if self.has(Slip::MovePresentStamps) { present.min(3) } else { depot };
        let seen_from = |x: usize| {
            let stamps = (0..n.shelves).map(|shelf| book[seen(at, shelf, x)]);
            if self.has(Slip::MoveHighest) { stamps.max() } else { stamps.min() }.unwrap_or(0)
        };
        let counts = |x: usize| match self.0 {
            Slip::MoveOwnEntry => true,
            Slip::MovePresentEntry => x == present,
            _ => x != depot,
        };
        let above = |x: usize| {
            let entry = book[crew_vector(crew) + x];
            entry > seen_from(x) || (self.has(Slip::MoveAtEqual) && entry == seen_from(x))
        };
        let behind = (0..n.depots).any(|x| counts(x) && above(x));
        let refused = behind && (present != depot || self.has(Slip::MovePresentShut));
        if refused && self.has(Slip::MoveBeforeParts) {
            return Err(Refusal::NotHereYet);
        }
        if !(self.has(Slip::MovePresentNames) && present == depot) {
            self.look(book, n, &event)?;
        }
        if !refused || self.has(Slip::MoveAnyway) {
            book[home(crew)] = depot as u32;
        }
        if refused {
            return Err(Refusal::NotHereYet);
        }
        if self.has(Slip::MoveClears) {
            book[crew_vector(crew)..][..n.depots].fill(0);
        }
        Ok(())
    }

    /// Whether a value is beyond the calendar.
    /// Whether a write's two words are a card.
    fn card(&self, card: [u32; 2]) -> bool {
        let length = |bits: u32| {
            let length = f32::from_bits(bits);
            match self.0 {
                Slip::LongestRefused => length > 0.0 && length < 2_000.0,
                Slip::NextPasses => length > 0.0 && bits <= 0x44FA_0001,
                Slip::ZeroPasses => (0.0..=2_000.0).contains(&length),
                Slip::NegativePasses => length != 0.0 && length <= 2_000.0 && length.is_finite(),
                Slip::NanPasses => !(length <= 0.0 || length > 2_000.0),
                Slip::SmallRefused => length.is_normal() && length > 0.0 && length <= 2_000.0,
                _ => straight::is_card(bits, bits),
            }
        };
        length(card[0]) && (length(card[1]) || self.has(Slip::WidthUnchecked))
    }

    pub(super) fn call_grams(&self, card: [u32; 2]) -> Answer<f64> {
        let grams = straight::grams(card[0], card[1])?;
        let (diameter, width) = (f32::from_bits(card[0]), f32::from_bits(card[1]));
        Ok(match self.0 {
            Slip::WidthFirst => f64::from(diameter) * (f64::from(width) * 0.005),
            Slip::ShortProduct => f64::from(diameter * width) * 0.005,
            _ => grams,
        })
    }

    fn late(&self, value: u32) -> bool {
        let last = match self.0 {
            Slip::LastDayRefused => LAST_DAY - 1,
            Slip::DayAfterPasses => LAST_DAY + 1,
            _ => LAST_DAY,
        };
        value > last
    }

    fn crew_and_bearing(&self, book: &[u32], n: Counts, crew: u32, bearing: u32) -> Answer<(usize, usize)> {
        if self.has(Slip::HomeBeforeCrew) && book.get(4 + crew as usize).is_some_and(|&home| home as usize >= n.depots) {
            return Err(Refusal::BadDepot);
        }
        if self.has(Slip::KeyFirst) {
            below(bearing, n.bearings, Refusal::BadKey)?;
        }
        let crew = below(crew, n.crews, Refusal::BadCrew)?;
        if self.has(Slip::KeyNamesCrew) && book[crew_vector(crew)..][..n.depots].iter().any(|&entry| entry > END) {
            return Err(Refusal::BadBook);
        }
        Ok((crew, below(bearing, n.bearings, Refusal::BadKey)?))
    }

    fn raise_and_show(&self, book: &mut [u32], n: Counts, depot: usize, shelf: usize, offered: [u32; 4]) {
        if self.has(Slip::ShowBeforeRaise) {
            self.show_all(book, n, depot, shelf);
        }
        for x in (0..n.depots).filter(|&x| x != depot || self.has(Slip::OwnRaised)) {
            let entry = &mut book[stable(depot, shelf) + x];
            *entry = offered[x].max(*entry);
        }
        if !self.has(Slip::ShowBeforeRaise) {
            self.show_all(book, n, depot, shelf);
        }
    }

    fn show_all(&self, book: &mut [u32], n: Counts, depot: usize, shelf: usize) {
        for from in (0..n.depots).filter(|&from| from != depot) {
            self.show(book, n, depot, shelf, link(shelf, from, depot));
        }
    }

    fn show(&self, book: &mut [u32], n: Counts, depot: usize, shelf: usize, link: usize) {
        let (held_now, taken_now) = self.head(book, link);
        let (mut kept, mut kept_taken) = (0, 0);
        let mut stopped = false;
        for place in 0..held_now {
            let message = slot(link, place);
            let copy = place < taken_now || (self.has(Slip::UntakenShown) && book[message] == COPY);
            let covered = copy
                && (0..n.depots).all(|x| {
                    let own = x == depot && !self.has(Slip::OwnEntryTested);
                    own || book[message + 1 + VECTOR + x] <= book[stable(depot, shelf) + x]
                });
            stopped |= !covered && self.has(Slip::StopsAtHidden);
            if covered && !stopped {
                self.store(book, n, depot, message + 1);
            }
            if !covered || stopped || self.has(Slip::ShownStays) {
                book.copy_within(message..message + SLOT, slot(link, kept));
                kept += 1;
                if place < taken_now {
                    kept_taken += 1;
                }
            }
        }
        if !self.has(Slip::FreedKept) {
            book[slot(link, kept)..slot(link, held_now)].fill(0);
        }
        book[held(link)] = kept as u32;
        book[taken(link)] = kept_taken;
    }

    /// A record goes to the depot's store if it is greater. A slip may meet one of no bearing.
    fn store(&self, book: &mut [u32], n: Counts, depot: usize, record: usize) {
        let there = stored(depot, book[record + BEARING] as usize % n.bearings);
        let dropped = self.has(Slip::LateNotStored) && book[record + VALUE] > LAST_DAY;
        let greater = !dropped && self.above(&book[record..][..RECORD], &book[there..][..RECORD], n.depots);
        if greater || self.has(Slip::LatestCopyKept) {
            book.copy_within(record..record + RECORD, there);
            if self.has(Slip::CardCleared) {
                book[there + DIAMETER..there + ORIGIN].fill(0);
            }
        }
    }

    /// Whether record `a` is greater than record `b`; both have nine words.
    pub(super) fn above(&self, a: &[u32], b: &[u32], depots: usize) -> bool {
        let depots = if self.has(Slip::PastDepots) { 4 } else { depots };
        let (left, right) = (&a[VECTOR..VECTOR + depots], &b[VECTOR..VECTOR + depots]);
        let sum = |vector: &[u32]| match self.0 {
            Slip::NoSums => 0,
            Slip::SumsWrap => u64::from(vector.iter().fold(0, |sum: u32, &entry| sum.wrapping_add(entry))),
            _ => vector.iter().map(|&entry| u64::from(entry)).sum(),
        };
        let by_entry = match self.0 {
            Slip::LastDepotFirst => left.iter().rev().cmp(right.iter().rev()),
            _ => left.cmp(right),
        };
        match sum(left).cmp(&sum(right)).then(by_entry) {
            Ordering::Less => false,
            Ordering::Greater => true,
            Ordering::Equal if left.iter().all(|&entry| entry == 0) && !self.has(Slip::UnwrittenOrigin) => false,
            Ordering::Equal => match self.0 {
                Slip::NoOrigin => false,
                Slip::EqualReplaces => a[ORIGIN] >= b[ORIGIN],
                _ => a[ORIGIN] > b[ORIGIN],
            },
        }
    }

    fn can_send(&self, book: &[u32], n: Counts, depot: usize, shelf: usize, room: bool) -> Answer<()> {
        let at_end = book[clock(depot, shelf)] == END;
        if at_end && !self.has(Slip::FullBeforeEnd) {
            return Err(Refusal::ClockAtEnd);
        }
        let full = |link: usize| {
            let taken = if self.has(Slip::TakenNoRoom) { book[taken(link)] } else { 0 };
            book[held(link)].saturating_sub(taken) == ROOM
        };
        if room && (0..n.depots).any(|to| to != depot && full(link(shelf, depot, to))) {
            return Err(Refusal::LinkFull);
        }
        if at_end {
            return Err(Refusal::ClockAtEnd);
        }
        Ok(())
    }

    fn send(&self, book: &mut [u32], n: Counts, depot: usize, shelf: usize, stamp: u32, message: [u32; SLOT]) -> Answer<()> {
        book[clock(depot, shelf)] = stamp;
        for to in (0..n.depots).filter(|&to| to != depot) {
            let link = link(shelf, depot, to);
            if book[held(link)] == ROOM && !self.has(Slip::TakenNoRoom) {
                return Err(Refusal::LinkFull);
            }
            let free = slot(link, book[held(link)] as usize);
            // A slip may meet any count.
            if let Some(words) = book.get_mut(free..free + SLOT) {
                words.copy_from_slice(&message);
            }
            book[held(link)] = book[held(link)].wrapping_add(1);
        }
        Ok(())
    }

    /// Messages of no kind on the links out become zeros.
    fn mend_messages(&self, book: &mut [u32], n: Counts, depot: usize, shelf: usize) {
        for to in (0..n.depots).filter(|&to| to != depot) {
            let link = link(shelf, depot, to);
            for place in 0..self.head(book, link).0 {
                let message = &mut book[slot(link, place)..][..SLOT];
                if message[0] != COPY && message[0] != HEARTBEAT {
                    message.fill(0);
                }
            }
        }
    }
}
