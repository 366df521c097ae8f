//! What is compared: the functions of `include/depot_register.h`.

/// A register as the C header describes it. `out` is written as the header says, and only so.
pub trait Register {
    fn setup(&self, book: &mut [u32], counts: [u32; 4], homes: &[u32]) -> u32;
    fn read(&self, book: &mut [u32], crew: u32, bearing: u32, out: &mut [u32]) -> u32;
    fn write(&self, book: &mut [u32], crew: u32, bearing: u32, value: u32, card: [u32; 2], out: &mut [u32]) -> u32;
    fn tick(&self, book: &mut [u32], depot: u32, shelf: u32) -> u32;
    fn take(&self, book: &mut [u32], depot: u32, shelf: u32, from: u32) -> u32;
    fn refresh(&self, book: &mut [u32], depot: u32, shelf: u32) -> u32;
    fn move_crew(&self, book: &mut [u32], crew: u32, depot: u32) -> u32;
    fn list(&self, book: &mut [u32], crew: u32, bearings: &[u32], out: &mut [u32]) -> u32;
    fn is_fit(&self, book: &[u32]) -> u32;
    fn greater(&self, a: &[u32], b: &[u32], depots: u32) -> u32;
    fn grams(&self, card: [u32; 2], out: &mut [u32]) -> u32;
    fn line(&self, book: &mut [u32], line: &[u8], out: &mut [u8]) -> usize;
}

/// The room that every answer line has.
pub const ANSWER_BYTES: usize = 618;

/// NO ROOM: `out` is too short for the answer.
pub const NO_ROOM: u32 = 100;

/// The number of a call whose answer takes so many words of `out`: NO ROOM where they are not there, and the call is not made.
pub fn in_room(words: usize, out: &mut [u32], call: impl FnOnce(&mut [u32]) -> u32) -> u32 {
    if out.len() < words {
        NO_ROOM
    } else {
        call(out)
    }
}

/// The straight version.
pub struct Straight;

/// The number of an answer without more in it.
pub fn number(answer: Result<(), straight::Refusal>) -> u32 {
    answer.map_or_else(|refusal| refusal as u32, |()| 0)
}

/// The number of a read's answer, and the rest of it in `out`.
pub fn read_answer(answer: Result<straight::Reading, straight::Refusal>, out: &mut [u32]) -> u32 {
    number(answer.map(|reading| tell(&reading, out)))
}

/// What was read, in eight words.
fn tell(reading: &straight::Reading, out: &mut [u32]) {
    out[0] = reading.value.is_some() as u32;
    out[1] = reading.value.unwrap_or(0);
    out[2] = reading.diameter;
    out[3] = reading.width;
    out[4..8].copy_from_slice(&reading.vector);
}

/// The words that the answer to a list takes: eight for each of eight bearings.
pub const LIST_WORDS: usize = 64;

/// The number of a list's answer, and the rest of it in `out`: what was read of each bearing, and 0 behind it.
pub fn list_answer(answer: Result<Vec<straight::Reading>, straight::Refusal>, out: &mut [u32]) -> u32 {
    number(answer.map(|readings| {
        let out = &mut out[..LIST_WORDS];
        out.fill(0);
        readings.iter().zip(out.chunks_mut(8)).for_each(|(reading, words)| tell(reading, words));
    }))
}

/// The number of a write's answer, and the rest of it in `out`.
pub fn write_answer(answer: Result<straight::Written, straight::Refusal>, out: &mut [u32]) -> u32 {
    number(answer.map(|written| {
        out[0] = written.stamp;
        out[1] = written.current as u32;
    }))
}

/// The number of the grams' answer, and their bits in `out`, the low word first.
pub fn grams_answer(answer: Result<f64, straight::Refusal>, out: &mut [u32]) -> u32 {
    number(answer.map(|grams| {
        let bits = grams.to_bits();
        out[0] = bits as u32;
        out[1] = (bits >> 32) as u32;
    }))
}

impl Register for Straight {
    fn setup(&self, book: &mut [u32], counts: [u32; 4], homes: &[u32]) -> u32 {
        let [depots, shelves, bearings, crews] = counts;
        number(straight::setup(book, depots, shelves, bearings, crews, homes))
    }

    fn read(&self, book: &mut [u32], crew: u32, bearing: u32, out: &mut [u32]) -> u32 {
        in_room(8, out, |out| read_answer(straight::read(book, crew, bearing), out))
    }

    fn write(&self, book: &mut [u32], crew: u32, bearing: u32, value: u32, card: [u32; 2], out: &mut [u32]) -> u32 {
        in_room(2, out, |out| write_answer(straight::write(book, crew, bearing, value, card[0], card[1]), out))
    }

    fn tick(&self, book: &mut [u32], depot: u32, shelf: u32) -> u32 {
        number(straight::tick(book, depot, shelf))
    }

    fn take(&self, book: &mut [u32], depot: u32, shelf: u32, from: u32) -> u32 {
        number(straight::take(book, depot, shelf, from))
    }

    fn refresh(&self, book: &mut [u32], depot: u32, shelf: u32) -> u32 {
        number(straight::refresh(book, depot, shelf))
    }

    fn move_crew(&self, book: &mut [u32], crew: u32, depot: u32) -> u32 {
        number(straight::move_crew(book, crew, depot))
    }

    fn list(&self, book: &mut [u32], crew: u32, bearings: &[u32], out: &mut [u32]) -> u32 {
        in_room(LIST_WORDS, out, |out| list_answer(straight::list(book, crew, bearings), out))
    }

    fn is_fit(&self, book: &[u32]) -> u32 {
        straight::is_fit(book) as u32
    }

    fn greater(&self, a: &[u32], b: &[u32], depots: u32) -> u32 {
        straight::above(b, a, depots as usize) as u32
    }

    fn grams(&self, card: [u32; 2], out: &mut [u32]) -> u32 {
        in_room(2, out, |out| grams_answer(straight::grams(card[0], card[1]), out))
    }

    fn line(&self, book: &mut [u32], line: &[u8], out: &mut [u8]) -> usize {
        if out.len() < ANSWER_BYTES {
            return 0;
        }
        let answer = straight::line(book, line);
        out[..answer.len()].copy_from_slice(answer.as_bytes());
        answer.len()
    }
}

/// The static library.
#[cfg(feature = "library")]
pub struct Library;

#[cfg(feature = "library")]
impl Register for Library {
    fn setup(&self, book: &mut [u32], counts: [u32; 4], homes: &[u32]) -> u32 {
        let [depots, shelves, bearings, crews] = counts;
        depot_register::raw::setup(book, depots, shelves, bearings, crews, homes)
    }

    fn read(&self, book: &mut [u32], crew: u32, bearing: u32, out: &mut [u32]) -> u32 {
        depot_register::raw::read(book, crew, bearing, out)
    }

    fn write(&self, book: &mut [u32], crew: u32, bearing: u32, value: u32, card: [u32; 2], out: &mut [u32]) -> u32 {
        depot_register::raw::write(book, crew, bearing, value, card[0], card[1], out)
    }

    fn tick(&self, book: &mut [u32], depot: u32, shelf: u32) -> u32 {
        depot_register::raw::tick(book, depot, shelf)
    }

    fn take(&self, book: &mut [u32], depot: u32, shelf: u32, from: u32) -> u32 {
        depot_register::raw::take(book, depot, shelf, from)
    }

    fn refresh(&self, book: &mut [u32], depot: u32, shelf: u32) -> u32 {
        depot_register::raw::refresh(book, depot, shelf)
    }

    fn move_crew(&self, book: &mut [u32], crew: u32, depot: u32) -> u32 {
        depot_register::raw::move_crew(book, crew, depot)
    }

    fn list(&self, book: &mut [u32], crew: u32, bearings: &[u32], out: &mut [u32]) -> u32 {
        depot_register::raw::list(book, crew, bearings, out)
    }

    fn is_fit(&self, book: &[u32]) -> u32 {
        depot_register::raw::is_fit(book)
    }

    fn greater(&self, a: &[u32], b: &[u32], depots: u32) -> u32 {
        depot_register::raw::greater(a, b, depots)
    }

    fn grams(&self, card: [u32; 2], out: &mut [u32]) -> u32 {
        depot_register::raw::grams(card[0], card[1], out)
    }

    fn line(&self, book: &mut [u32], line: &[u8], out: &mut [u8]) -> usize {
        depot_register::raw::line(book, line, out)
    }
}
