//! The static library's functions as they are, on slices and numbers. `include/depot_register.h` says what each does.
//!
//! They are safe for all slices and all numbers: the library reads and writes only inside the slices it is given, and
//! answers a wrong length with a number: 100, NO ROOM, where `out` is too short for the answer, and nothing is done then. The
//! rest of this crate is built on them, without `unsafe`; its buffers always have room, so none of its calls says NO ROOM.

mod library {
    extern "C" {
        #[allow(clippy::too_many_arguments)]
        pub fn depot_setup(
            book: *mut u32,
            words: usize,
            depots: u32,
            shelves: u32,
            bearings: u32,
            crews: u32,
            homes: *const u32,
            homes_count: usize,
        ) -> u32;
        pub fn depot_read(book: *mut u32, words: usize, crew: u32, bearing: u32, out: *mut u32, out_count: usize) -> u32;
        #[allow(clippy::too_many_arguments)]
        pub fn depot_write(
            book: *mut u32,
            words: usize,
            crew: u32,
            bearing: u32,
            value: u32,
            diameter: u32,
            width: u32,
            out: *mut u32,
            out_count: usize,
        ) -> u32;
        pub fn depot_grams(diameter: u32, width: u32, out: *mut u32, out_count: usize) -> u32;
        pub fn depot_tick(book: *mut u32, words: usize, depot: u32, shelf: u32) -> u32;
        pub fn depot_take(book: *mut u32, words: usize, depot: u32, shelf: u32, from: u32) -> u32;
        pub fn depot_refresh(book: *mut u32, words: usize, depot: u32, shelf: u32) -> u32;
        pub fn depot_who_has(book: *const u32, words: usize, depot: u32, bearing: u32, out: *mut u32, out_count: usize) -> u32;
        pub fn depot_move(book: *mut u32, words: usize, crew: u32, depot: u32) -> u32;
        pub fn depot_list(
            book: *mut u32,
            words: usize,
            crew: u32,
            bearings: *const u32,
            count: usize,
            out: *mut u32,
            out_count: usize,
        ) -> u32;
        pub fn depot_is_fit(book: *const u32, words: usize) -> u32;
        pub fn depot_greater(a: *const u32, a_words: usize, b: *const u32, b_words: usize, depots: u32) -> u32;
        pub fn depot_line(book: *mut u32, words: usize, line: *const u8, length: usize, out: *mut u8, out_length: usize)
            -> usize;
        #[allow(clippy::too_many_arguments)]
        pub fn depot_write_frame(
            book: *const u32,
            words: usize,
            depot: u32,
            shelf: u32,
            from: u32,
            count: u32,
            serial: u16,
            frame: *mut u8,
            room: usize,
            out: *mut u32,
            out_count: usize,
        ) -> u32;
        #[allow(clippy::too_many_arguments)]
        pub fn depot_read_frame(
            book: *const u32,
            words: usize,
            depot: u32,
            shelf: u32,
            from: u32,
            expected: u16,
            frame: *const u8,
            length: usize,
            messages: *mut u32,
            room: usize,
            out: *mut u32,
            out_count: usize,
        ) -> u32;
        #[allow(clippy::too_many_arguments)]
        pub fn depot_recorded(
            book: *mut u32,
            words: usize,
            kind: u32,
            numbers: *const u32,
            count: usize,
            record: *mut u8,
            room: usize,
            out: *mut u32,
            out_count: usize,
        ) -> u32;
        pub fn depot_recover(book: *mut u32, words: usize, bytes: *const u8, length: usize, out: *mut u64, out_count: usize)
            -> u32;
        pub fn depot_save_image(book: *const u32, words: usize, image: *mut u8, room: usize) -> u32;
        pub fn depot_load_image(book: *mut u32, words: usize, image: *const u8, length: usize) -> u32;
        pub fn depot_audit(history: *const u32, words: usize) -> u32;
        pub fn depot_is_date(year: u32, month: u32, day: u32) -> u32;
        pub fn depot_day_number(year: u32, month: u32, day: u32, out: *mut u32, out_count: usize) -> u32;
        pub fn depot_date_of(day: u32, out: *mut u32, out_count: usize) -> u32;
        pub fn depot_next_date(year: u32, month: u32, day: u32, step: u32, n: u32, out: *mut u32, out_count: usize) -> u32;
    }
}

// Each call below hands on pointers and lengths of slices it holds for the time of the call, so they are valid for reading,
// those of `&mut` slices also for writing, and no `&mut` slice overlaps another.

pub fn setup(book: &mut [u32], depots: u32, shelves: u32, bearings: u32, crews: u32, homes: &[u32]) -> u32 {
    unsafe { library::depot_setup(book.as_mut_ptr(), book.len(), depots, shelves, bearings, crews, homes.as_ptr(), homes.len()) }
}

pub fn list(book: &mut [u32], crew: u32, bearings: &[u32], out: &mut [u32]) -> u32 {
    unsafe {
        library::depot_list(
            book.as_mut_ptr(),
            book.len(),
            crew,
            bearings.as_ptr(),
            bearings.len(),
            out.as_mut_ptr(),
            out.len(),
        )
    }
}

pub fn read(book: &mut [u32], crew: u32, bearing: u32, out: &mut [u32]) -> u32 {
    unsafe { library::depot_read(book.as_mut_ptr(), book.len(), crew, bearing, out.as_mut_ptr(), out.len()) }
}

pub fn write(book: &mut [u32], crew: u32, bearing: u32, value: u32, diameter: u32, width: u32, out: &mut [u32]) -> u32 {
    let (book, words, room) = (book.as_mut_ptr(), book.len(), out.len());
    unsafe { library::depot_write(book, words, crew, bearing, value, diameter, width, out.as_mut_ptr(), room) }
}

pub fn grams(diameter: u32, width: u32, out: &mut [u32]) -> u32 {
    unsafe { library::depot_grams(diameter, width, out.as_mut_ptr(), out.len()) }
}

pub fn tick(book: &mut [u32], depot: u32, shelf: u32) -> u32 {
    unsafe { library::depot_tick(book.as_mut_ptr(), book.len(), depot, shelf) }
}

pub fn take(book: &mut [u32], depot: u32, shelf: u32, from: u32) -> u32 {
    unsafe { library::depot_take(book.as_mut_ptr(), book.len(), depot, shelf, from) }
}

pub fn refresh(book: &mut [u32], depot: u32, shelf: u32) -> u32 {
    unsafe { library::depot_refresh(book.as_mut_ptr(), book.len(), depot, shelf) }
}

pub fn who_has(book: &[u32], depot: u32, bearing: u32, out: &mut [u32]) -> u32 {
    unsafe { library::depot_who_has(book.as_ptr(), book.len(), depot, bearing, out.as_mut_ptr(), out.len()) }
}

pub fn move_crew(book: &mut [u32], crew: u32, depot: u32) -> u32 {
    unsafe { library::depot_move(book.as_mut_ptr(), book.len(), crew, depot) }
}

pub fn is_fit(book: &[u32]) -> u32 {
    unsafe { library::depot_is_fit(book.as_ptr(), book.len()) }
}

pub fn greater(a: &[u32], b: &[u32], depots: u32) -> u32 {
    unsafe { library::depot_greater(a.as_ptr(), a.len(), b.as_ptr(), b.len(), depots) }
}

pub fn line(book: &mut [u32], line: &[u8], out: &mut [u8]) -> usize {
    unsafe { library::depot_line(book.as_mut_ptr(), book.len(), line.as_ptr(), line.len(), out.as_mut_ptr(), out.len()) }
}

#[allow(clippy::too_many_arguments)]
pub fn write_frame(
    book: &[u32],
    depot: u32,
    shelf: u32,
    from: u32,
    count: u32,
    serial: u16,
    frame: &mut [u8],
    out: &mut [u32],
) -> u32 {
    let (book, words, bytes, room) = (book.as_ptr(), book.len(), frame.as_mut_ptr(), frame.len());
    unsafe { library::depot_write_frame(book, words, depot, shelf, from, count, serial, bytes, room, out.as_mut_ptr(), out.len()) }
}

#[allow(clippy::too_many_arguments)]
pub fn read_frame(
    book: &[u32],
    depot: u32,
    shelf: u32,
    from: u32,
    expected: u16,
    frame: &[u8],
    messages: &mut [u32],
    out: &mut [u32],
) -> u32 {
    let (book, words, bytes, length) = (book.as_ptr(), book.len(), frame.as_ptr(), frame.len());
    let (handed, room) = (messages.as_mut_ptr(), messages.len());
    unsafe {
        library::depot_read_frame(book, words, depot, shelf, from, expected, bytes, length, handed, room, out.as_mut_ptr(), out.len())
    }
}

pub fn recorded(book: &mut [u32], kind: u32, numbers: &[u32], record: &mut [u8], out: &mut [u32]) -> u32 {
    let (book, words, bytes, room) = (book.as_mut_ptr(), book.len(), record.as_mut_ptr(), record.len());
    let (asked, count) = (numbers.as_ptr(), numbers.len());
    unsafe { library::depot_recorded(book, words, kind, asked, count, bytes, room, out.as_mut_ptr(), out.len()) }
}

pub fn recover(book: &mut [u32], bytes: &[u8], out: &mut [u64]) -> u32 {
    unsafe { library::depot_recover(book.as_mut_ptr(), book.len(), bytes.as_ptr(), bytes.len(), out.as_mut_ptr(), out.len()) }
}

pub fn save_image(book: &[u32], image: &mut [u8]) -> u32 {
    unsafe { library::depot_save_image(book.as_ptr(), book.len(), image.as_mut_ptr(), image.len()) }
}

pub fn load_image(book: &mut [u32], image: &[u8]) -> u32 {
    unsafe { library::depot_load_image(book.as_mut_ptr(), book.len(), image.as_ptr(), image.len()) }
}

pub fn audit(history: &[u32]) -> u32 {
    unsafe { library::depot_audit(history.as_ptr(), history.len()) }
}

pub fn is_date(year: u32, month: u32, day: u32) -> u32 {
    unsafe { library::depot_is_date(year, month, day) }
}

pub fn day_number(year: u32, month: u32, day: u32, out: &mut [u32]) -> u32 {
    unsafe { library::depot_day_number(year, month, day, out.as_mut_ptr(), out.len()) }
}

pub fn date_of(day: u32, out: &mut [u32]) -> u32 {
    unsafe { library::depot_date_of(day, out.as_mut_ptr(), out.len()) }
}

pub fn next_date(year: u32, month: u32, day: u32, step: u32, n: u32, out: &mut [u32]) -> u32 {
    unsafe { library::depot_next_date(year, month, day, step, n, out.as_mut_ptr(), out.len()) }
}
