//! The journal on both sides: calls with their records, calls that are kept in a file, recovery, and images.

use std::fs::{self, File};
use std::hint::black_box;
use std::io::Write;
use std::path::PathBuf;
use std::time::{Duration, Instant};
use std::{env, process};

use depot_register::journal::Journal;
use depot_register::{raw, Bearing, Card, Crew, Depot, Register, Request, Shelf};
use replay::event::Event;
use replay::journal::{asked, request};
use straight::{call_with_record, load_image, recover, save_image, IMAGE, WHOLE};

use crate::events::mixed;

/// An odd number, so that there is a median.
const RUNS: usize = 11;
/// The records that are recovered.
const RECORDS: usize = 1_000_000;

/// Mixed events from a book: for the library, for the straight version, and by type.
struct Calls {
    start: Vec<u32>,
    raw: Vec<(u32, Vec<u32>)>,
    straight: Vec<straight::Request>,
    typed: Vec<Request>,
}

impl Calls {
    fn new(counts: [u32; 4], count: usize) -> Calls {
        let (start, events) = mixed(counts, count);
        let raw: Vec<(u32, Vec<u32>)> = events.iter().filter_map(asked).collect();
        let straight = raw.iter().filter_map(|(kind, numbers)| request(*kind, numbers)).collect();
        Calls { start, straight, typed: events.iter().filter_map(typed).collect(), raw }
    }
}

fn typed(event: &Event) -> Option<Request> {
    Some(match *event {
        Event::Read { crew, bearing } => Request::Read { crew: Crew(crew), bearing: Bearing(bearing) },
        Event::Write { crew, bearing, value, card } => {
            Request::Write { crew: Crew(crew), bearing: Bearing(bearing), value, card: Card::from_bits(card[0], card[1]) }
        }
        Event::Tick { depot, shelf } => Request::Tick { depot: Depot(depot), shelf: Shelf(shelf) },
        Event::Take { depot, shelf, from } => Request::Take { at: Depot(depot), shelf: Shelf(shelf), from: Depot(from) },
        Event::Refresh { depot, shelf } => Request::Refresh { depot: Depot(depot), shelf: Shelf(shelf) },
        _ => return None,
    })
}

/// The medians of two things that are timed by turns, in seconds.
fn by_turns(runs: usize, mut one: impl FnMut() -> Duration, mut two: impl FnMut() -> Duration) -> (f64, f64) {
    let mut times = [Vec::new(), Vec::new()];
    for turn in 0..runs {
        if turn % 2 == 0 {
            times[0].push(one());
        }
        times[1].push(two());
        if turn % 2 == 1 {
            times[0].push(one());
        }
    }
    let [one, two] = times.map(|mut all| {
        all.sort();
        all[all.len() / 2].as_secs_f64()
    });
    (one, two)
}

fn timed<T>(what: impl FnOnce() -> T) -> (Duration, T) {
    let start = Instant::now();
    let done = what();
    (start.elapsed(), done)
}

/// Prints the tables.
pub fn print(count: usize, registers: &[[u32; 4]; 3]) {
    println!("\n{} mixed events, each with its record, median of {} runs, nanoseconds an event:\n", count, RUNS);
    println!("| register | library | straight | library / straight |");
    println!("|---|---|---|---|");
    for counts in registers {
        let [depots, shelves, bearings, crews] = counts;
        let (library, straight) = recorded(&Calls::new(*counts, count));
        let each = |seconds: f64| seconds * 1e9 / count as f64;
        print!("| {} depots, {} shelves, {} bearings, {} crews ", depots, shelves, bearings, crews);
        println!("| {:.0} | {:.0} | {:.2} |", each(library), each(straight), library / straight);
    }

    println!("\nMixed events kept in a file, with a sync for so many, median of {} runs, events a second:\n", RUNS);
    println!("| events a sync | library | straight | library / straight (time) |");
    println!("|---|---|---|---|");
    for group in [1, 16, 256, 4_096] {
        let count = (200 * group).min(count.max(group));
        let (library, straight) = kept(&Calls::new(registers[1], count), group);
        println!("| {} | {:.0} | {:.0} | {:.2} |", group, count as f64 / library, count as f64 / straight, library / straight);
    }

    let ((library, straight), bytes) = recovered(&Calls::new(registers[1], RECORDS));
    println!("\n{} records recovered, {} bytes, median of {} runs, records a second:\n", RECORDS, bytes, RUNS);
    println!("| library | straight | library / straight (time) |");
    println!("|---|---|---|");
    println!("| {:.0} | {:.0} | {:.2} |", RECORDS as f64 / library, RECORDS as f64 / straight, library / straight);

    println!("\nAn image of the largest register, median of {} runs, microseconds:\n", RUNS);
    println!("| | library | straight | library / straight |");
    println!("|---|---|---|---|");
    for (name, (library, straight)) in ["saved", "loaded"].iter().zip(images(&Calls::new(registers[2], count).start)) {
        println!("| {} | {:.0} | {:.0} | {:.2} |", name, library * 1e6, straight * 1e6, library / straight);
    }
}

/// Calls with their records, one after the other into the same room.
fn recorded(calls: &Calls) -> (f64, f64) {
    let (mut record, mut out) = ([0; 82], [0; 65]);
    let mut ends = [Vec::new(), Vec::new()];
    let [left, right] = &mut ends;
    let times = by_turns(
        RUNS,
        || {
            let mut book = calls.start.clone();
            let run = || {
                calls
                    .raw
                    .iter()
                    .filter(|(kind, numbers)| raw::recorded(&mut book, *kind, numbers, &mut record, &mut out) == 0)
                    .count()
            };
            let (time, done) = timed(run);
            left.push((book, done));
            time
        },
        || {
            let mut book = calls.start.clone();
            let mut record = [0; 82];
            let run =
                || calls.straight.iter().filter(|request| call_with_record(&mut book, request, &mut record).is_ok()).count();
            let (time, done) = timed(run);
            right.push((book, done));
            time
        },
    );
    assert!(ends[0] == ends[1], "the two sides differ: run the replay");
    times
}

/// A file for a journal, which is gone at the end.
struct Place(PathBuf);

impl Place {
    fn new(name: &str) -> Place {
        Place(env::temp_dir().join(format!("depot-bench-{}-{}", process::id(), name)))
    }
}

impl Drop for Place {
    fn drop(&mut self) {
        let _ = fs::remove_file(&self.0);
    }
}

/// Calls whose records are kept in a file, so many with a sync.
fn kept(calls: &Calls, group: usize) -> (f64, f64) {
    let (one, two) = (Place::new("library"), Place::new("straight"));
    by_turns(
        RUNS,
        || {
            let _ = fs::remove_file(&one.0);
            let register = Register::from_words(calls.start.clone()).expect("the book is fit");
            let mut journal = Journal::open_from(&one.0, register).expect("a journal");
            let run = || calls.typed.chunks(group).for_each(|group| drop(black_box(journal.calls(group).expect("it is kept"))));
            timed(run).0
        },
        || {
            let mut book = calls.start.clone();
            let mut file = File::create(&two.0).expect("a journal");
            let run = || {
                for group in calls.straight.chunks(group) {
                    let (mut records, mut record) = (Vec::new(), [0; 82]);
                    let mut answers = Vec::new();
                    for request in group {
                        let answer = call_with_record(&mut book, request, &mut record);
                        records.extend_from_slice(&record[..answer.as_ref().map_or(0, |done| done.1)]);
                        answers.push(answer);
                    }
                    file.write_all(&records).and_then(|()| file.sync_data()).expect("it is kept");
                    black_box(answers);
                }
            };
            timed(run).0
        },
    )
}

/// Recovery of as many records, in memory, and how many bytes they have.
fn recovered(calls: &Calls) -> ((f64, f64), usize) {
    let mut journal = Vec::new();
    let mut book = calls.start.clone();
    let mut record = [0; 82];
    let mut records = 0;
    // Those that are refused have no record: some are made twice.
    for request in calls.straight.iter().cycle().take(4 * RECORDS) {
        if let Ok((_, length)) = call_with_record(&mut book, request, &mut record) {
            journal.extend_from_slice(&record[..length]);
            records += 1;
        }
        if records == RECORDS {
            break;
        }
    }
    let mut books = [Vec::new(), Vec::new()];
    let [left, right] = &mut books;
    let times = by_turns(
        RUNS,
        || {
            left.clone_from(&calls.start);
            let mut out = [0; 2];
            let (time, ended) = timed(|| raw::recover(left, &journal, &mut out));
            assert_eq!((ended, out), (0, [RECORDS as u64, journal.len() as u64]));
            time
        },
        || {
            right.clone_from(&calls.start);
            let (time, told) = timed(|| recover(right, &journal));
            assert_eq!((told.ended, told.records, told.bytes), (WHOLE, RECORDS, journal.len()));
            time
        },
    );
    assert!(books[0] == books[1] && books[0] == book, "the two sides differ: run the replay");
    (times, journal.len())
}

/// Saving an image, and loading one.
fn images(book: &[u32]) -> [(f64, f64); 2] {
    let mut image = vec![0; IMAGE];
    save_image(book, &mut image).expect("the book is fit");
    let (mut one, mut two) = (image.clone(), image.clone());
    let saved = by_turns(
        RUNS,
        || timed(|| raw::save_image(black_box(book), &mut one)).0,
        || timed(|| save_image(black_box(book), &mut two)).0,
    );
    let (mut left, mut right) = (book.to_vec(), book.to_vec());
    let loaded = by_turns(
        RUNS,
        || timed(|| raw::load_image(&mut left, black_box(&image))).0,
        || timed(|| load_image(&mut right, black_box(&image))).0,
    );
    assert!(one == two && left == right && left == book, "the two sides differ: run the replay");
    [saved, loaded]
}
