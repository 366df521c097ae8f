//! `bench [EVENTS] [--desk WORDS...]`: times the same calls on the static library and on the straight version, in one process, and
//! prints the tables of docs/SPEED.md. Each figure is the median of several runs. The two sides take turns, and so do the rows of
//! the tables, so that what else the computer does in a while falls on all of them. WORDS start a desk, to be timed too.

mod audits;
mod desks;
mod events;
mod journals;
mod timed;

use std::env;
use std::process::exit;

use events::{alone, damaged_lines, mixed, Block, Kind, KINDS};
use replay::lines;
use replay::progress::Progress;
use timed::{Timed, Work};

/// An odd number, so that there is a median.
const RUNS: usize = 21;
/// A small register, a middle one and the largest: depots, shelves, bearings, crews.
const REGISTERS: [[u32; 4]; 3] = [[2, 2, 4, 2], [3, 2, 32, 8], [4, 4, 160, 16]];

fn main() {
    let mut words: Vec<String> = env::args().skip(1).collect();
    let desk = words.iter().position(|word| word == "--desk").map_or(Vec::new(), |at| words.split_off(at)[1..].to_vec());
    let count = match &words[..] {
        [] => Some(100_000),
        [word] => word.parse().ok().filter(|&count: &usize| count > 0),
        _ => None,
    };
    let count = count.unwrap_or_else(|| {
        eprintln!("usage: bench [EVENTS] [--desk WORDS...]    EVENTS (100000) are 1 or more; WORDS start a desk");
        exit(2);
    });

    let mut events = REGISTERS.map(|counts| {
        let (start, events) = mixed(counts, count);
        Timed::new(start, Work::Blocks(vec![Block { kind: Kind::Mixed, events }]))
    });
    let alone_count = count / 10 + 1;
    let mut calls = REGISTERS.map(|counts| {
        let (start, blocks) = alone(counts, alone_count);
        Timed::new(start, Work::Blocks(blocks))
    });
    let mut texts = lines_of(count).map(|(start, texts)| Timed::new(start, Work::Lines(texts)));

    let mut all: Vec<&mut Timed> = events.iter_mut().chain(&mut calls).chain(&mut texts).collect();
    let each: u64 = all.iter().map(|timed| timed.calls()).sum();
    let mut progress = Progress::new("bench", "calls", 2 * RUNS as u64 * each);
    let mut done = 0;
    for turn in 0..RUNS {
        for timed in &mut all {
            timed.turn(turn % 2 == 0);
            done += 2 * timed.calls();
            progress.at(done);
        }
    }
    progress.end();

    println!("{} mixed events, median of {} runs, nanoseconds an event:\n", count, RUNS);
    println!("| register | done | library | straight | library / straight |");
    println!("|---|---|---|---|---|");
    for ([depots, shelves, bearings, crews], timed) in REGISTERS.iter().zip(&events) {
        print!("| {} depots, {} shelves, {} bearings, {} crews ", depots, shelves, bearings, crews);
        let (library, straight) = timed.medians(Kind::Mixed);
        let done = timed.said * 100 / count;
        println!("| {} % | {:.0} | {:.0} | {:.2} |", done, library, straight, library / straight);
    }

    println!(
        "\nEach call alone, {} times or more, median of {} runs, nanoseconds a call, library / straight:\n",
        alone_count, RUNS
    );
    println!("| call | {} |", REGISTERS.map(|counts| counts.map(|count| count.to_string()).join(", ")).join(" | "));
    println!("|---|---|---|---|");
    for (kind, name) in KINDS {
        let cells: Vec<String> = calls.iter().map(|timed| cell(timed.medians(kind))).collect();
        println!("| {} | {} |", name, cells.join(" | "));
    }

    println!("\n{} lines, median of {} runs, lines a second:\n", count, RUNS);
    println!("| lines | library | straight | library / straight (time) |");
    println!("|---|---|---|---|");
    for (name, timed) in ["mixed events", "BAD LINE, of every kind", "BAD LINE, one byte each"].iter().zip(&texts) {
        let (library, straight) = timed.medians(Kind::Mixed);
        println!("| {} | {:.0} | {:.0} | {:.2} |", name, 1e9 / library, 1e9 / straight, library / straight);
    }

    journals::print(count, &REGISTERS);
    if !desk.is_empty() {
        desks::print(count, &desk);
    }

    println!("\nA history of 256 entries audited, median of {} runs, microseconds:\n", RUNS);
    println!("| library | straight | library / straight |");
    println!("|---|---|---|");
    let (library, straight) = audits::medians(RUNS);
    println!("| {:.0} | {:.0} | {:.2} |", library, straight, library / straight);
}

fn cell((library, straight): (f64, f64)) -> String {
    format!("{:.0} / {:.0} = {:.2}", library, straight, library / straight)
}

/// Lines of mixed events, the same damaged, and lines of one byte, with the book that they start from.
fn lines_of(count: usize) -> [(Vec<u32>, Vec<Vec<u8>>); 3] {
    let (start, events) = mixed([2, 2, 16, 4], count);
    let good = events.iter().map(lines::text).collect();
    let bad = damaged_lines(&start, &events);
    let short = events.iter().map(|_| b"X".to_vec()).collect();
    [good, bad, short].map(|texts| (start.clone(), texts))
}
