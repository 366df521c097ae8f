//! One thing to time on both sides, turn by turn.

use std::time::{Duration, Instant};

use crate::events::{call, Block, Kind, COUNT_OF_KINDS};
use replay::register::{Library, Register, Straight, ANSWER_BYTES};
use straight::WORDS;

pub enum Work {
    Blocks(Vec<Block>),
    /// Lines of the desk.
    Lines(Vec<Vec<u8>>),
}

/// The time of the calls of each kind in one run.
type Times = [Duration; COUNT_OF_KINDS];

pub struct Timed {
    start: Vec<u32>,
    work: Work,
    /// How many calls there are of each kind.
    counts: [usize; COUNT_OF_KINDS],
    library: Vec<Times>,
    straight: Vec<Times>,
    /// What the last run said: how many calls were done, or with how many bytes the lines were answered.
    pub said: usize,
}

impl Timed {
    pub fn new(start: Vec<u32>, work: Work) -> Timed {
        let mut counts = [0; COUNT_OF_KINDS];
        match &work {
            Work::Blocks(blocks) => blocks.iter().for_each(|block| counts[block.kind as usize] += block.events.len()),
            Work::Lines(texts) => counts[Kind::Mixed as usize] = texts.len(),
        }
        Timed { start, work, counts, library: Vec::new(), straight: Vec::new(), said: 0 }
    }

    /// The calls of one run on one side.
    pub fn calls(&self) -> u64 {
        self.counts.iter().sum::<usize>() as u64
    }

    /// A run on each side, one of them first. Different answers or books at the end are no benchmark.
    pub fn turn(&mut self, library_first: bool) {
        let (library, straight) = if library_first {
            let library = self.run(&Library);
            (library, self.run(&Straight))
        } else {
            let straight = self.run(&Straight);
            (self.run(&Library), straight)
        };
        let (times, said, book) = library;
        assert!(said == straight.1 && book == straight.2, "the two sides differ: run the replay");
        self.library.push(times);
        self.straight.push(straight.0);
        self.said = said;
    }

    /// The times of a run, what it said, and the book at the end.
    fn run<R: Register>(&self, register: &R) -> (Times, usize, Vec<u32>) {
        let mut book = self.start.clone();
        let mut times = [Duration::ZERO; COUNT_OF_KINDS];
        let said = match &self.work {
            Work::Blocks(blocks) => run_blocks(register, blocks, &mut book, &mut times),
            Work::Lines(texts) => run_lines(register, texts, &mut book, &mut times),
        };
        (times, said, book)
    }

    /// The nanoseconds of a call of a kind: the medians of the library and of the straight version.
    pub fn medians(&self, kind: Kind) -> (f64, f64) {
        let median = |runs: &[Times]| {
            let mut times: Vec<Duration> = runs.iter().map(|times| times[kind as usize]).collect();
            times.sort();
            times[times.len() / 2].as_secs_f64() * 1e9 / self.counts[kind as usize] as f64
        };
        (median(&self.library), median(&self.straight))
    }
}

/// Runs the blocks one after the other and adds the time of each to that of its kind. Says how many calls were done.
fn run_blocks<R: Register>(register: &R, blocks: &[Block], book: &mut [u32], times: &mut Times) -> usize {
    let mut fresh = vec![0; WORDS];
    let mut done = 0;
    for block in blocks {
        let clock = Instant::now();
        done += block.events.iter().filter(|event| call(register, event, book, &mut fresh)).count();
        times[block.kind as usize] += clock.elapsed();
    }
    done
}

/// Runs lines of the desk. Says how many bytes they were answered with.
fn run_lines<R: Register>(register: &R, texts: &[Vec<u8>], book: &mut [u32], times: &mut Times) -> usize {
    let mut out = [0; ANSWER_BYTES];
    let clock = Instant::now();
    let bytes = texts.iter().map(|text| register.line(book, text, &mut out)).sum();
    times[Kind::Mixed as usize] += clock.elapsed();
    bytes
}
