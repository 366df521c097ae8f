//! The library's auditor and the straight version's agree: on what the register did, recorded line by line, which is causal; on the
//! same damaged; and on entries that are drawn at random.
#![cfg(feature = "library")]

use depot_register::audit::{audit, Recorder, Verdict, ENTRY, MOST_ENTRIES, READ, WRITE};
use depot_register::{raw, WORDS};
use replay::random::Random;
use straight::{READ_ENTRY, WRITE_ENTRY};

/// The straight version has other numbers for the two kinds, one above the library's.
fn straight_words(words: &[u32]) -> Vec<u32> {
    assert_eq!((WRITE.wrapping_add(1), READ.wrapping_add(1)), (WRITE_ENTRY, READ_ENTRY));
    let mut words = words.to_vec();
    words.iter_mut().step_by(ENTRY).for_each(|kind| *kind = kind.wrapping_add(1));
    words
}

/// How often each answer was given: causal, too many, bad length, refused, circle, low.
#[derive(Default)]
struct Tally([u32; 6]);

impl Tally {
    /// What both say of a history.
    fn compare(&mut self, words: &[u32]) -> Verdict {
        let found = audit(words);
        let number = |entry: usize| u32::try_from(entry).unwrap();
        let (which, expected) = match straight::audit(&straight_words(words)) {
            straight::Verdict::Causal => (0, Verdict::Causal),
            straight::Verdict::TooMany => (1, Verdict::TooMany),
            straight::Verdict::BadLength => (2, Verdict::BadLength),
            straight::Verdict::Refused(entry) => (3, Verdict::Refused(number(entry))),
            straight::Verdict::Circle(entry) => (4, Verdict::Circle(number(entry))),
            straight::Verdict::Low(entry) => (5, Verdict::Low(number(entry))),
        };
        assert_eq!(found, expected, "{:?}", words);
        self.0[which] += 1;
        found
    }
}

/// The line of a write, with a card of its value's own.
fn write_line(crew: usize, bearing: usize, value: usize) -> String {
    format!("W {} {} {} {} 1065353216", crew, bearing, value, 1_065_353_216 + value)
}

/// What the register did in a random history of so many entries at most, crews changing their depots too.
fn recorded(random: &mut Random, most: usize) -> Recorder {
    let (depots, shelves) = (random.between(1, 4), random.between(1, 3));
    let (bearings, crews) = (random.between(1, 6), random.between(1, 5));
    let mut book = vec![0; WORDS];
    let mut recorder = Recorder::new();
    let homes: String = (0..crews).map(|_| format!(" {}", random.below(depots))).collect();
    let setup = format!("S {} {} {} {}{}", depots, shelves, bearings, crews, homes);
    assert_eq!(recorder.line_on(&mut book, setup.as_bytes()), b"0\n");
    for _ in 0..4_000 {
        if recorder.words().len() == most * ENTRY {
            break;
        }
        let (crew, bearing) = (random.below(crews), random.below(bearings));
        let (depot, shelf, from) = (random.below(depots), random.below(shelves), random.below(depots));
        if random.percent(4) {
            raw::move_crew(&mut book, crew as u32, depot as u32);
            continue;
        }
        let line = match random.below(20) {
            0..=2 => write_line(crew, bearing, random.below(1_000)),
            3 | 4 => format!("R {} {}", crew, bearing),
            5..=8 => format!("K {} {}", depot, shelf),
            9..=11 => format!("F {} {}", depot, shelf),
            _ => format!("T {} {} {}", depot, shelf, from),
        };
        recorder.line_on(&mut book, line.as_bytes());
    }
    recorder
}

#[test]
fn what_the_register_did_passes() {
    let mut tally = Tally::default();
    for seed in 0..400 {
        let mut random = Random::new(seed);
        let most = random.between(0, MOST_ENTRIES);
        let history = recorded(&mut random, most);
        assert_eq!(tally.compare(history.words()), Verdict::Causal, "seed {}", seed);
        assert_eq!(straight::audit_lines(history.lines().as_bytes()), "causal\n", "seed {}", seed);
    }
}

/// One or two things are changed.
fn damage(random: &mut Random, words: &mut Vec<u32>) {
    for _ in 0..random.between(1, 2) {
        let count = words.len() / ENTRY;
        if count < 2 {
            return;
        }
        let (a, b) = (random.below(count) * ENTRY, random.below(count) * ENTRY);
        match random.below(8) {
            // The words of two entries are exchanged, or their crews.
            0 => (0..ENTRY).for_each(|x| words.swap(a + x, b + x)),
            1 => words.swap(a + 1, b + 1),
            // One entry is said twice, or left out.
            2 => words.copy_within(a..a + ENTRY, b),
            3 => drop(words.drain(a..a + ENTRY)),
            // A read of another version, or of nothing.
            4 | 5 => {
                words.copy_within(a + 2..a + ENTRY, b + 2);
                words[b] = READ;
            }
            6 => words[a + 7..a + ENTRY].fill(0),
            // Any word.
            _ => words[a + random.below(ENTRY)] = random.below(4) as u32,
        }
    }
}

#[test]
fn damaged_histories() {
    let mut tally = Tally::default();
    for seed in 0..4_000 {
        let mut random = Random::new(1_000_000 + seed);
        let most = random.between(2, 40);
        let mut words = recorded(&mut random, most).words().to_vec();
        damage(&mut random, &mut words);
        tally.compare(&words);
    }
    assert!([0, 3, 4, 5].iter().all(|&which| tally.0[which] > 20), "{:?}", tally.0);
}

#[test]
fn entries_at_random() {
    let mut tally = Tally::default();
    for seed in 0..20_000 {
        let mut random = Random::new(2_000_000 + seed);
        let mut words = Vec::new();
        let writes: Vec<[u32; 9]> = (0..random.between(1, 6))
            .map(|_| {
                let mut record = [random.below(2) as u32, 7, 1, 1, random.below(2) as u32, 0, 0, 0, 0];
                record[5..].fill_with(|| random.below(3) as u32);
                record
            })
            .collect();
        let mut left: Vec<usize> = (0..writes.len()).collect();
        for _ in 0..random.between(1, 12) {
            let crew = random.below(3) as u32;
            if !left.is_empty() && random.percent(50) {
                let which = left.swap_remove(random.below(left.len()));
                words.extend([WRITE, crew]);
                words.extend(writes[which]);
            } else {
                words.extend([READ, crew]);
                words.extend(if random.percent(20) { [0; 9] } else { random.choose(&writes) });
            }
        }
        if random.percent(5) {
            words.truncate(random.below(words.len()));
        }
        tally.compare(&words);
    }
    assert!([0, 2, 3, 4, 5].iter().all(|&which| tally.0[which] > 100), "{:?}", tally.0);
}

#[test]
fn lengths() {
    let mut tally = Tally::default();
    let unwritten = [READ, 0, 0, 0, 0, 0, 0, 0, 0, 0, 0];
    let full = [unwritten; MOST_ENTRIES].concat();
    assert_eq!(tally.compare(&full), Verdict::Causal);
    assert_eq!(tally.compare(&full[1..]), Verdict::BadLength);
    assert_eq!(tally.compare(&[&full[..], &[9]].concat()), Verdict::TooMany);
    assert_eq!(tally.compare(&[]), Verdict::Causal);
    for kind in [2, 3, u32::MAX - 1, u32::MAX] {
        assert_eq!(tally.compare(&[&unwritten[..], &[kind, 0, 0, 0, 0, 0, 0, 0, 0, 0, 0]].concat()), Verdict::Refused(1));
    }
}
