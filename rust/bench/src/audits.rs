//! The auditor on both sides: a history of 256 entries that is causal, so that everything is looked at.

use std::hint::black_box;
use std::time::Instant;

use depot_register::audit::{audit, Verdict, MOST_ENTRIES, READ, WRITE};

/// Four crews in turn; each writes its own bearing and then reads that of the crew before it.
pub fn history() -> Vec<u32> {
    let mut words = Vec::new();
    for at in 0..MOST_ENTRIES as u32 {
        let crew = at / 2 % 4;
        let stamp = 1 + at / 8;
        let of = |crew: u32, stamp: u32| [crew, 9_200, 1, 1, 0, 4 * stamp + crew, 0, 0, 0];
        if at % 2 == 0 {
            words.extend([WRITE, crew]);
            words.extend(of(crew, stamp));
        } else {
            let before = if crew == 0 { of(0, stamp) } else { of(crew - 1, stamp) };
            words.extend([READ, crew]);
            words.extend(before);
        }
    }
    words
}

/// The times of one audit on the library and on the straight version, in microseconds: the medians of so many runs, by turns.
pub fn medians(runs: usize) -> (f64, f64) {
    let words = history();
    // The straight version's kinds are one above the library's.
    let mut others = words.clone();
    others.iter_mut().step_by(11).for_each(|kind| *kind += 1);
    assert_eq!(audit(&words), Verdict::Causal);
    assert_eq!(straight::audit(&others), straight::Verdict::Causal);
    let mut times = [Vec::new(), Vec::new()];
    for _ in 0..runs {
        let start = Instant::now();
        for _ in 0..20 {
            black_box(audit(black_box(&words)));
        }
        times[0].push(start.elapsed());
        let start = Instant::now();
        for _ in 0..20 {
            black_box(straight::audit(black_box(&others)));
        }
        times[1].push(start.elapsed());
    }
    let [library, straight] = times.map(|mut all| {
        all.sort();
        all[all.len() / 2].as_secs_f64() * 1e6 / 20.0
    });
    (library, straight)
}
