//! The lines that a desk is busy with.

use replay::event::{Event, BUFFER};
use replay::generate::Generator;
use replay::lines;
use replay::random::Random;
use straight::layout::home;
use straight::{Counts, WORDS};

use crate::expected::Expected;

/// So many lines for a register as it is: first a look at the book, then events of every kind, good and damaged, mixed.
pub fn lines(random: &mut Random, expected: &Expected, count: usize) -> Vec<Vec<u8>> {
    let mut after = expected.clone();
    let mut all = Vec::new();
    let mut add = |after: &mut Expected, line: Vec<u8>| {
        after.line(&line);
        all.push(line);
        all.len() < count
    };
    if expected.is_set_up() {
        for line in look(random, &expected.book) {
            add(&mut after, line);
        }
    }
    loop {
        let mut generator = Generator::new(random.bits());
        let mut buffer = vec![0; BUFFER];
        loop {
            buffer[..WORDS].copy_from_slice(&after.book);
            let Some(step) = generator.next(&buffer) else { break };
            let line = match step.event {
                Event::Line(line) => line,
                Event::Lay(_) | Event::Put { .. } | Event::Fit | Event::Greater { .. } | Event::Grams { .. } => continue,
                // What there is shall last a while.
                Event::Setup { .. } if after.is_set_up() && random.percent(90) => continue,
                call => lines::text(&call),
            };
            for part in line.split(|&byte| byte == b'\n') {
                if !add(&mut after, part.to_vec()) {
                    return all;
                }
            }
        }
    }
}

/// Lists of all bearings, for a crew at home in each depot.
fn look(random: &mut Random, book: &[u32]) -> Vec<Vec<u8>> {
    let n = Counts::of(book);
    let mut lines = Vec::new();
    for depot in 0..n.depots {
        let crews: Vec<usize> = (0..n.crews).filter(|&crew| book[home(crew)] as usize == depot).collect();
        if crews.is_empty() {
            continue;
        }
        let crew = random.choose(&crews) as u32;
        let bearings: Vec<u32> = (0..n.bearings as u32).collect();
        for page in bearings.chunks(8) {
            lines.push(lines::text(&Event::List { crew, bearings: page.to_vec() }));
        }
    }
    lines
}
