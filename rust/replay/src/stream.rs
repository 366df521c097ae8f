//! Desk input, for a desk program.

use crate::event::{Event, BUFFER};
use crate::generate::Generator;
use crate::lines;
use straight::WORDS;

/// Desk input of about so many lines, a third of them damaged, and the last without its line feed.
pub fn stream(seed: u64, count: u64) -> Vec<u8> {
    let mut input = Vec::new();
    let mut book = vec![0; BUFFER];
    let mut made = 0;
    let mut seed = seed;
    while made < count {
        let mut generator = Generator::new(seed);
        while let Some(step) = generator.next(&book) {
            let line = match &step.event {
                Event::Line(line) => line.clone(),
                Event::Lay(_) | Event::Put { .. } | Event::Fit | Event::Greater { .. } | Event::Grams { .. } => continue,
                call => lines::text(call),
            };
            // A line feed within makes two lines of it.
            for part in line.split(|&byte| byte == b'\n') {
                straight::line(&mut book[..WORDS], part);
                input.extend_from_slice(part);
                input.push(b'\n');
                made += 1;
            }
        }
        seed = seed.wrapping_add(1);
    }
    input.extend_from_slice(b"K 0 0");
    input
}
