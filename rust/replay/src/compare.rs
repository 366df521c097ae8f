//! Two registers side by side, and what they differ in.

use crate::event::{Outcome, Step, BUFFER};
use crate::generate::Generator;
use crate::register::Register;
use crate::tally::Tally;

/// What two registers do not agree on after a step.
pub struct Difference {
    pub step: usize,
    pub left: Box<Outcome>,
    pub right: Box<Outcome>,
    /// The first words that differ: place, left, right.
    pub words: Vec<(usize, u32, u32)>,
}

/// Two registers and their books, which are equal between steps.
pub struct Pair<'a> {
    left: &'a dyn Register,
    right: &'a dyn Register,
    books: [Vec<u32>; 2],
}

impl<'a> Pair<'a> {
    /// Both books start as zeros.
    pub fn new(left: &'a dyn Register, right: &'a dyn Register) -> Pair<'a> {
        Pair { left, right, books: [vec![0; BUFFER], vec![0; BUFFER]] }
    }

    /// The book of both, with the words behind it.
    pub fn buffer(&self) -> &[u32] {
        &self.books[0]
    }

    /// Runs a step on both. `look` sees the book before and after it, and the left answer.
    pub fn step(&mut self, step: &Step, mut look: impl FnMut(&[u32], &[u32], &Outcome)) -> Result<(), Difference> {
        let [left_book, right_book] = &mut self.books;
        let left = step.run(self.left, left_book);
        look(right_book, left_book, &left);
        let right = step.run(self.right, right_book);
        if left == right && left_book == right_book {
            return Ok(());
        }
        let words = left_book.iter().zip(right_book.iter()).enumerate();
        let words = words.filter(|(_, (a, b))| a != b).map(|(at, (a, b))| (at, *a, *b)).take(8).collect();
        Err(Difference { step: 0, left: Box::new(left), right: Box::new(right), words })
    }
}

/// A list of steps after which two registers differ.
pub struct Finding {
    pub seed: u64,
    pub steps: Vec<Step>,
    pub difference: Difference,
}

/// Replays one list, made from its seed, and counts what it reaches.
pub fn replay_list(left: &dyn Register, right: &dyn Register, seed: u64, tally: &mut Tally) -> Result<(), Finding> {
    let mut pair = Pair::new(left, right);
    let mut generator = Generator::new(seed);
    tally.start();
    let mut steps = Vec::new();
    while let Some(step) = generator.next(pair.buffer()) {
        let outcome = pair.step(&step, |before, after, outcome| tally.count(&step, before, after, outcome));
        steps.push(step);
        if let Err(difference) = outcome {
            let difference = Difference { step: steps.len() - 1, ..difference };
            return Err(Finding { seed, steps, difference });
        }
    }
    Ok(())
}

/// The first difference that a list shows, from books of zeros on.
pub fn differs(left: &dyn Register, right: &dyn Register, steps: &[Step]) -> Option<Difference> {
    let mut pair = Pair::new(left, right);
    steps.iter().enumerate().find_map(|(at, step)| {
        let outcome = pair.step(step, |_, _, _| ());
        outcome.err().map(|difference| Difference { step: at, ..difference })
    })
}

/// The finding for a reader.
pub fn tell(finding: &Finding) -> String {
    let mut text = format!(
        "seed {}: the shortest list found that shows it has {} events, from a book of zeros:\n",
        finding.seed,
        finding.steps.len()
    );
    for (at, step) in finding.steps.iter().enumerate() {
        text += &format!("  {}. {}\n", at + 1, step);
    }
    let last = finding.steps.last().expect("a finding has a step");
    let difference = &finding.difference;
    text += &format!("  straight answers {}\n  other    answers {}\n", last.tell(&difference.left), last.tell(&difference.right));
    for (at, left, right) in &difference.words {
        text += &format!("  word {}, {}: straight {}, other {}\n", at, part(*at), left, right);
    }
    text
}

/// What a word of the buffer is for.
fn part(at: usize) -> String {
    match at {
        0..=3 => "a count".to_string(),
        4..=19 => format!("the home of crew {}", at - 4),
        20..=83 => format!("entry {} of crew {}", at % 4, (at - 20) / 4),
        84..=99 => format!("the clock of depot {} shelf {}", (at - 84) / 4, at % 4),
        100..=163 => format!("stable entry {} of depot {} shelf {}", at % 4, (at - 100) / 16, (at - 100) / 4 % 4),
        164..=227 => format!("seen from {} at depot {} shelf {}", at % 4, (at - 164) / 16, (at - 164) / 4 % 4),
        228..=355 => format!("{} of the link {}", ["held", "taken"][at % 2], link_ends((at - 228) / 2)),
        356..=10_595 => {
            format!("word {} of slot {} of the link {}", (at - 356) % 10, (at - 356) % 160 / 10, link_ends((at - 356) / 160))
        }
        10_596..=16_355 => {
            let (depot, record) = ((at - 10_596) / 1_440, (at - 10_596) % 1_440);
            format!("word {} of bearing {} stored at depot {}", record % 9, record / 9, depot)
        }
        16_356..=16_383 => "unused".to_string(),
        _ => "past the book".to_string(),
    }
}

fn link_ends(link: usize) -> String {
    format!("of shelf {} from depot {} to {}", link / 16, link / 4 % 4, link % 4)
}
