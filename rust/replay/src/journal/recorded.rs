//! The calls of random lists, each made with its record.

use super::{asked, told, Call, Keeper, Outcome, Pair, Tally, Trouble, RECORDED_WORDS, RECOVERED_COUNTS};
use crate::event::{Event, BUFFER};
use crate::generate::Generator;
use crate::random::Random;
use crate::register;

/// The calls of a seed's list. A refusal leaves everything as it was; the record of a call that is done makes it again.
pub fn replay(left: &dyn Keeper, right: &dyn Keeper, seed: u64, tally: &mut Tally) -> Result<(), Trouble> {
    let pair = Pair { seed, left, right };
    let (mut generator, mut random) = (Generator::new(seed), Random::new(!seed));
    let mut buffer = vec![0; BUFFER];
    while let Some(step) = generator.next(&buffer) {
        let Some((kind, numbers)) = asked(&step.event) else {
            if matches!(step.event, Event::Lay(_) | Event::Put { .. }) {
                step.run(&register::Straight, &mut buffer);
            }
            continue;
        };
        let call = call(&mut random, kind, numbers);
        let outcome = pair.call(&call, &buffer, step.words)?;
        tally.count("recorded", outcome.number);
        if outcome.number != 0 {
            pair.expect(&call, &buffer, step.words, &call.untouched(outcome.number, &buffer))?;
            continue;
        }
        let length = outcome.out[0] as usize;
        let again = Call::Recover { bytes: outcome.bytes[..length].to_vec(), out: RECOVERED_COUNTS };
        let out = told(1, length, RECOVERED_COUNTS);
        pair.expect(&again, &buffer, step.words, &Outcome { number: 0, bytes: Vec::new(), out, book: outcome.book.clone() })?;
        buffer = outcome.book;
    }
    Ok(())
}

/// The call, now and then with a kind that there is not, with too many numbers or too few, or with too little room.
fn call(random: &mut Random, kind: u32, mut numbers: Vec<u32>) -> Call {
    let mut asked = kind;
    match random.below(60) {
        0 => asked = random.choose(&[0, 9, 255, 256 + kind, kind << 8, u32::MAX, kind ^ 1, kind % 8 + 1]),
        1 => drop(numbers.pop()),
        2 => numbers.push(0),
        3 => numbers.truncate(random.below(5)),
        _ => {}
    }
    let need = 1 + usize::from(kind == 1 || kind == 8) + 4 * numbers.len();
    let room = match random.below(12) {
        0 => random.choose(&[0, 1, 9, 81, 82, need - 1, need, need + 1]),
        1 => random.below(need + 1),
        _ => need + random.below(20),
    };
    let out = match random.below(40) {
        0 => random.choose(&[0, 1, 3, RECORDED_WORDS - 1]),
        _ => RECORDED_WORDS + random.below(4),
    };
    Call::Recorded { kind: asked, numbers, room, out }
}
