//! Each word of a book damaged, in every way and for every call, in books of every kind: the straight version and the library
//! do alike, and a damaged word that a call does not look at has no effect.

use std::time::Duration;

use replay::compare::tell;
use replay::damage::{round, Damaged, Trouble, KINDS, WAYS};
use replay::parts::Call;
use replay::register::{Register, Straight};
use replay::shrink::shrink;
use replay::slips::{Slip, Slipped};

#[cfg(feature = "library")]
const OTHER: &dyn Register = &replay::register::Library;
#[cfg(not(feature = "library"))]
const OTHER: &dyn Register = &Straight;

#[test]
fn every_word_for_every_call() {
    let mut damaged = Damaged::default();
    for seed in 0..(KINDS * WAYS) as u64 {
        match round(&Straight, OTHER, seed, &mut damaged, &mut |_| ()) {
            Ok(()) => {}
            Err(Trouble::Differ(finding)) => {
                panic!("{}", tell(&shrink(&Straight, OTHER, finding, Duration::from_secs(30))))
            }
            Err(Trouble::Effect(text)) => panic!("{}", text),
        }
    }
    for name in ["read", "write", "tick", "take", "refresh", "list", "line", "is_fit", "setup"] {
        let [met, bad, no_effect] = damaged.of(name);
        // Each place of each kind of book at least once: damage by one more leaves no word as it was.
        assert!(met >= (KINDS * straight::WORDS) as u64, "{}: {} damaged books", name, met);
        assert_eq!(bad > 0, name != "setup", "{}", name);
        assert_eq!(no_effect > 10_000, name != "setup", "{}: {} without effect", name, no_effect);
    }
}

/// Two registers with the same mistake never differ; the damage that must not have an effect shows it.
#[test]
fn an_effect_is_found() {
    // A call that looks too far, one that mends what is none of its business, and a look at unused words.
    for slip in [Slip::Whole(Call::Tick), Slip::MendsClocks, Slip::FitDiagonal] {
        let (one, two) = (Slipped(slip), Slipped(slip));
        let trouble =
            (0..(KINDS * WAYS) as u64).find_map(|seed| round(&one, &two, seed, &mut Damaged::default(), &mut |_| ()).err());
        assert!(matches!(trouble, Some(Trouble::Effect(_))), "{}", slip);
    }
}
