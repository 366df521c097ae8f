//! A replay finds every slip, and none where there is none.

use std::time::Duration;

use replay::compare::{differs, replay_list, Finding};
use replay::damage::{round, Damaged, Trouble};
use replay::register::Straight;
use replay::shrink::shrink;
use replay::slips::{desk, slips, Slip, Slipped};
use replay::tally::{Tally, MARKS};

/// The first list that tells a slip from the straight version: random ones, then damage in every place.
fn found(slip: Slip) -> Option<Finding> {
    let other = Slipped(slip);
    let list = |seed| replay_list(&Straight, &other, seed, &mut Tally::default()).err();
    let damage = |seed| match round(&Straight, &other, seed, &mut Damaged::default(), &mut |_| ()) {
        Err(Trouble::Differ(finding)) => Some(finding),
        Err(Trouble::Effect(text)) => panic!("the straight version: {}", text),
        Ok(()) => None,
    };
    (1..=800).find_map(list).or_else(|| (0..16).find_map(damage))
}

#[test]
fn every_slip_is_found() {
    let missed: Vec<String> = slips().iter().filter(|&&slip| found(slip).is_none()).map(Slip::to_string).collect();
    assert!(missed.is_empty(), "not found in 800 lists and 16 rounds of damage: {:?}", missed);
}

#[test]
fn no_slip_no_difference() {
    let mut tally = Tally::default();
    for seed in 1..=800 {
        assert!(replay_list(&Straight, &Slipped(Slip::None), seed, &mut tally).is_ok(), "seed {}", seed);
        if seed >= 150 && MARKS.iter().all(|(mark, _)| tally.of(*mark) > 0) {
            return;
        }
    }
    for (mark, text) in MARKS {
        assert!(tally.of(*mark) > 0, "800 lists never reach {}", text);
    }
}

#[test]
fn lists_are_shrunk() {
    for (slip, most) in [(Slip::TickFindsFull, 17), (Slip::StopsAtHidden, 3), (Slip::LineZeros, 1)] {
        let finding = found(slip).expect("the slip is found");
        let shrunk = shrink(&Straight, &Slipped(slip), finding, Duration::from_secs(20));
        assert!(differs(&Straight, &Slipped(slip), &shrunk.steps).is_some());
        assert!(shrunk.steps.len() <= most, "{:?} is shown by {} steps: {:?}", slip, shrunk.steps.len(), shrunk.steps);
    }
}

#[test]
fn a_last_line_without_its_line_feed_is_in_every_stream() {
    let input = replay::stream::stream(1, 100);
    assert_ne!(desk(&input), straight::desk(&input));
}
