//! What the command line asks for, and what it cannot ask for.

use replay::arguments::{parse, Asked, Goal, Task};
use replay::parts::{Call, Part};
use replay::slips::Slip;

fn asked(line: &str) -> Result<Asked, String> {
    parse(line.split_whitespace().map(str::to_string))
}

#[test]
fn what_can_be_asked() {
    let lists = |events, lines, books| Task::Lists(Goal { events, damaged_lines: lines, damaged_books: books });
    let plain = |task| Ok(Asked { task, seed: 1, slip: None });
    assert_eq!(asked(""), plain(lists(200_000, 100_000, 100_000)));
    assert_eq!(asked("5"), plain(lists(5, 2, 2)));
    assert_eq!(asked("--long"), plain(lists(10_000_000, 1_000_000, 1_000_000)));
    assert_eq!(asked("--damage"), plain(Task::Damage(16)));
    assert_eq!(asked("--damage 3"), plain(Task::Damage(3)));
    assert_eq!(asked("--lines there 7"), plain(Task::Lines("there".to_string(), 7)));
    assert_eq!(asked("--seed 0 5"), Ok(Asked { task: lists(5, 2, 2), seed: 0, slip: None }));
    for (name, slip) in [("WaitAtEqual", Slip::WaitAtEqual), ("TickWithoutClock", Slip::Without(Call::Tick, Part::Clock))] {
        assert_eq!(asked(&format!("--slip {} 5", name)), Ok(Asked { task: lists(5, 2, 2), seed: 1, slip: Some(slip) }));
    }
}

#[test]
fn what_cannot_be_asked() {
    let lines = [
        "x", "0", "-5", "1.5", "10 20 30", "10 20", "18446744073709551616", "--seed", "--seed x", "--seed 1 --seed 2", "--slip",
        "--slip Nope", "--slip None", "--long 5", "--long --damage", "--damage 0", "--lines", "--lines there 0",
        "--lines a --long", "--lines a --slip LineZeros", "--help",
    ];
    for line in lines {
        assert!(asked(line).is_err(), "{}", line);
    }
}
