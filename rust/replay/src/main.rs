//! Replays random lists on the straight version and on the static library. [`arguments`](replay::arguments) says how it is
//! asked.

use std::process::exit;
use std::time::{Duration, Instant};
use std::{env, fs, path::Path};

use replay::arguments::{self, Goal, Task};
use replay::compare::{replay_list, tell, Finding};
use replay::damage::{self, Damaged, Trouble};
use replay::progress::Progress;
use replay::register::{Register, Straight};
use replay::shrink::shrink;
use replay::slips::Slipped;
use replay::stream::stream;
use replay::tally::Tally;

fn main() {
    let asked = arguments::parse(env::args().skip(1)).unwrap_or_else(|why| {
        eprintln!("replay: {}\n{}", why, arguments::USAGE);
        exit(2);
    });
    let other: Box<dyn Register> = match asked.slip {
        Some(slip) => Box::new(Slipped(slip)),
        None => library(),
    };
    match asked.task {
        Task::Lists(goal) => replay_all(&*other, goal, asked.seed),
        Task::Damage(rounds) => damage_all(&*other, rounds, asked.seed),
        Task::Lines(folder, count) => write_lines(Path::new(&folder), count, asked.seed),
    }
}

#[cfg(feature = "library")]
fn library() -> Box<dyn Register> {
    Box::new(replay::register::Library)
}

#[cfg(not(feature = "library"))]
fn library() -> Box<dyn Register> {
    eprintln!("replay: built without the library");
    exit(2);
}

/// The lists of the seeds from the first on, until there are events and damaged lines enough; then rounds of damage, until
/// there are damaged books enough.
fn replay_all(other: &dyn Register, goal: Goal, first: u64) {
    let start = Instant::now();
    let all = [goal.damaged_lines, goal.damaged_books].iter().fold(goal.events, |sum, &more| sum.saturating_add(more));
    let mut progress = Progress::new("replay", "events, lines and books", all);
    let mut tally = Tally::default();
    let mut lists = 0;
    while tally.events < goal.events || tally.bad_lines < goal.damaged_lines {
        let seed = first.wrapping_add(lists);
        if let Err(finding) = replay_list(&Straight, other, seed, &mut tally) {
            progress.end();
            differ(other, finding, &format!("replay 1 --seed {}", seed));
        }
        lists += 1;
        progress.at(tally.events.min(goal.events) + tally.bad_lines.min(goal.damaged_lines));
    }
    let before = goal.events + goal.damaged_lines;
    let mut damaged = Damaged::default();
    let mut rounds = 0;
    while damaged.books < goal.damaged_books {
        one_round(other, first.wrapping_add(rounds), &mut damaged, &mut progress, |books| before + books.min(goal.damaged_books));
        rounds += 1;
    }
    progress.end();
    print!("{}{}", tally, damaged);
    println!(
        "replay: {} events and {} damaged lines in {} lists, and {} damaged books in {} rounds, from seed {} on, {:.1} s, no difference",
        tally.events,
        tally.bad_lines,
        lists,
        damaged.books,
        rounds,
        first,
        start.elapsed().as_secs_f64()
    );
}

/// Rounds of damage from the first seed on.
fn damage_all(other: &dyn Register, rounds: u64, first: u64) {
    let start = Instant::now();
    // About so many damaged books has a round.
    let mut progress = Progress::new("replay", "damaged books", rounds.saturating_mul(10 * 15_000));
    let mut damaged = Damaged::default();
    for round in 0..rounds {
        one_round(other, first.wrapping_add(round), &mut damaged, &mut progress, |books| books);
    }
    progress.end();
    print!("{}", damaged);
    println!(
        "replay: {} damaged books in {} rounds from seed {} on, {:.1} s, no difference",
        damaged.books,
        rounds,
        first,
        start.elapsed().as_secs_f64()
    );
}

fn one_round(other: &dyn Register, seed: u64, damaged: &mut Damaged, progress: &mut Progress, done: impl Fn(u64) -> u64) {
    let outcome = damage::round(&Straight, other, seed, damaged, &mut |books| progress.at(done(books)));
    match outcome {
        Ok(()) => {}
        Err(Trouble::Differ(finding)) => {
            progress.end();
            differ(other, finding, &format!("replay --damage 1 --seed {}", seed));
        }
        Err(Trouble::Effect(text)) => {
            progress.end();
            print!("{}", text);
            println!("again: replay --damage 1 --seed {}", seed);
            exit(1);
        }
    }
}

/// Tells a difference, by the shortest list that shows it, and ends.
fn differ(other: &dyn Register, finding: Finding, again: &str) -> ! {
    eprintln!("replay: a difference; looking for the shortest list that shows it");
    let finding = shrink(&Straight, other, finding, Duration::from_secs(30));
    print!("{}", tell(&finding));
    println!("again: {}", again);
    exit(1);
}

/// Writes desk.in, so many lines good and damaged with no line feed at the end, and desk.out, the answers.
fn write_lines(folder: &Path, count: u64, seed: u64) {
    let input = stream(seed, count);
    let output = straight::desk(&input);
    let result = fs::create_dir_all(folder)
        .and_then(|()| fs::write(folder.join("desk.in"), &input))
        .and_then(|()| fs::write(folder.join("desk.out"), &output));
    if let Err(error) = result {
        eprintln!("replay: {}: {}", folder.display(), error);
        exit(1);
    }
    let answers: Vec<&[u8]> = output.split(|&byte| byte == b'\n').collect();
    let bad = answers.iter().filter(|&&answer| answer == b"13").count();
    println!("replay: {} lines in desk.in, {} of them BAD LINE, and their answers in desk.out", answers.len() - 1, bad);
}
