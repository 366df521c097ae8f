//! The desk program, with and without a journal, and the straight version's desk beside it.

use std::fs::{self, File};
use std::io::Write;
use std::path::Path;
use std::process::{self, Command, Stdio};
use std::time::{Duration, Instant};
use std::{env, thread};

use straight::{desk, desk_with_journal, WORDS};

use crate::lines_of;

/// An odd number, so that there is a median.
const RUNS: usize = 5;
/// The bytes of lines that the straight version's desk takes at a time.
const PIECE: usize = 1 << 16;

/// Prints lines a second: through a pipe, answers thrown away.
pub fn print(count: usize, words: &[String]) {
    let [(_, lines), _, _] = lines_of(count);
    let mut input = b"S 2 2 16 4 0 1 0 1\n".to_vec();
    lines.iter().for_each(|line| input.extend([&line[..], b"\n"].concat()));
    let path = env::temp_dir().join(format!("depot-bench-{}-desk", process::id()));
    println!("\nThe desk program, {} lines through a pipe, median of {} runs, lines a second:\n", count, RUNS);
    println!("| | the desk | straight |");
    println!("|---|---|---|");
    let rate = |time: Duration| count as f64 / time.as_secs_f64();
    println!(
        "| without a journal | {:.0} | {:.0} |",
        rate(median(|| started(words, None, &input))),
        rate(median(|| plain(&input)))
    );
    let with = median(|| started(words, Some(&path), &input));
    let kept = fs::read(&path).expect("the journal is there");
    let beside = median(|| journalled(&path, &input));
    assert!(kept == fs::read(&path).expect("the journal is there"), "the two journals differ: run the killing test");
    println!("| with one | {:.0} | {:.0} |", rate(with), rate(beside));
    fs::remove_file(&path).expect("the journal is there");
}

fn median(mut run: impl FnMut() -> Duration) -> Duration {
    let mut times: Vec<Duration> = (0..RUNS).map(|_| run()).collect();
    times.sort();
    times[RUNS / 2]
}

/// The program on these lines, with a journal that is not there yet.
fn started(words: &[String], journal: Option<&Path>, input: &[u8]) -> Duration {
    if let Some(path) = journal {
        let _ = fs::remove_file(path);
    }
    let start = Instant::now();
    let mut command = Command::new(&words[0]);
    command.args(&words[1..]).args(journal).stdin(Stdio::piped()).stdout(Stdio::null());
    let mut child = command.spawn().expect("the desk starts");
    let mut into = child.stdin.take().expect("its input is piped");
    thread::scope(|scope| {
        scope.spawn(move || into.write_all(input).expect("the desk reads"));
        assert!(child.wait().expect("the desk ends").success(), "the desk ends well");
    });
    start.elapsed()
}

fn plain(input: &[u8]) -> Duration {
    let start = Instant::now();
    std::hint::black_box(desk(input));
    start.elapsed()
}

/// The straight version's desk, with a sync for each piece of the input.
fn journalled(path: &Path, input: &[u8]) -> Duration {
    let start = Instant::now();
    let mut file = File::create(path).expect("a journal");
    let (mut book, mut records, mut answers) = (vec![0; WORDS], Vec::new(), String::new());
    let mut taken = 0;
    for line in input.split_inclusive(|&byte| byte == b'\n') {
        answers += &desk_with_journal(&mut book, &mut records, &line[..line.len() - 1]);
        taken += line.len();
        if taken >= PIECE {
            taken = 0;
            file.write_all(&std::mem::take(&mut records)).and_then(|()| file.sync_data()).expect("it is kept");
        }
    }
    file.write_all(&records).and_then(|()| file.sync_data()).expect("it is kept");
    std::hint::black_box(answers);
    start.elapsed()
}
