//! A desk at work: started, busy, killed.

use std::ffi::OsString;
use std::io::{Read, Write};
use std::path::{Path, PathBuf};
use std::process::{Child, Command, ExitStatus, Stdio};
use std::sync::mpsc::{channel, Receiver};
use std::thread::{sleep, spawn, JoinHandle};
use std::time::{Duration, Instant};

use replay::random::Random;

/// How the programs are started: the words before their arguments.
#[derive(Clone)]
pub struct Programs {
    pub desk: Vec<OsString>,
    pub snapshot: Vec<OsString>,
}

/// The files of a register.
#[derive(Clone)]
pub struct Files {
    pub journal: PathBuf,
    pub image: Option<PathBuf>,
}

impl Files {
    fn words(&self) -> Vec<&Path> {
        [Some(&self.journal), self.image.as_ref()].into_iter().flatten().map(PathBuf::as_path).collect()
    }
}

/// What came of a desk.
pub struct Ended {
    pub status: ExitStatus,
    pub answers: Vec<u8>,
    /// What it said beside its answers.
    pub said: String,
}

/// When a desk is ended.
#[derive(Clone, Copy, Debug)]
pub enum Moment {
    /// Killed after so long.
    After(Duration),
    /// Killed as soon as so many bytes have been answered.
    Answered(usize),
    /// Not at all: its input ends, and it ends by itself.
    AtEnd,
}

fn command(words: &[OsString]) -> Command {
    let mut command = Command::new(&words[0]);
    command.args(&words[1..]);
    command
}

impl Programs {
    /// A desk that gets these lines, in pieces of any size, and is ended at a moment.
    pub fn run(&self, files: &Files, lines: &[Vec<u8>], moment: Moment, random: &mut Random) -> std::io::Result<Ended> {
        let mut command = command(&self.desk);
        command.args(files.words());
        run(command, lines, moment, random)
    }

    /// The same with a limit to the length of files, in blocks of the shell. Without a signal a write past it fails.
    pub fn run_limited(&self, files: &Files, lines: &[Vec<u8>], blocks: usize, random: &mut Random) -> std::io::Result<Ended> {
        let mut command = Command::new("sh");
        command.args(["-c", "trap '' XFSZ; ulimit -f \"$0\" && exec \"$@\"", &blocks.to_string()]);
        command.args(&self.desk).args(files.words());
        run(command, lines, Moment::AtEnd, random)
    }

    /// An image of a journal, saved to a new file.
    pub fn snapshot(&self, files: &Files, to: &Path) -> std::io::Result<Ended> {
        let mut command = command(&self.snapshot);
        command.arg(&files.journal).arg(to).args(&files.image);
        run(command, &[], Moment::AtEnd, &mut Random::new(0))
    }
}

fn run(mut command: Command, lines: &[Vec<u8>], moment: Moment, random: &mut Random) -> std::io::Result<Ended> {
    let start = Instant::now();
    let mut child = command.stdin(Stdio::piped()).stdout(Stdio::piped()).stderr(Stdio::piped()).spawn()?;
    let feeding = feed(&mut child, lines, random.bits());
    let said = hear(child.stderr.take().expect("its errors are piped")).1;
    let (told, heard) = hear(child.stdout.take().expect("its answers are piped"));
    match moment {
        Moment::After(time) => sleep(time.saturating_sub(start.elapsed())),
        Moment::Answered(bytes) => wait_for(&told, bytes),
        Moment::AtEnd => {}
    }
    if !matches!(moment, Moment::AtEnd) {
        // It may have ended by itself.
        let _ = child.kill();
    }
    let status = child.wait()?;
    feeding.join().expect("the feeding thread ends");
    let answers = heard.join().expect("the hearing thread ends");
    let said = String::from_utf8_lossy(&said.join().expect("the hearing thread ends")).into_owned();
    Ok(Ended { status, answers, said })
}

/// Writes the lines in pieces of any size; a desk that is gone takes no more.
fn feed(child: &mut Child, lines: &[Vec<u8>], seed: u64) -> JoinHandle<()> {
    let mut input = child.stdin.take().expect("its input is piped");
    let mut bytes = Vec::new();
    lines.iter().for_each(|line| bytes.extend([&line[..], b"\n"].concat()));
    spawn(move || {
        let mut random = Random::new(seed);
        let most = random.choose(&[40, 400, 4_000, 100_000]);
        let mut left = &bytes[..];
        while !left.is_empty() {
            let (piece, rest) = left.split_at(random.between(1, most).min(left.len()));
            if input.write_all(piece).and_then(|()| input.flush()).is_err() {
                return;
            }
            left = rest;
            if random.percent(2) {
                sleep(Duration::from_micros(random.below(500) as u64));
            }
        }
    })
}

/// All bytes of an output, and how many there are so far.
fn hear(mut output: impl Read + Send + 'static) -> (Receiver<usize>, JoinHandle<Vec<u8>>) {
    let (tell, told) = channel();
    let heard = spawn(move || {
        let (mut all, mut piece) = (Vec::new(), vec![0; 1 << 16]);
        while let Ok(length) = output.read(&mut piece) {
            if length == 0 {
                break;
            }
            all.extend_from_slice(&piece[..length]);
            // Nobody need listen.
            let _ = tell.send(all.len());
        }
        all
    });
    (told, heard)
}

/// Waits until so many bytes have been heard, or there will be no more.
fn wait_for(told: &Receiver<usize>, bytes: usize) {
    while let Ok(so_far) = told.recv() {
        if so_far >= bytes {
            return;
        }
    }
}
