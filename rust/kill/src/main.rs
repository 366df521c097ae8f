//! `kill [TIMES] [--seed FIRST] FOLDER [WORDS...]`: kills the desk of a folder so many times. WORDS start its programs, where they
//! do not start by themselves.

use std::path::{Path, PathBuf};
use std::process::exit;
use std::time::Instant;
use std::{env, fs, process};

use kill::desk::Programs;
use kill::trials::{Trial, Trouble};
use replay::progress::Progress;

const USAGE: &str = "\
usage: kill [TIMES] [--seed FIRST] FOLDER [WORDS...]    TIMES (300) kills of FOLDER/desk, each at another moment; WORDS start it";

struct Asked {
    times: u64,
    seed: u64,
    programs: Programs,
}

fn main() {
    let asked = parse(env::args().skip(1).collect()).unwrap_or_else(|why| {
        eprintln!("kill: {}\n{}", why, USAGE);
        exit(2);
    });
    let start = Instant::now();
    let folder = env::temp_dir().join(format!("depot-kill-{}", process::id()));
    let mut progress = Progress::new("kill", "kills", asked.times);
    let mut kills = 0;
    match all(&asked, &folder, &mut |so_far| {
        kills = so_far;
        progress.at(so_far);
    }) {
        Ok(told) => {
            progress.end();
            let _ = fs::remove_dir_all(&folder);
            println!("{}, from seed {} on, {:.1} s: nothing lost", told, asked.seed, start.elapsed().as_secs_f64());
        }
        Err(trouble) => {
            progress.end();
            println!("kill: after {} kills: {}", kills, trouble);
            println!("again: kill {} --seed {}; the files are in {}", asked.times, asked.seed, folder.display());
            exit(1);
        }
    }
}

/// All kills, and what came of them in words.
fn all(asked: &Asked, folder: &Path, look: &mut dyn FnMut(u64)) -> Result<String, Trouble> {
    fs::create_dir_all(folder).map_err(|error| format!("{}: {}", folder.display(), error))?;
    let mut trial = Trial::new(&asked.programs, folder, asked.seed);
    trial.refused()?;
    while trial.count.kills < asked.times {
        trial.kill()?;
        if trial.count.kills % 20 == 10 {
            trial.full()?;
            trial.refused()?;
        }
        look(trial.count.kills);
    }
    let count = &trial.count;
    Ok(format!(
        "kill: {} kills, {} of them before an answer; {} of {} lines answered, {} records torn, {} files cut, {} images, {} full disks",
        count.kills, count.early, count.answers, count.lines, count.torn, count.cut, count.images, count.full
    ))
}

fn parse(words: Vec<String>) -> Result<Asked, String> {
    let (mut times, mut seed) = (None, None);
    let mut words = words.into_iter().peekable();
    while let Some(word) = words.peek().cloned() {
        if word == "--seed" {
            words.next();
            let first = words.next().and_then(|word| word.parse().ok()).ok_or("no number follows --seed")?;
            if seed.replace(first).is_some() {
                return Err("--seed twice".to_string());
            }
        } else if let (None, Ok(number)) = (times, word.parse::<u64>()) {
            words.next();
            times = Some(number);
        } else {
            break;
        }
    }
    let folder = PathBuf::from(words.next().ok_or("no folder")?);
    let before: Vec<_> = words.map(Into::into).collect();
    let program = |name: &str| before.iter().cloned().chain([folder.join(name).into_os_string()]).collect();
    Ok(Asked {
        times: times.unwrap_or(300),
        seed: seed.unwrap_or(1),
        programs: Programs { desk: program("desk"), snapshot: program("snapshot") },
    })
}
