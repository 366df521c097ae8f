//! The killing test finds nothing wrong with the straight version's desk, and finds every slip of it. DEPOT_FORGETS names the library of
//! `forgets.c`, for the slips that only a disk that forgets can show; `tools/rust.sh test` makes it.

use std::ffi::OsString;
use std::path::Path;
use std::{env, fs, process};

use kill::desk::Programs;
use kill::trials::{Count, Trial, Trouble};

/// The words that start a program: on a disk that forgets, if that is asked for.
fn words(forgets: Option<&OsString>) -> Vec<OsString> {
    forgets.map_or(Vec::new(), |library| {
        let mut word = OsString::from("LD_PRELOAD=");
        word.push(library);
        vec!["env".into(), word]
    })
}

/// So many kills of the desk with a slip.
fn kills(slip: &str, forgets: Option<&OsString>, times: u64, seed: u64) -> Result<Count, Trouble> {
    let own = |name: &str| [env!("CARGO_BIN_EXE_straight_desk"), slip, name].map(OsString::from);
    let program = |name: &str| words(forgets).into_iter().chain(own(name)).collect();
    let programs = Programs { desk: program("desk"), snapshot: program("snapshot") };
    let disk = if forgets.is_some() { "forgets" } else { "keeps" };
    let folder = env::temp_dir().join(format!("depot-kill-{}-{}-{}-{}", slip, disk, process::id(), seed));
    let outcome = tried(&programs, &folder, times, seed);
    fs::remove_dir_all(&folder).expect("the folder is there");
    outcome
}

fn tried(programs: &Programs, folder: &Path, times: u64, seed: u64) -> Result<Count, Trouble> {
    fs::create_dir_all(folder).expect("a folder");
    let mut trial = Trial::new(programs, folder, seed);
    trial.refused()?;
    while trial.count.kills < times {
        trial.kill()?;
        if trial.count.kills % 10 == 5 {
            trial.full()?;
            trial.refused()?;
        }
    }
    Ok(trial.count)
}

fn finds(slips: &[&str], forgets: Option<&OsString>) {
    for slip in slips {
        let found = (1..=4).find_map(|seed| kills(slip, forgets, 60, seed).err());
        println!("{}: {:?}", slip, found);
        assert!(found.is_some(), "{} is not found", slip);
    }
}

fn finds_nothing(forgets: Option<&OsString>) {
    let count = kills("None", forgets, 60, 1).unwrap_or_else(|trouble| panic!("{}", trouble));
    println!("{:?}", count);
    assert!(count.cut > 5 && count.images > 2 && count.full > 2 && count.answers > 1_000, "{:?}", count);
}

#[test]
fn no_slip_nothing_lost() {
    finds_nothing(None);
}

#[test]
fn every_slip_is_found() {
    let slips = [
        "AnswersFirst", "Gathers", "KeepsTail", "RecordsRefusals", "ForgetsLast", "ForgetsImage", "GoesOnWhenFull", "CutsFaults",
        "CutsLong", "SavesAnother",
    ];
    finds(&slips, None);
}

#[test]
fn on_a_disk_that_forgets() {
    let Some(forgets) = env::var_os("DEPOT_FORGETS") else {
        println!("DEPOT_FORGETS names no library: left out");
        return;
    };
    finds_nothing(Some(&forgets));
    finds(&["NeverSyncs", "SyncsLate"], Some(&forgets));
}
